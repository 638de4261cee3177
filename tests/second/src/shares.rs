//! "Ticks", with ask 5's granules.

/// "Ticks wanted become the smallest multiple of g that is at least num·m/den". It refuses nothing:
/// without a denominator or a granule it is 0.
pub fn wants(granule: u64, m: u16, num: u16, den: u16) -> u64 {
    if den == 0 || granule == 0 {
        return 0;
    }
    let whole = u128::from(num) * u128::from(m);
    let mut multiple = 0;
    while u128::from(multiple) * u128::from(den) < whole {
        multiple += granule;
    }
    multiple
}

#[cfg(test)]
mod tests {
    use super::wants;

    #[test]
    fn rounds_up() {
        assert_eq!(wants(1, 8, 1, 100), 1);
        assert_eq!(wants(1, 8, 3, 8), 3);
        assert_eq!(wants(1, 4096, 1, 1), 4096);
        assert_eq!(wants(1, 4096, 999, 1000), 4092);
        assert_eq!(wants(1, 4, 1, 0), 0);
        assert_eq!(wants(1, 0, 5, 3), 0);
    }

    /// 3 of 8 ticks by every granule: those that divide 3 stay there, all others go on to their
    /// first multiple, from 9 on past the cycle.
    #[test]
    fn rounds_up_to_a_multiple() {
        let by_granule = [1, 2, 3, 4, 5, 8, 9, 16].map(|granule| wants(granule, 8, 3, 8));
        assert_eq!(by_granule, [3, 4, 3, 4, 5, 8, 9, 16]);
        assert_eq!(wants(4, 100, 9, 100), 12);
        assert_eq!(wants(4, 100, 8, 100), 8);
        assert_eq!([1, 3, 4, 5].map(|g| wants(g, 1000, 8, 999)), [9, 9, 12, 10]);
        assert_eq!(wants(16, 1, 1, 1000), 16);
        assert_eq!(wants(16, 4096, 1, 1), 4096);
        assert_eq!(wants(16, 4095, 1, 1), 4096);
        assert_eq!(wants(15, 4096, 1, 1), 4110);
    }

    #[test]
    fn granules_of_any_width() {
        for granule in [17, 65_537, (1 << 32) + 1, 1 << 63, u64::MAX] {
            assert_eq!(wants(granule, 8, 1, 1), granule);
            assert_eq!([wants(granule, 0, 5, 3), wants(granule, 4, 1, 0)], [0, 0]);
        }
        assert_eq!(wants(0, 8, 1, 1), 0);
        assert_eq!(wants(u64::MAX, 65_535, 65_535, 1), u64::MAX);
        assert_eq!(wants(65_535, 65_535, 65_535, 1), 65_535 * 65_535);
        // 65,535² is one more than 65,534 times 65,536.
        assert_eq!(wants(65_536, 65_535, 65_535, 1), 65_535 * 65_536);
    }
}
