//! The words that a program is started with (docs/FORMAT.md).

/// "a number of up to five digits"; other words are none.
pub fn number(word: &str) -> Option<u64> {
    let digits = word.bytes().all(|byte| byte.is_ascii_digit());
    if !digits || word.len() > 5 {
        return None;
    }
    word.parse().ok()
}

#[cfg(test)]
mod tests {
    use super::number;

    #[test]
    fn up_to_five_digits() {
        for (word, wanted) in [
            ("0", 0),
            ("7", 7),
            ("129", 129),
            ("00001", 1),
            ("00000", 0),
            ("65537", 65537),
            ("99999", 99999),
        ] {
            assert_eq!(number(word), Some(wanted), "{word}");
        }
        for word in [
            "", "x", "1x", "000001", "100000", " 1", "1 ", "+1", "-1", "1.", "\u{661}",
        ] {
            assert_eq!(number(word), None, "{word}");
        }
    }
}
