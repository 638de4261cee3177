//! What a call answers, in the shape of the C surface.

/// `number` is 0 where the call is not refused; the values not used are 0.
#[repr(C)]
#[derive(Clone, Copy, Debug, Default, PartialEq, Eq)]
pub struct Answer {
    pub number: u64,
    pub first: u64,
    pub second: u64,
    pub third: u64,
    pub fourth: u64,
    pub fifth: u64,
}

impl Answer {
    /// Up to four values; a fifth is told by the reader alone.
    pub fn new(number: u64, values: [u64; 4]) -> Answer {
        let [first, second, third, fourth] = values;
        Answer {
            number,
            first,
            second,
            third,
            fourth,
            fifth: 0,
        }
    }

    /// As they stand one behind the other.
    pub fn numbers(&self) -> [u64; 6] {
        [
            self.number,
            self.first,
            self.second,
            self.third,
            self.fourth,
            self.fifth,
        ]
    }

    pub fn good(values: [u64; 4]) -> Answer {
        Answer::new(0, values)
    }

    pub fn refused(number: u64) -> Answer {
        Answer::new(number, [0; 4])
    }

    /// A refusal with "its place from 1", or 0 for a place outside the table.
    pub fn refused_at(number: u64, place: usize) -> Answer {
        Answer::new(number, [place as u64, 0, 0, 0])
    }
}
