//! The share table's text (docs/FORMAT.md, and docs/DECISIONS.md where it says more).

use std::vec::IntoIter;

use crate::answer::Answer;
use crate::limits::TEXT;

/// The granule of its line, if there is one, and the numbers of the records, "in the order of their
/// lines, each kind by itself".
#[derive(Clone, Debug, Default, PartialEq, Eq)]
pub struct ShareTable {
    pub granule: Option<u16>,
    pub parts: Vec<u16>,
    pub tasks: Vec<u16>,
}

impl ShareTable {
    /// Without the line g is 1.
    pub fn g(&self) -> u64 {
        self.granule.map_or(1, u64::from)
    }

    /// Takes what a line says. The granule stands once, before the partitions.
    fn take(&mut self, said: Said) -> Result<(), &'static str> {
        match said {
            Said::Nothing => {}
            Said::Granule(_) if self.granule.is_some() || !self.parts.is_empty() => {
                return Err(ONCE);
            }
            Said::Granule(granule) => self.granule = Some(granule),
            Said::Partition(numbers) => self.parts.extend(numbers),
            Said::Task(numbers) => self.tasks.extend(numbers),
        }
        Ok(())
    }
}

/// What a line says.
enum Said {
    Nothing,
    Granule(u16),
    Partition([u16; 3]),
    Task([u16; 4]),
}

/// Why there is no plan of a text.
#[derive(Clone, Debug, PartialEq, Eq)]
pub enum Wrong {
    /// The first wrong line, from 1, and what was expected there first.
    Line(usize, &'static str),
    Refused(Answer),
}

impl From<Answer> for Wrong {
    fn from(refusal: Answer) -> Wrong {
        Wrong::Refused(refusal)
    }
}

const KIND: &str = "`granule`, `partition` or `task`";
const NUMBER: &str = "a number from 0 to 65535";
const SLASH: &str = "`/`";
const END: &str = "the end of the line";
const ONCE: &str = "`granule` once, before the partitions";

/// The records, not yet judged. "Order: an overlong text, the first wrong line".
pub fn read(text: &[u8]) -> Result<ShareTable, Wrong> {
    if text.len() > TEXT {
        return Err(Answer::refused(3).into());
    }
    let mut table = ShareTable::default();
    for (index, line) in text.split(|&byte| byte == b'\n').enumerate() {
        let rest = words(line).into_iter();
        // What can't be read is told before what stands at the wrong place.
        let taken = Words { rest }.line().and_then(|said| table.take(said));
        taken.map_err(|expected| Wrong::Line(index + 1, expected))?;
    }
    Ok(table)
}

/// "words stand apart by spaces, tabs or carriage returns anywhere, and `/` is a word by itself";
/// "a comment goes from `#` to the end of its line".
fn words(line: &[u8]) -> Vec<Vec<u8>> {
    let said = line.iter().take_while(|&&byte| byte != b'#');
    let spaced = said.flat_map(|&byte| match byte {
        b'/' => b" / ".to_vec(),
        _ => vec![byte],
    });
    let spaced: Vec<u8> = spaced.collect();
    let words = spaced.split(|byte| b" \t\r".contains(byte));
    words
        .filter(|word| !word.is_empty())
        .map(<[u8]>::to_vec)
        .collect()
}

/// The words of a line that are still to be read.
struct Words {
    rest: IntoIter<Vec<u8>>,
}

impl Words {
    /// A line is blank, a comment from `#` on, `granule G`, `partition CYCLE NUM/DEN` or
    /// `task PARTITION C D T`.
    fn line(mut self) -> Result<Said, &'static str> {
        let Some(kind) = self.rest.next() else {
            return Ok(Said::Nothing);
        };
        let said = match &kind[..] {
            b"granule" => Said::Granule(self.number()?),
            b"partition" => Said::Partition(self.partition()?),
            b"task" => Said::Task(self.task()?),
            _ => return Err(KIND),
        };
        self.rest.next().map_or(Ok(said), |_| Err(END))
    }

    fn partition(&mut self) -> Result<[u16; 3], &'static str> {
        let [cycle, num] = [self.number()?, self.number()?];
        self.slash()?;
        Ok([cycle, num, self.number()?])
    }

    fn task(&mut self) -> Result<[u16; 4], &'static str> {
        let mut numbers = [0; 4];
        for number in &mut numbers {
            *number = self.number()?;
        }
        Ok(numbers)
    }

    fn slash(&mut self) -> Result<(), &'static str> {
        let slash = self.rest.next().is_some_and(|word| word == b"/");
        slash.then_some(()).ok_or(SLASH)
    }

    fn number(&mut self) -> Result<u16, &'static str> {
        let word = self.rest.next().ok_or(NUMBER)?;
        number(&word).ok_or(NUMBER)
    }
}

/// "Numbers are decimal, from 0 to 65535".
fn number(word: &[u8]) -> Option<u16> {
    let mut number = 0;
    for byte in word {
        let digit = (*byte as char).to_digit(10)?;
        number = 10 * number + digit;
        if number > 65535 {
            return None;
        }
    }
    Some(number as u16)
}

#[cfg(test)]
mod tests {
    use super::{read, words, ShareTable, Wrong, END, KIND, NUMBER, ONCE, SLASH};
    use crate::answer::Answer;

    fn parts(text: &str) -> Vec<u16> {
        read(text.as_bytes()).unwrap_or_default().parts
    }

    #[test]
    fn words_and_comments() {
        let line = b"\t1/2 / x//y\r\t#1/2 # 3";
        let said = words(line).concat();
        assert_eq!((words(line).len(), &said[..]), (8, &b"1/2/x//y"[..]));
        assert!(words(b"# partition").is_empty());
    }

    #[test]
    fn both_kinds_count_by_themselves() {
        let text = b"task 2 1 4 5\n\n  partition 4 1 / 4 # first\r\ntask 1 2 3 6\npartition 8 3/8";
        let table = ShareTable {
            granule: None,
            parts: vec![4, 1, 4, 8, 3, 8],
            tasks: vec![2, 1, 4, 5, 1, 2, 3, 6],
        };
        assert_eq!(read(text), Ok(table));
        assert_eq!(read(b""), Ok(ShareTable::default()));
    }

    #[test]
    fn numbers() {
        assert_eq!(parts("partition 0 65535/0065535"), [0, 65535, 65535]);
        for word in ["65536", "0065536", "99999999999999999999", "-1", "1x", "x"] {
            let text = format!("partition {word} 1/2");
            assert_eq!(read(text.as_bytes()), Err(Wrong::Line(1, NUMBER)), "{word}");
        }
    }

    #[test]
    fn the_first_wrong_line() {
        for (line, expected) in [
            ("partitions 4 1/2", KIND),
            ("/", KIND),
            ("partition", NUMBER),
            ("partition / 1/2", NUMBER),
            ("partition 4 1 2", SLASH),
            ("partition 4 1", SLASH),
            ("partition 4 1/", NUMBER),
            ("partition 4 1/2/3", END),
            ("task 1 1 2", NUMBER),
            ("task 1 1 2 3 4", END),
            ("granules 4", KIND),
            ("granule4", KIND),
            ("granule", NUMBER),
            ("granule # 4", NUMBER),
            ("granule /", NUMBER),
            ("granule 65536", NUMBER),
            ("granule -1", NUMBER),
            ("granule 4 4", END),
            ("granule 4/1", END),
            ("granule 4 granule 4", END),
        ] {
            let text = format!("# first\n{line}\nnor this");
            assert_eq!(read(text.as_bytes()), Err(Wrong::Line(2, expected)));
        }
    }

    #[test]
    fn the_granule() {
        let granule = |text: &str| read(text.as_bytes()).map(|table| table.granule);
        assert_eq!(granule("granule 4"), Ok(Some(4)));
        assert_eq!(granule("\tgranule\r0016#4\npartition 4 1/2"), Ok(Some(16)));
        assert_eq!(granule("task 1 1 1 1\n#\ngranule 0"), Ok(Some(0)));
        assert_eq!(granule("granule 65535"), Ok(Some(65_535)));
        assert_eq!(granule("#granule 4\npartition 4 1/2"), Ok(None));
        let g = |text: &[u8]| read(text).map(|table| table.g());
        assert_eq!(g(b"partition 4 1/2"), Ok(1));
        assert_eq!(g(b"granule 17"), Ok(17));
    }

    #[test]
    fn the_granule_once_and_before_the_partitions() {
        for (line, expected) in [
            ("granule 4", ONCE),
            ("granule 0", ONCE),
            ("granule", NUMBER),
            ("granule x", NUMBER),
            ("granule 65536", NUMBER),
            ("granule 4 4", END),
        ] {
            for before in ["granule 4", "partition 4 1/2", "partition 0 0/0"] {
                let text = format!("{before}\n\ntask 1 1 1 1\n{line}\ngranule");
                let wanted = Err(Wrong::Line(4, expected));
                assert_eq!(read(text.as_bytes()), wanted, "{text}");
            }
        }
    }

    #[test]
    fn an_overlong_text_comes_first() {
        let mut text = vec![b'x'; 65_536];
        assert_eq!(read(&text), Err(Wrong::Line(1, KIND)));
        text.push(b'x');
        assert_eq!(read(&text), Err(Wrong::Refused(Answer::refused(3))));
    }
}
