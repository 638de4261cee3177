//! Share tables as text: laid out in many ways, with words that don't belong, and damaged.

use super::{granules, tables};
use crate::rng::Rng;
use crate::share_table::ShareTable;

/// Words that are wrong somewhere, or only look so.
pub const ODD_WORDS: [&[u8]; 52] = [
    b"granule",
    b"partition",
    b"task",
    b"/",
    b"//",
    b"1/2",
    b"0",
    b"00",
    b"1",
    b"007",
    b"16",
    b"17",
    b"1000",
    b"1001",
    b"4096",
    b"4097",
    b"65535",
    b"65536",
    b"65540",
    b"99999",
    b"131072",
    b"0000000000000000000000000000004",
    b"0000000000065535",
    b"0000000000065536",
    b"4294967300",
    b"18446744073709551620",
    b"340282366920938463463374607431768211460",
    b"-1",
    b"+1",
    b"1.0",
    b"0x10",
    b"1e3",
    b"1,000",
    b"4x",
    b"x4",
    b"Granule",
    b"granules",
    b"granul",
    b"Partition",
    b"partitions",
    b"partitio",
    b"partition4",
    b"tasks",
    b"tas",
    b"#",
    b"#1",
    b"1#",
    b"\0",
    b"\x0b",
    b"\x0c",
    b"\xff",
    "\u{a0}\u{663}".as_bytes(),
];

/// Bytes that mean something in a text, and some that look as if they did.
const BYTES: &[u8] = b"0123456789/# \t\r\nptask\0\x0b+-.\xa0";

/// What stands between words.
const GAPS: [&[u8]; 7] = [b" ", b" ", b" ", b"\t", b"\r", b"   ", b" \t\r "];

/// What may stand behind the words of a line, or in a line of its own.
const REMARKS: [&[u8]; 8] = [
    b"",
    b"",
    b" ",
    b"\r",
    b"# partition 4 1/2",
    b"#",
    b"\t## / 65536 task",
    b" #\0\xff\r",
];

/// The words of a granule's line or of a record; what a table ends with need not be a whole record.
pub type Line = Vec<Vec<u8>>;

/// A harmonic table of up to so many partitions and just so many tasks, with a granule or without.
pub fn table(rng: &mut Rng, partitions: usize, longest: usize, tasks: usize) -> ShareTable {
    let granule = granules::up_to(rng, longest);
    let parts = tables::some_harmonic(rng, granule, partitions, longest);
    let tasks = tables::tasks(rng, tasks, parts.len() / 3, 4096);
    ShareTable {
        granule: said(rng, granule),
        parts,
        tasks,
    }
}

/// One tick need not be said, and a granule that has more than 16 bits can't be.
pub fn said(rng: &mut Rng, granule: u64) -> Option<u16> {
    let silent = granule == 1 && rng.one_in(2);
    u16::try_from(granule).ok().filter(|_| !silent)
}

/// The granule first, then the partitions, then the tasks.
pub fn lines(table: &ShareTable) -> Vec<Line> {
    let word = |number: &u16| number.to_string().into_bytes();
    let mut lines = Vec::new();
    if let Some(granule) = &table.granule {
        lines.push(vec![b"granule".to_vec(), word(granule)]);
    }
    for record in table.parts.chunks(3) {
        let mut words = vec![b"partition".to_vec()];
        words.extend(record.iter().map(word));
        if record.len() == 3 {
            words.insert(3, b"/".to_vec());
        }
        lines.push(words);
    }
    for record in table.tasks.chunks(4) {
        let mut words = vec![b"task".to_vec()];
        words.extend(record.iter().map(word));
        lines.push(words);
    }
    lines
}

/// One space between words, one line for each record.
pub fn plain(table: &ShareTable) -> Vec<u8> {
    joined(&lines(table))
}

pub fn joined(lines: &[Line]) -> Vec<u8> {
    let lines = lines.iter().map(|words| words.join(&b' '));
    lines
        .flat_map(|line| [line, vec![b'\n']].concat())
        .collect()
}

/// Lines in any order that keeps that of the tasks and that of all others, with gaps, remarks and
/// zeros in front.
pub fn laid_out(rng: &mut Rng, table: &ShareTable) -> Vec<u8> {
    let mut lines = mixed(rng, lines(table));
    for word in lines.iter_mut().flatten() {
        if word[0].is_ascii_digit() && rng.one_in(8) {
            let zeros = rng.between(1, 12);
            word.splice(0..0, vec![b'0'; zeros]);
        }
    }
    let mut text = Vec::new();
    for words in &lines {
        while rng.one_in(5) {
            text.extend([rng.pick(&REMARKS), b"\n"].concat());
        }
        text.extend(line(rng, words));
        text.push(b'\n');
    }
    if rng.one_in(3) {
        text.pop();
    }
    text
}

fn mixed(rng: &mut Rng, lines: Vec<Line>) -> Vec<Line> {
    let of_tasks = |words: &Line| words[0] == b"task";
    let (mut tasks, mut parts): (Vec<Line>, Vec<Line>) = lines.into_iter().partition(of_tasks);
    let mut mixed = Vec::new();
    while !tasks.is_empty() && !parts.is_empty() {
        let next = if rng.one_in(2) {
            &mut tasks
        } else {
            &mut parts
        };
        mixed.push(next.remove(0));
    }
    [mixed, parts, tasks].concat()
}

/// Before and behind `/` there need be no gap.
fn line(rng: &mut Rng, words: &Line) -> Vec<u8> {
    let mut text = Vec::new();
    if rng.one_in(4) {
        text.extend(rng.pick(&GAPS));
    }
    for (place, word) in words.iter().enumerate() {
        let slash = place > 0 && (word == b"/" || words[place - 1] == b"/");
        if place > 0 && (!slash || rng.one_in(3)) {
            text.extend(rng.pick(&GAPS));
        }
        text.extend(word);
    }
    text.extend(rng.pick(&REMARKS));
    text
}

/// Some words are others, doubled, or left out.
pub fn spoil_words(rng: &mut Rng, lines: &mut [Line]) {
    for words in lines {
        if rng.one_in(3) {
            spoil_line(rng, words);
        }
    }
}

fn spoil_line(rng: &mut Rng, words: &mut Line) {
    let place = rng.between(0, words.len());
    let odd = rng.pick(&ODD_WORDS).to_vec();
    match rng.between(0, 4) {
        0 => words.insert(place, odd),
        1 => words.truncate(place),
        _ if place == words.len() => words.push(odd),
        2 => drop(words.remove(place)),
        _ => words[place] = odd,
    }
}

/// A fault anywhere: in a byte, in two words, in a line.
pub fn damage(rng: &mut Rng, text: &mut Vec<u8>) {
    let at = rng.between(0, text.len());
    let byte = if rng.one_in(4) {
        rng.between(0, 255) as u8
    } else {
        rng.pick(BYTES)
    };
    match rng.between(0, 7) {
        0 => text.insert(at, byte),
        1 => text.truncate(at),
        2 => swap_words(rng, text),
        3 => cut_line(rng, text, at),
        7 => repeat_line(rng, text),
        _ if at == text.len() => text.push(byte),
        4 => drop(text.remove(at)),
        _ => text[at] = byte,
    }
}

/// Two words, wherever they stand.
fn swap_words(rng: &mut Rng, text: &mut Vec<u8>) {
    let mut pieces: Vec<Vec<u8>> = Vec::new();
    for run in text.chunk_by(|one, next| one.is_ascii_whitespace() == next.is_ascii_whitespace()) {
        pieces.push(run.to_vec());
    }
    let words = (0..pieces.len()).filter(|&at| !pieces[at][0].is_ascii_whitespace());
    let words: Vec<usize> = words.collect();
    if let [_, _, ..] = words[..] {
        pieces.swap(rng.pick(&words), rng.pick(&words));
    }
    *text = pieces.concat();
}

/// A line once more, somewhere else.
fn repeat_line(rng: &mut Rng, text: &mut Vec<u8>) {
    let mut lines: Vec<&[u8]> = text.split(|&byte| byte == b'\n').collect();
    let line = rng.pick(&lines);
    lines.insert(rng.between(0, lines.len()), line);
    *text = lines.join(&b'\n');
}

/// From a place on the line ends, with its newline or without.
fn cut_line(rng: &mut Rng, text: &mut Vec<u8>, from: usize) {
    let end = text[from..].iter().position(|&byte| byte == b'\n');
    let to = end.map_or(text.len(), |end| from + end);
    let newline = usize::from(end.is_some() && rng.one_in(2));
    text.drain(from..to + newline);
}

#[cfg(test)]
mod tests {
    use super::{laid_out, plain, table};
    use crate::rng::Rng;
    use crate::share_table::read;

    #[test]
    fn every_layout_says_the_same() {
        let mut rng = Rng::new(6);
        for _ in 0..2000 {
            let tasks = rng.between(0, 5);
            let table = table(&mut rng, 4, 48, tasks);
            let text = laid_out(&mut rng, &table);
            assert_eq!(read(&plain(&table)).as_ref(), Ok(&table));
            assert_eq!(read(&text).as_ref(), Ok(&table));
        }
    }
}
