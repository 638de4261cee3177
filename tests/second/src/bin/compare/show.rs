//! A call in words, for the complaint.

use std::fmt::Write;

use crate::batch::{number, ANSWER, ANSWER_NUMBERS, GIVEN, HEAD, SLICES};

/// What an entry is called, the plain numbers that it is given, and what is lent to it.
type Names = (
    &'static str,
    &'static [&'static str],
    &'static [&'static str],
);

/// What is shown as text too.
const TEXT: &str = "text";
const LINE: &str = "plan file or line";

const ENTRIES: [Names; 21] = [
    ("wants", &["granule", "m", "num", "den"], &[]),
    ("held", &["edition", "p", "s", "n"], &["plan"]),
    ("least", &["edition", "p", "t"], &["plan"]),
    ("curve", &["edition", "p", "n"], &["plan", "list"]),
    ("check", &["edition", "granule"], &["plan", "parts"]),
    ("build", &["granule"], &["parts", "out"]),
    (
        "verdict",
        &["edition", "granule", "place"],
        &["plan", "parts", "tasks"],
    ),
    (
        "plain",
        &["edition", "granule", "place"],
        &["plan", "parts", "tasks"],
    ),
    (
        "page",
        &["edition", "granule", "place"],
        &["plan", "parts", "tasks", "rows"],
    ),
    ("counts_fill", &[], &["plan", "parts", "list"]),
    (
        "counts_held",
        &["partition", "start", "length"],
        &["plan", "parts", "list"],
    ),
    (
        "counts_held_many",
        &[],
        &["plan", "parts", "list", "questions", "answers"],
    ),
    (
        "counts_change",
        &["tick", "owner"],
        &["plan", "parts", "list"],
    ),
    ("read", &[], &["file"]),
    ("section", &["which"], &["file"]),
    (
        "write",
        &["edition", "frame"],
        &["parts", "tasks", "runs", "out"],
    ),
    ("list", &[], &["file", TEXT]),
    ("open", &[], &["desk", "jobs"]),
    ("request", &["t", "c", "d"], &["desk", "jobs"]),
    ("plan", &["read_at_once", "written_at_once"], &[TEXT, LINE]),
    ("why", &["read_at_once", "written_at_once"], &["file", TEXT]),
];

/// So many calls of each entry.
pub type Tally = [u64; ENTRIES.len()];

/// The numbers of calls beside the entries' names, of those that were called.
pub fn by_entry(tally: &Tally) -> String {
    let named = ENTRIES.iter().zip(tally).filter(|(_, calls)| **calls > 0);
    let named: Vec<String> = named
        .map(|((name, ..), calls)| format!("{name} {calls}"))
        .collect();
    named.join(", ")
}

/// The call of an entry as it was asked, and what each program made of it.
pub fn complaint(entry: usize, asked: &[u8], library: &[u8], second: &[u8]) -> String {
    let (name, given, lent) = ENTRIES[entry];
    let mut text = format!("input {name}");
    for (place, what) in given.iter().enumerate() {
        let _ = write!(text, " {what} {}", number(asked, GIVEN + 8 * place));
    }
    let slices = slices(lent, asked);
    for slice in &slices {
        text += &slice.shown(asked);
    }
    for (who, bytes) in [("library", library), ("second", second)] {
        let _ = write!(text, "\n{who} {}", answer(bytes));
        let touched =
            |slice: &&Slice| slice.differs(asked, library) || slice.differs(asked, second);
        for slice in slices.iter().filter(touched) {
            text += &slice.shown(bytes);
        }
    }
    text + &first_difference(&slices, library, second)
}

fn answer(bytes: &[u8]) -> String {
    let numbers = (0..ANSWER_NUMBERS).map(|place| number(bytes, ANSWER + 8 * place));
    let numbers: Vec<u64> = numbers.collect();
    format!("number {}, values {:?}", numbers[0], &numbers[1..])
}

/// Where the two differ first, if it is not in the answer.
fn first_difference(slices: &[Slice], library: &[u8], second: &[u8]) -> String {
    let differs = |at: &usize| library[*at] != second[*at];
    let at = (0..second.len()).find(differs).unwrap_or(0);
    if (ANSWER..SLICES).contains(&at) {
        return String::new();
    }
    match slices
        .iter()
        .find(|slice| (slice.from..slice.to).contains(&at))
    {
        Some(slice) => {
            let element = (at - slice.from) / slice.width;
            format!("\nfirst difference: {}, element {element}", slice.name)
        }
        // In the call's head, or in what fills up a slice.
        None => format!("\nfirst difference: outside of all that was lent, byte {at} of the call"),
    }
}

/// Where a lent slice stands in its call.
struct Slice {
    name: &'static str,
    lent: usize,
    width: usize,
    from: usize,
    to: usize,
}

fn slices(names: &[&'static str], asked: &[u8]) -> Vec<Slice> {
    let mut at = HEAD;
    let mut slices = Vec::new();
    for name in names {
        let [lent, width, bytes] = [0, 8, 16].map(|more| number(asked, at + more) as usize);
        let from = at + 24;
        let to = from + bytes;
        slices.push(Slice {
            name,
            lent,
            width,
            from,
            to,
        });
        at = to.next_multiple_of(8);
    }
    slices
}

impl Slice {
    fn bytes<'a>(&self, call: &'a [u8]) -> &'a [u8] {
        &call[self.from..self.to]
    }

    fn differs(&self, one: &[u8], other: &[u8]) -> bool {
        self.bytes(one) != self.bytes(other)
    }

    fn shown(&self, call: &[u8]) -> String {
        let (lent, behind) = self.bytes(call).split_at(self.lent * self.width);
        let mut text = format!("\n  {} [{}]", self.name, elements(lent, self.width));
        if !behind.is_empty() {
            let _ = write!(text, ", behind it [{}]", elements(behind, self.width));
        }
        if [TEXT, LINE].contains(&self.name) {
            let read = String::from_utf8_lossy(lent);
            let _ = write!(text, ": {:?}", read.trim_end_matches('\u{fffd}'));
        }
        text
    }
}

/// The elements as numbers of their width, many equal neighbours once: `7 x 30`.
fn elements(bytes: &[u8], width: usize) -> String {
    let each: Vec<&[u8]> = bytes.chunks(width).collect();
    let mut shown = Vec::new();
    for run in each.chunk_by(|one, next| one == next) {
        let one = element(run[0]);
        match run.len() {
            few @ 0..=4 => shown.extend(vec![one; few]),
            many => shown.push(format!("{one} x {many}")),
        }
    }
    shown.join(", ")
}

/// A number of one, two or four bytes, or a record of numbers of four.
fn element(bytes: &[u8]) -> String {
    match *bytes {
        [one] => one.to_string(),
        [low, high] => u16::from_le_bytes([low, high]).to_string(),
        [one, two, three, four] => u32::from_le_bytes([one, two, three, four]).to_string(),
        _ => {
            let numbers: Vec<String> = bytes.chunks(4).map(element).collect();
            format!("({})", numbers.join(" "))
        }
    }
}

#[cfg(test)]
mod tests {
    use second::Answer;

    use super::{complaint, elements};
    use crate::batch::{Batch, Entry};

    /// Two calls, of which the second comes back with another number at a place.
    fn shown(changed: usize) -> String {
        let mut batch = Batch::new();
        batch.call(Entry::Wants, &[1, 1, 1, 1], Answer::good([1, 0, 0, 0]));
        let start = batch.asked.len();
        let call = batch.call(Entry::Build, &[1], Answer::good([2, 0, 0, 0]));
        let [before, after] = [[7; 9], [1, 1, 7, 7, 7, 7, 7, 7, 7]];
        call.reads::<u16>(&[2, 1, 1])
            .writes::<u16>(3, &before, &after);
        let mut reply = batch.expected.clone();
        reply[start + changed] += 1;
        let call = batch.differing(&reply).unwrap_or_default();
        complaint(
            Entry::Build as usize,
            &batch.asked[call.clone()],
            &reply[call.clone()],
            &batch.expected[call],
        )
    }

    #[test]
    fn an_answer_that_differs() {
        let lent = "\n  out [1, 1, 7], behind it [7 x 6]";
        let input = "input build granule 1\n  parts [2, 1, 1]\n  out [7, 7, 7], behind it [7 x 6]";
        let library = format!("\nlibrary number 0, values [3, 0, 0, 0, 0]{lent}");
        let second = format!("\nsecond number 0, values [2, 0, 0, 0, 0]{lent}");
        assert_eq!(shown(48), [input, &library, &second].concat());
    }

    #[test]
    fn numbers_of_each_width() {
        let record = [1, 0, 0, 0, 2, 1, 0, 0];
        assert_eq!(elements(&record, 1), "1, 0, 0, 0, 2, 1, 0, 0");
        assert_eq!(elements(&record, 2), "1, 0, 258, 0");
        assert_eq!(elements(&record, 4), "1, 258");
        assert_eq!(elements(&record, 8), "(1 258)");
    }

    #[test]
    fn memory_that_differs() {
        assert!(shown(120).ends_with("\nfirst difference: parts, element 0"));
        assert!(shown(126)
            .ends_with("\nfirst difference: outside of all that was lent, byte 126 of the call"));
        assert!(shown(160).ends_with("\nfirst difference: out, element 4"));
    }
}
