//! Holds a server's record to the bench: the rows that its lock made, each with what
//! it did and with the value that it left, are run on two fresh locks until one is
//! refused or did something else. The documents have no records; docs/SPECIFICATION.md
//! says what they are.
//!
//! One row of a record is one call of [`hold_row`].

use crate::machine::{refusal, word, Bench, Entry, Pen, Sizes, Which, Word, LEAST_SHEET};

/// A record has K rows, from 0 to so many.
pub const MOST_RECORDED: usize = 4_294_967_294;
/// The bytes of a row: thread, order, kind, word, and in four, low byte first, the value.
pub const ROW: usize = 8;
/// Stands for the value where none is recorded.
pub const NOT_RECORDED: u32 = 4_294_967_295;

/// The answers that a schedule does not have.
pub mod answer {
    /// The row is taken, but its kind or word is another than the record's.
    pub const OTHER_ENTRY: u8 = 11;
    /// These are right, and the value is not.
    pub const OTHER_VALUE: u8 = 12;
}

/// What the bench gives for a row: its entry, and the value of the entry's word after
/// the row, where that word has one.
#[derive(Clone, Copy, Debug, PartialEq, Eq)]
pub struct Given {
    pub entry: Entry,
    pub value: Option<u32>,
}

impl Given {
    /// What this entry comes to, by the locks after its row.
    pub fn after(bench: &Bench, entry: Entry) -> Given {
        Given { entry, value: value_of(bench, entry.word) }
    }

    /// The sheet's second line after 11 and 12: kind, word and value, `-` for none.
    fn write(self, pen: &mut Pen) {
        pen.text(b"entry ");
        pen.number(usize::from(self.entry.kind));
        pen.text(b" ");
        pen.number(usize::from(self.entry.word));
        pen.text(b" ");
        match self.value {
            Some(value) => pen.large_number(value as usize),
            None => pen.text(b"-"),
        }
        pen.text(b"\n");
    }
}

/// The value that the locks have in an entry's word.
#[inline(always)]
fn value_of(bench: &Bench, word: u8) -> Option<u32> {
    let which = if word < word::SECOND_LOCK { Which::First } else { Which::Second };
    let lock = bench.lock(which);
    match word - which.word() {
        word::ROOT => Some(root_value(lock.root())),
        // A node's is its count.
        node @ 1..word::QUEUE => Some(u32::from(lock.word(node).count())),
        // Rows of kinds 0, 4, 6, 7, 8 and 9 have none: their words are 32 and 33.
        _ => None,
    }
}

/// The root's value: closed + 2 × direct + 131,072 × tree.
fn root_value(root: Word) -> u32 {
    u32::from(root.closed()) + 2 * u32::from(root.direct()) + 131_072 * u32::from(root.tree())
}

/// Why a row is not held: its number, and what the bench gives where it took the row.
struct Stop {
    answer: u8,
    given: Option<Given>,
}

/// Runs a row of a record and asks that it did what the record says. A refused row
/// changes nothing; one with another entry or value was run.
#[inline(always)]
fn hold_row(bench: &mut Bench, row: &[u8; ROW]) -> Result<(), Stop> {
    let [thread, order, kind, word, value @ ..] = *row;
    let entry = bench.row(thread, order).map_err(|answer| Stop { answer, given: None })?;
    let other = |answer| Err(Stop { answer, given: Some(Given::after(bench, entry)) });
    if entry != (Entry { kind, word }) {
        return other(answer::OTHER_ENTRY);
    }
    // A value that is recorded where the word has none is another too.
    let recorded = u32::from_le_bytes(value);
    if recorded != NOT_RECORDED && Some(recorded) != value_of(bench, word) {
        return other(answer::OTHER_VALUE);
    }
    Ok(())
}

/// What holding a record came to: 0 or the number of what stopped it, the rows held
/// and, except after refusals 1 to 3, the state that those rows left.
pub struct Outcome {
    pub answer: u8,
    pub held: usize,
    /// After 11 and 12.
    pub given: Option<Given>,
    pub state: Option<Bench>,
}

/// The sizes and rows of a record, or the number of the refusal (1 to 3) that it meets.
pub fn parse(record: &[u8]) -> Result<(Sizes, &[[u8; ROW]]), u8> {
    let &[nodes, fan_out, threads, ref rows @ ..] = record else {
        return Err(refusal::SHORT_FILE);
    };
    let sizes = Sizes::new(nodes, fan_out, threads).ok_or(refusal::SIZE)?;
    match rows.as_chunks() {
        (rows, []) if rows.len() <= MOST_RECORDED => Ok((sizes, rows)),
        _ => Err(refusal::LENGTH),
    }
}

/// The state that rows leave which are held. It stands apart, so that the loop that is
/// timed is not built together with this one.
#[inline(never)]
fn state_after(sizes: Sizes, rows: &[[u8; ROW]]) -> Bench {
    let mut bench = Bench::fresh(sizes);
    for [thread, order, ..] in rows {
        bench.row(*thread, *order).expect("the row was taken");
    }
    bench
}

/// Holds a record from its first row on.
pub fn run(record: &[u8]) -> Outcome {
    let (sizes, rows) = match parse(record) {
        Ok(record) => record,
        Err(answer) => return Outcome { answer, held: 0, given: None, state: None },
    };
    let mut bench = Bench::fresh(sizes);
    for (held, row) in rows.iter().enumerate() {
        if let Err(Stop { answer, given }) = hold_row(&mut bench, row) {
            // The sheet is of the state before that row, which those before it give again.
            return Outcome { answer, held, given, state: Some(state_after(sizes, &rows[..held])) };
        }
    }
    Outcome { answer: refusal::NONE, held: rows.len(), given: None, state: Some(bench) }
}

/// Holds a record and writes the sheet at the start of `page`. Returns the sheet's
/// length, or 0 where `page` is below 8,192 bytes (refusal 9); nothing is written
/// then.
pub fn record_sheet(record: &[u8], page: &mut [u8]) -> usize {
    if page.len() < LEAST_SHEET {
        return 0;
    }
    let outcome = run(record);
    let mut pen = Pen::new(page);
    pen.answer(outcome.answer, outcome.held);
    if let Some(given) = outcome.given {
        given.write(&mut pen);
    }
    if let Some(bench) = &outcome.state {
        bench.write(&mut pen);
    }
    pen.written()
}
