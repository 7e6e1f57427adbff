//! The cases of records, and which outcomes they reach.

use crate::bench_cases::{bad_row, edge_files, second_lock_edges, BenchCases};
use crate::cases::{any_rows, any_sheet, damage_anyhow, Files, Named, Reached, Source, KNOWN, SHEETS};
use crate::coverage::Coverage;
use crate::differ::Case;
use crate::known_records;
use crate::machine::{self, kind, order, refusal, word, Bench, Entry, Sizes, Which, LEAST_SHEET, MOST_ROWS};
use crate::random::Random;
use crate::record::{self, answer, Given, Outcome, NOT_RECORDED, ROW};
use crate::schedule::{any_sizes, drive, next_row, Manner, Schedule};
use crate::tally::{events, Tally};

events! {
    NoRows = "held: no rows",
    Valued = "held: every value recorded",
    Unvalued = "held: no value recorded",
    Mixed = "held: some values recorded",
    Long = "held: more than 4,096 rows",
    Failures = "held: a thread with more than 65,535 failures",

    ReadRoot = "value held: the root, read",
    ReadNode = "value held: a node, read",
    SwappedRoot = "value held: the root, swapped",
    SwappedNode = "value held: a node, swapped",
    FoundRoot = "value held: the root, swap failed",
    FoundNode = "value held: a node, swap failed",
    Stored = "value held: the root, stored",
    Denied = "value held: the root, an upgrade denied",
    SecondRoot = "value held: the second lock's root",
    SecondNode = "value held: a node of the second lock",
    ClosedCounted = "value held: the root, closed with a direct count and one from nodes",

    OtherKind = "11: the kind alone",
    OtherWord = "11: the word alone",
    OtherLock = "11: the word of the other lock",
    OtherBoth = "11: kind and word",
    OtherAndValue = "11: another value too",
    Closed = "12: the root, open or closed",
    Direct = "12: the root's direct count",
    Tree = "12: the root's count from nodes",
    Node = "12: a node's count",
    NoValue = "12: a value where the word has none",
    SecondValue = "12: at the second lock",
    First = "11 or 12 at the first row",
    Last = "11 or 12 at the last row of several",

    Short = "refusal 1",
    Size = "refusal 2",
    Length = "refusal 3",
    Thread = "refusal 5",
    Order = "refusal 6",
    Booking = "refusal 6: a booking",
    Unsuited = "refusal 7",
    RefusedLast = "refusal 5, 6 or 7 at the last row of several",
}

/// A tally of records.
pub fn tally() -> Tally {
    Tally::new(Event::NAMES, Vec::new())
}

/// The rows of a record.
#[derive(Clone)]
pub struct RecordRows {
    sizes: Sizes,
    rows: Vec<[u8; ROW]>,
}

impl RecordRows {
    pub fn new(sizes: Sizes) -> RecordRows {
        RecordRows { sizes, rows: Vec::new() }
    }

    /// Adds a row that did this and left this value.
    pub fn push(&mut self, thread: u8, order: u8, Given { entry, value }: Given) {
        let [a, b, c, d] = value.unwrap_or(NOT_RECORDED).to_le_bytes();
        self.rows.push([thread, order, entry.kind, entry.word, a, b, c, d]);
    }

    /// Runs a row and adds what it did, with the value where `valued`. What a row that
    /// is refused would have done is made up: it is not looked at.
    fn run(&mut self, bench: &mut Bench, thread: u8, order: u8, valued: bool) {
        let made_up = Entry { kind: kind::CALL_BEGUN, word: word::NONE };
        let given = bench.row(thread, order).map(|entry| Given::after(bench, entry));
        let Given { entry, value } = given.unwrap_or(Given { entry: made_up, value: None });
        self.push(thread, order, Given { entry, value: value.filter(|_| valued) });
    }

    /// What the bench gives for the rows of a schedule; `valued` says of which the value
    /// is recorded.
    pub fn of(schedule: &Schedule, mut valued: impl FnMut() -> bool) -> RecordRows {
        let mut record = RecordRows::new(schedule.sizes);
        let mut bench = Bench::fresh(schedule.sizes);
        for (&thread, &order) in schedule.threads.iter().zip(&schedule.orders) {
            record.run(&mut bench, thread, order, valued());
        }
        record
    }

    /// The same of rows in document 01's notation, with every value.
    pub fn of_text(sizes: [u8; 3], rows: &str) -> RecordRows {
        let [nodes, fan_out, threads] = sizes;
        RecordRows::of(&Schedule::new(nodes, fan_out, threads).rows(rows), || true)
    }

    pub fn len(&self) -> usize {
        self.rows.len()
    }

    pub fn row(&mut self, row: usize) -> &mut [u8; ROW] {
        &mut self.rows[row]
    }

    pub fn file(&self) -> Vec<u8> {
        let mut file = vec![self.sizes.nodes, self.sizes.fan_out, self.sizes.threads];
        file.extend(self.rows.as_flattened());
        file
    }
}

/// A record of so many rows that are all taken, with every value.
pub fn long_record(random: &mut Random, sizes: Sizes, rows: usize, manner: &Manner) -> RecordRows {
    let mut record = RecordRows::new(sizes);
    record.rows.reserve_exact(rows);
    let mut bench = Bench::fresh(sizes);
    let mut thread = 0;
    for _ in 0..rows {
        let (next, order) = next_row(random, &bench, manner, thread);
        thread = next;
        record.run(&mut bench, thread, order, true);
    }
    record
}

/// Thread 0's swap of the root fails at every fourth row: thread 1 enters or leaves
/// before it.
fn failing_record(failures: usize) -> RecordRows {
    let calls = ["1:64,0,0 0:0 ", "1:2,0,0 0:0 "];
    let rows: String = calls.into_iter().cycle().take(failures).collect();
    RecordRows::of_text([1, 1, 2], &format!("0:64,0 {rows}"))
}

/// The ways to change a row of a record.
#[derive(Clone, Copy)]
enum Change {
    Kind,
    Word,
    OtherLock,
    Entry,
    Value,
    NoValue,
    EntryAndValue,
}

/// Changes what a row did, or the value.
fn change(random: &mut Random, row: &mut [u8; ROW], change: Change) {
    let other_kind = |random: &mut Random, kind: u8| (kind + random.between(1, 10) as u8) % 11;
    let set = |row: &mut [u8; ROW], value: u32| row[4..].copy_from_slice(&value.to_le_bytes());
    let value = u32::from_le_bytes([row[4], row[5], row[6], row[7]]);
    // A value that is near, or has a part of the root's changed.
    let near = value.wrapping_add_signed(random.pick(&[1, -1, 2, -2, 3, 65_536, 131_072, -131_072]));
    let near = if near == NOT_RECORDED { value ^ 1 } else { near };
    match change {
        Change::Kind => row[2] = other_kind(random, row[2]),
        Change::Word => row[3] = row[3] & 64 | ((row[3] + random.between(1, 33) as u8) % 64),
        Change::OtherLock => row[3] ^= word::SECOND_LOCK,
        Change::Entry => (row[2], row[3]) = (other_kind(random, row[2]), random.byte()),
        Change::Value => set(row, near),
        Change::NoValue => set(row, random.pick(&[0, 1, 2, NOT_RECORDED - 1])),
        Change::EntryAndValue => {
            row[3] ^= 1;
            set(row, near);
        }
    }
}

/// What a stopped record's row and the bench differ in, with the row's place.
fn other_events(row: &[u8; ROW], given: Given, held: usize, rows: usize) -> Vec<Event> {
    let (entry, value) = (given.entry, u32::from_le_bytes([row[4], row[5], row[6], row[7]]));
    let mut events = Vec::new();
    match (row[2] != entry.kind, row[3] != entry.word) {
        (true, false) => events.push(Event::OtherKind),
        (false, true) => events.push(Event::OtherWord),
        (true, true) => events.push(Event::OtherBoth),
        (false, false) => {
            let bits = given.value.map(|given| given ^ value);
            events.push(match (bits, entry.word & !word::SECOND_LOCK) {
                (None, _) => Event::NoValue,
                (Some(1), word::ROOT) => Event::Closed,
                (Some(bits), word::ROOT) if bits < 131_072 => Event::Direct,
                (Some(_), word::ROOT) => Event::Tree,
                (Some(_), _) => Event::Node,
            });
            events.extend((entry.word >= word::SECOND_LOCK).then_some(Event::SecondValue));
        }
    }
    let entry_differs = [row[2], row[3]] != [entry.kind, entry.word];
    let value_differs = value != NOT_RECORDED && Some(value) != given.value;
    events.extend((row[3] ^ entry.word == word::SECOND_LOCK).then_some(Event::OtherLock));
    events.extend((entry_differs && value_differs).then_some(Event::OtherAndValue));
    events.extend((held == 0).then_some(Event::First));
    events.extend((held > 0 && held + 1 == rows).then_some(Event::Last));
    events
}

/// What holding the value of this row shows; `value` is the one recorded.
fn value_events(entry: Entry, value: u32) -> Vec<Event> {
    let root = entry.word & !word::SECOND_LOCK == word::ROOT;
    let mut events = Vec::new();
    events.extend(match (entry.kind, root) {
        (kind::WORD_READ, true) => Some(Event::ReadRoot),
        (kind::WORD_READ, false) => Some(Event::ReadNode),
        (kind::SWAP_DONE, true) => Some(Event::SwappedRoot),
        (kind::SWAP_DONE, false) => Some(Event::SwappedNode),
        (kind::SWAP_FAILED, true) => Some(Event::FoundRoot),
        (kind::SWAP_FAILED, false) => Some(Event::FoundNode),
        (kind::PLAIN_STORE, _) => Some(Event::Stored),
        (kind::UPGRADE_DENIED, _) => Some(Event::Denied),
        _ => None,
    });
    if entry.word >= word::SECOND_LOCK {
        events.push(if root { Event::SecondRoot } else { Event::SecondNode });
    }
    let counted = root && value & 1 == 1 && value % 131_072 > 1 && value > 131_072;
    events.extend(counted.then_some(Event::ClosedCounted));
    events
}

/// The events of a record that is held whole.
fn held_events(rows: &[[u8; ROW]], state: &Bench) -> Vec<Event> {
    let mut events = Vec::new();
    let (mut valued, mut unvalued) = (false, false);
    for &[_, _, kind, word, a, b, c, d] in rows {
        let value = u32::from_le_bytes([a, b, c, d]);
        if value != NOT_RECORDED {
            valued = true;
            events.extend(value_events(Entry { kind, word }, value));
        } else {
            // The root's or a node's, which has one.
            unvalued |= word & !word::SECOND_LOCK < word::QUEUE;
        }
    }
    events.push(match (valued, unvalued) {
        _ if rows.is_empty() => Event::NoRows,
        (true, true) => Event::Mixed,
        (true, false) => Event::Valued,
        (false, _) => Event::Unvalued,
    });
    events.extend((rows.len() > MOST_ROWS).then_some(Event::Long));
    let threads = state.sizes().threads;
    let most = (0..threads).map(|thread| state.lock(Which::First).failures(thread)).max();
    events.extend((most > Some(65_535)).then_some(Event::Failures));
    events
}

/// Counts what a record comes to.
pub fn follow(file: &[u8], reached: &mut Tally) {
    let Outcome { answer, held, given, state } = record::run(file);
    let rows = record::parse(file).map_or(&[][..], |(_, rows)| rows);
    let mut events = match answer {
        refusal::NONE => held_events(rows, &state.expect("a record that is held has a state")),
        answer::OTHER_ENTRY | answer::OTHER_VALUE => {
            other_events(&rows[held], given.expect("the bench took the row"), held, rows.len())
        }
        refusal::SHORT_FILE => vec![Event::Short],
        refusal::SIZE => vec![Event::Size],
        refusal::LENGTH => vec![Event::Length],
        refusal::THREAD => vec![Event::Thread],
        refusal::ORDER if (96..128).contains(&rows[held][1]) => vec![Event::Booking],
        refusal::ORDER => vec![Event::Order],
        _ => vec![Event::Unsuited],
    };
    let row_refused = [refusal::THREAD, refusal::ORDER, refusal::UNSUITED].contains(&answer);
    events.extend((row_refused && held > 0 && held + 1 == rows.len()).then_some(Event::RefusedLast));
    events.iter().for_each(|event| reached.count(*event as usize));
}

/// A schedule file as rows; none where it is refused before its first row.
fn rows_of_file(file: &[u8]) -> Option<Schedule> {
    let (sizes, threads, orders) = machine::parse(file).ok()?;
    Some(Schedule { sizes, threads: threads.to_vec(), orders: orders.to_vec() })
}

/// The records on both sides of every limit of sizes, orders, threads and lengths.
fn edges(coverage: &mut Coverage) -> Vec<Named> {
    let schedules = edge_files(coverage).into_iter().chain(second_lock_edges());
    let good = |(name, file): Named| Some((name, RecordRows::of(&rows_of_file(&file)?, || true).file()));
    let mut edges: Vec<_> = schedules.filter_map(good).collect();
    let sized = RecordRows::of_text([32, 16, 64], "63:95,0,0,0,0,0,0 0:1,0,0,0").file();
    for (place, sizes) in
        [[0, 1, 31, 32, 33, 255], [0, 1, 15, 16, 17, 255], [0, 1, 63, 64, 65, 255]].into_iter().enumerate()
    {
        for size in sizes {
            let mut file = sized.clone();
            file[place] = size;
            edges.push(("edge-size", file));
        }
    }
    edges
}

/// Rows of a small record, over both locks and a node.
const SMALL: &str = "0:65,0,0,0,0,0 1:1,0,0,0,0,0,0,0 0:2,0,0,0,0,0,0,0,0 1:2,0,0,0,0 \
                     0:129,0,0 1:193,0,0,0,0,0 0:130,0,0,0,0,0 1:130,0,0";

/// Makes records and counts what they come to.
pub struct RecordCases {
    coverage: Coverage,
    reached: Tally,
}

impl RecordCases {
    pub fn new() -> RecordCases {
        RecordCases { coverage: Coverage::new(), reached: tally() }
    }

    /// A record of a driven run of any manner, with the state that it ends in; all of
    /// its values are recorded, none or some.
    fn run(&mut self, random: &mut Random, rows: usize) -> (RecordRows, Bench) {
        let sizes = any_sizes(random);
        let manner = Manner::any_locks(random, sizes);
        let (schedule, bench) = drive(random, sizes, rows, &manner, &mut self.coverage);
        let share = random.pick(&[0, 50, 100, 100]);
        (RecordRows::of(&schedule, || random.chance(share)), bench)
    }

    /// Rows that are held, then one that is refused, then some that are not looked at.
    fn refused(&mut self, random: &mut Random) -> RecordRows {
        let rows = any_rows(random);
        let (mut record, mut bench) = self.run(random, rows);
        let (thread, order) = bad_row(random, &bench);
        record.run(&mut bench, thread, order, true);
        let behind = random.below(4);
        record.rows.extend(random.bytes(ROW * behind).as_chunks().0);
        record
    }

    /// A record with what one row did, or its value, changed.
    fn changed(&mut self, random: &mut Random) -> RecordRows {
        let rows = any_rows(random) + 1;
        let mut record = self.run(random, rows).0;
        let place = match random.below(8) {
            0 => 0,
            1 => rows - 1,
            _ => random.below(rows),
        };
        let kinds = [
            Change::Kind,
            Change::Word,
            Change::OtherLock,
            Change::Entry,
            Change::Value,
            Change::Value,
            Change::NoValue,
            Change::EntryAndValue,
        ];
        let kind = random.pick(&kinds);
        change(random, record.row(place), kind);
        record
    }

    /// A record with a row too few, too many, or in the place of the next.
    fn moved(&mut self, random: &mut Random) -> RecordRows {
        let rows = any_rows(random) + 2;
        let mut record = self.run(random, rows).0;
        let place = random.below(rows - 1);
        match random.below(3) {
            0 => drop(record.rows.remove(place)),
            1 => record.rows.insert(place, record.rows[place]),
            _ => record.rows.swap(place, place + 1),
        }
        record
    }

    /// Random bytes, or sizes in their ranges with rows of any bytes.
    fn random(random: &mut Random) -> Vec<u8> {
        if random.chance(50) {
            let length = random.below(100);
            return random.bytes(length);
        }
        let Sizes { nodes, fan_out, threads } = any_sizes(random);
        let mut file = vec![nodes, fan_out, threads];
        for _ in 0..random.below(10) {
            let (thread, any) = (random.below(usize::from(threads)) as u8, random.byte());
            let order = random.pick(&[0, 1, 64, 129, 192, any]);
            file.extend([thread, order, 0, if order < order::SECOND_LOCK { 33 } else { 97 }]);
            let value = if random.chance(80) { NOT_RECORDED } else { random.next() as u32 };
            file.extend(value.to_le_bytes());
        }
        file
    }

    /// A case of this record, whose outcome is counted.
    fn case(&mut self, class: &'static str, file: Vec<u8>, sheet: usize, fill: u64) -> Case {
        follow(&file, &mut self.reached);
        Case { class, file, till: Vec::new(), journal: 0, sheet, fill }
    }
}

impl Reached for RecordCases {
    fn name(&self) -> &'static str {
        "Records"
    }

    fn reached(&self) -> Vec<(&'static str, &Tally)> {
        vec![("Record", &self.reached)]
    }

    fn broken(&self) -> Option<&str> {
        self.coverage.broken()
    }
}

/// The rows of a long record of the comparison.
const LONG_ROWS: usize = 100_000;

/// Long records: held, with a row changed or lost in the middle or at the end, and one
/// with more failures than 16 bits have.
fn long_records(random: &mut Random) -> Vec<Vec<u8>> {
    let mut files = vec![failing_record(70_000).file()];
    for [nodes, fan_out, threads] in [[8, 3, 19], [32, 4, 64]] {
        let sizes = Sizes { nodes, fan_out, threads };
        let manner = Manner { lingering: 30, ..Manner::any_locks(random, sizes) };
        let record = long_record(random, sizes, LONG_ROWS, &manner);
        files.push(record.file());
        for (place, kind) in [(LONG_ROWS / 2, Change::Kind), (LONG_ROWS - 1, Change::NoValue)] {
            let mut record = record.clone();
            change(random, record.row(place), kind);
            files.push(record.file());
        }
        let mut record = record.clone();
        record.rows.remove(LONG_ROWS / 3);
        files.push(record.file());
    }
    files
}

impl Source for RecordCases {
    fn fixed(&mut self, random: &mut Random) -> Vec<Case> {
        let mut cases = Vec::new();
        for known in known_records::all() {
            cases.push(self.case(KNOWN, known.file, LEAST_SHEET, random.next()));
        }
        for (_, file) in edges(&mut self.coverage) {
            for sheet in SHEETS {
                cases.push(self.case("edges", file.clone(), sheet, random.next()));
            }
        }
        for file in BenchCases::new().every_order() {
            let rows = rows_of_file(&file).expect("the schedule has rows");
            let file = RecordRows::of(&rows, || true).file();
            cases.push(self.case("every order", file, LEAST_SHEET, random.next()));
        }
        let small = RecordRows::of_text([2, 1, 2], SMALL).file();
        for bit in 0..8 * small.len() {
            let mut file = small.clone();
            file[bit / 8] ^= 1 << (bit % 8);
            cases.push(self.case("every bit of a small record", file, LEAST_SHEET, random.next()));
        }
        for length in 0..=small.len() {
            for mut file in [small.clone(), vec![0; length], vec![1; length], vec![0xff; length]] {
                file.truncate(length);
                cases.push(self.case("every length", file, LEAST_SHEET, random.next()));
            }
        }
        for file in long_records(random) {
            for sheet in [LEAST_SHEET - 1, LEAST_SHEET] {
                cases.push(self.case("long records", file.clone(), sheet, random.next()));
            }
        }
        cases
    }

    fn any(&mut self, random: &mut Random) -> Case {
        let (class, file) = match random.below(100) {
            0..=29 => {
                let rows = any_rows(random);
                ("held records", self.run(random, rows).0.file())
            }
            30..=44 => ("records with a row that is refused", self.refused(random).file()),
            45..=69 => ("records with another entry or value", self.changed(random).file()),
            70..=84 => ("records with a row too few, too many or misplaced", self.moved(random).file()),
            85..=94 => {
                let rows = any_rows(random);
                let mut file = self.run(random, rows).0.file();
                damage_anyhow(random, &mut file);
                ("damaged records", file)
            }
            _ => ("random bytes", RecordCases::random(random)),
        };
        let sheet = any_sheet(random);
        self.case(class, file, sheet, random.next())
    }
}

#[cfg(test)]
mod tests {
    use super::*;
    use std::collections::BTreeSet;

    #[test]
    fn rows_have_eight_bytes_and_the_low_byte_first() {
        let record = RecordRows::of_text([2, 1, 1], "0:65,0,0,0,0,0").file();
        assert_eq!(record.len(), 3 + 8 * 6);
        assert_eq!(record[..11], [2, 1, 1, 0, 65, 0, 33, 255, 255, 255, 255]);
        assert_eq!(record[35..43], [0, 0, 2, 0, 0, 0, 2, 0]);
    }

    /// The small record has every kind but failures and denials at the first lock.
    #[test]
    fn small_record_has_most_kinds() {
        let record = RecordRows::of_text([2, 1, 2], SMALL);
        let first = record.rows.iter().filter(|row| row[3] < word::SECOND_LOCK);
        let kinds: BTreeSet<_> = first.map(|row| row[2]).collect();
        assert_eq!(kinds.into_iter().collect::<Vec<_>>(), [0, 1, 2, 4, 5, 6, 7, 8, 9]);
        assert!(record.rows.iter().any(|row| row[3] >= word::SECOND_LOCK));
    }

    /// One of a row's entry and value is changed, and holding it stops there.
    #[test]
    fn every_change_is_a_difference() {
        let good = RecordRows::of_text([2, 1, 2], SMALL);
        assert_eq!(record::run(&good.file()).answer, 0);
        let mut random = Random::new(1);
        for place in 0..good.len() {
            for kind in [Change::Kind, Change::Word, Change::OtherLock, Change::Value] {
                let mut record = good.clone();
                change(&mut random, record.row(place), kind);
                let outcome = record::run(&record.file());
                let other = if matches!(kind, Change::Value) { 12 } else { 11 };
                assert_eq!((outcome.answer, outcome.held), (other, place));
            }
        }
    }

    #[test]
    fn failures_have_more_than_16_bits() {
        let outcome = record::run(&failing_record(70_000).file());
        assert_eq!(outcome.answer, 0);
        assert_eq!(outcome.state.unwrap().lock(Which::First).failures(0), 70_000);
    }
}
