//! Records with their sheets, worked out by hand.

use crate::known::Known;
use crate::machine::{Entry, Sizes};
use crate::record::Given;
use crate::record_cases::RecordRows;

/// A row written by hand: thread, order, kind, word, and the value if one is recorded.
type Row = (u8, u8, u8, u8, Option<u32>);

fn record(nodes: u8, threads: u8, rows: &[Row]) -> RecordRows {
    let mut record = RecordRows::new(Sizes { nodes, fan_out: 1, threads });
    for &(thread, order, kind, word, value) in rows {
        record.push(thread, order, Given { entry: Entry { kind, word }, value });
    }
    record
}

fn known(name: &'static str, file: Vec<u8>, sheet: String) -> Known {
    Known { name, file, journal: 0, sheet }
}

/// Document 01's worked run, each word's value recorded: one reader by node 1. Its
/// arrival at the root is one from a node, 131,072.
const WORKED: [Row; 6] = [
    (0, 65, 0, 33, None),
    (0, 0, 1, 0, Some(0)),
    (0, 0, 1, 1, Some(0)),
    (0, 0, 1, 0, Some(0)),
    (0, 0, 2, 0, Some(131_072)),
    (0, 0, 2, 1, Some(1)),
];

/// The worked run's sheet: its first lines, its first lock's root, node 1 and thread 0.
fn worked_sheet(first: &str, root: &str, node: u8, thread: &str) -> String {
    format!(
        "{first}\nroot {root}\nnode 1 {node}\nqueue free 0 0\nthread 0 {thread}\nthread 1 idle - 0\n\
         root 0 0 open\nnode 1 0\nqueue free 0 0\nthread 0 idle - 0\nthread 1 idle - 0\n"
    )
}

/// The worked run with another row in the place of one.
fn worked_but(place: usize, row: Row) -> Vec<u8> {
    let mut rows = WORKED;
    rows[place] = row;
    record(2, 2, &rows).file()
}

fn of_the_worked_run() -> Vec<Known> {
    let calling = "calling - 0";
    vec![
        known(
            "worked",
            record(2, 2, &WORKED).file(),
            worked_sheet("answer 0 at 6", "0 1 open", 1, "reading 1 0"),
        ),
        known(
            "worked-no-values",
            record(2, 2, &WORKED.map(|(thread, order, kind, word, _)| (thread, order, kind, word, None)))
                .file(),
            worked_sheet("answer 0 at 6", "0 1 open", 1, "reading 1 0"),
        ),
        known(
            "worked-kind",
            worked_but(4, (0, 0, 3, 0, Some(131_072))),
            worked_sheet("answer 11 at 4\nentry 2 0 131072", "0 0 open", 0, calling),
        ),
        known(
            "worked-word",
            worked_but(0, (0, 65, 0, 97, None)),
            worked_sheet("answer 11 at 0\nentry 0 33 -", "0 0 open", 0, "idle - 0"),
        ),
        known(
            "worked-value",
            worked_but(5, (0, 0, 2, 1, Some(2))),
            worked_sheet("answer 12 at 5\nentry 2 1 1", "0 1 open", 0, calling),
        ),
        // An arrival from a node that was recorded as a direct one.
        known(
            "worked-value-direct",
            worked_but(4, (0, 0, 2, 0, Some(2))),
            worked_sheet("answer 12 at 4\nentry 2 0 131072", "0 0 open", 0, calling),
        ),
        known(
            "worked-value-of-a-beginning",
            worked_but(0, (0, 65, 0, 33, Some(0))),
            worked_sheet("answer 12 at 0\nentry 0 33 -", "0 0 open", 0, "idle - 0"),
        ),
        // 11 goes before 12.
        known(
            "worked-word-and-value",
            worked_but(2, (0, 0, 1, 0, Some(7))),
            worked_sheet("answer 11 at 2\nentry 1 1 0", "0 0 open", 0, calling),
        ),
        known(
            "worked-thread-2",
            worked_but(3, (2, 0, 1, 0, Some(0))),
            worked_sheet("answer 5 at 3", "0 0 open", 0, calling),
        ),
        known(
            "worked-order-66",
            worked_but(3, (0, 66, 1, 0, Some(0))),
            worked_sheet("answer 6 at 3", "0 0 open", 0, calling),
        ),
        known(
            "worked-unlock",
            worked_but(3, (0, 2, 1, 0, Some(0))),
            worked_sheet("answer 7 at 3", "0 0 open", 0, calling),
        ),
    ]
}

/// Two locks of one node, with a line for each of two threads.
fn small_sheet(first: &str, locks: [[&str; 3]; 2]) -> String {
    let lock = |[root, first, second]: [&str; 3]| {
        format!("root {root}\nqueue free 0 0\nthread 0 {first}\nthread 1 {second}\n")
    };
    format!("{first}\n{}{}", lock(locks[0]), lock(locks[1]))
}

const FRESH: [&str; 3] = ["0 0 open", "idle - 0", "idle - 0"];

/// Thread 0 writes the second lock: its words have 64 added, and closed is 1.
const WRITES_SECOND: [Row; 3] = [(0, 129, 0, 97, None), (0, 0, 1, 64, Some(0)), (0, 0, 2, 64, Some(1))];

/// Two readers straight at the root; the second's swap fails, and finds the first's
/// direct arrival, 2.
const COLLIDING: [Row; 6] = [
    (0, 64, 0, 33, None),
    (1, 64, 0, 33, None),
    (0, 0, 1, 0, Some(0)),
    (1, 0, 1, 0, Some(0)),
    (0, 0, 2, 0, Some(2)),
    (1, 0, 3, 0, Some(2)),
];

/// Both read; thread 0's upgrade is denied.
const DENIED: [Row; 8] = [
    (0, 64, 0, 33, None),
    (0, 0, 1, 0, Some(0)),
    (0, 0, 2, 0, Some(2)),
    (1, 64, 0, 33, None),
    (1, 0, 1, 0, Some(2)),
    (1, 0, 2, 0, Some(4)),
    (0, 3, 0, 33, None),
    (0, 0, 10, 0, Some(4)),
];

fn of_two_threads() -> Vec<Known> {
    let mut unclosed = WRITES_SECOND;
    unclosed[2].4 = Some(0);
    let mut first_lock = WRITES_SECOND;
    first_lock[1].3 = 0;
    let mut stale = COLLIDING;
    stale[5].4 = Some(0);
    let booking = [(0, 1, 0, 33, None), (0, 0, 1, 0, None), (0, 0, 2, 0, None), (0, 96, 11, 33, None)];
    vec![
        known("no-rows", record(1, 2, &[]).file(), small_sheet("answer 0 at 0", [FRESH, FRESH])),
        known(
            "second-lock",
            record(1, 2, &WRITES_SECOND).file(),
            small_sheet("answer 0 at 3", [FRESH, ["0 0 closed", "writing - 0", "idle - 0"]]),
        ),
        known(
            "second-lock-not-closed",
            record(1, 2, &unclosed).file(),
            small_sheet("answer 12 at 2\nentry 2 64 1", [FRESH, ["0 0 open", "calling - 0", "idle - 0"]]),
        ),
        known(
            "second-lock-word-of-the-first",
            record(1, 2, &first_lock).file(),
            small_sheet("answer 11 at 1\nentry 1 64 0", [FRESH, ["0 0 open", "calling - 0", "idle - 0"]]),
        ),
        known(
            "failed-swap",
            record(1, 2, &COLLIDING).file(),
            small_sheet("answer 0 at 6", [["1 0 open", "reading 0 0", "calling - 1"], FRESH]),
        ),
        // The value that the swap was to replace.
        known(
            "failed-swap-stale-value",
            record(1, 2, &stale).file(),
            small_sheet("answer 12 at 5\nentry 3 0 2", [["1 0 open", "reading 0 0", "calling - 0"], FRESH]),
        ),
        known(
            "denied-upgrade",
            record(1, 2, &DENIED).file(),
            small_sheet("answer 0 at 8", [["2 0 open", "reading 0 0", "reading 0 0"], FRESH]),
        ),
        // There is no till.
        known(
            "booking",
            record(1, 2, &booking).file(),
            small_sheet("answer 6 at 3", [["0 0 closed", "writing - 0", "idle - 0"], FRESH]),
        ),
    ]
}

/// Records that are refused before their first row.
fn refused() -> Vec<Known> {
    let line = |name, file: &[u8], line: &str| known(name, file.to_vec(), format!("{line}\n"));
    vec![
        line("length-0", &[], "answer 1 at 0"),
        line("length-1", &[1], "answer 1 at 0"),
        line("length-2", &[1, 1], "answer 1 at 0"),
        line("n-0", &[0, 1, 1], "answer 2 at 0"),
        line("n-33", &[33, 1, 1], "answer 2 at 0"),
        line("f-0", &[1, 0, 1], "answer 2 at 0"),
        line("f-17", &[1, 17, 1], "answer 2 at 0"),
        line("t-0", &[1, 1, 0], "answer 2 at 0"),
        line("t-65", &[1, 1, 65], "answer 2 at 0"),
        line("length-4", &[1, 1, 1, 0], "answer 3 at 0"),
        line("length-10", &[1, 1, 1, 0, 64, 0, 33, 255, 255, 255], "answer 3 at 0"),
        line("length-12", &[1, 1, 1, 0, 64, 0, 33, 255, 255, 255, 255, 0], "answer 3 at 0"),
        line("size-before-length", &[1, 1, 65, 0], "answer 2 at 0"),
    ]
}

pub fn all() -> Vec<Known> {
    of_the_worked_run().into_iter().chain(of_two_threads()).chain(refused()).collect()
}
