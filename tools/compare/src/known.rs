//! The runs and small inputs that document 01 names, with what they must give;
//! document 02 changes P8's ending and the hand-over, which has runs of its own.

use crate::dispatcher::{self, LEAST_SCHEDULE};
use crate::known_credit::{self, KnownCredit};
use crate::known_sites::{self, KnownSite};
use crate::machine::{self, LEAST_SHEET};
use crate::plain;
use crate::schedule::{rows_named, Schedule};
use crate::ticket;
use crate::{credit, known_records, known_tickets, known_two_locks, record, site};

/// A file with the sheet that its run must give.
pub struct Known {
    pub name: &'static str,
    pub file: Vec<u8>,
    /// The journal's length; 0 for an engine that has none.
    pub journal: usize,
    pub sheet: String,
}

/// P5's journal, then the bytes of "`00 01 01 01 02 02`, then `21 00 01 00 00
/// 01`".
const P5_JOURNAL: [u8; 12] = [0x00, 0x01, 0x01, 0x01, 0x02, 0x02, 0x21, 0x00, 0x01, 0x00, 0x00, 0x01];
/// "For `02 01 02 06 00`, six bytes `00`, then `41` and five `00`"
const P5_FILE: [u8; 17] = [2, 1, 2, 6, 0, 0, 0, 0, 0, 0, 0, 0x41, 0, 0, 0, 0, 0];

/// A run with its whole sheet.
pub fn run_of_two(name: &'static str, sizes: (u8, u8, u8), rows: &str, sheet: &str) -> Known {
    let file = Schedule::new(sizes.0, sizes.1, sizes.2).rows(rows).file();
    let journal = 2 * rows_named(&file);
    Known { name, file, journal, sheet: sheet.to_string() }
}

/// A run that names the first lock alone, with its sheet down to that lock's lines.
pub fn run(name: &'static str, sizes: (u8, u8, u8), rows: &str, sheet: &str) -> Known {
    run_of_two(name, sizes, rows, &with_fresh_lock(sheet, sizes.0, sizes.2))
}

/// Document 02: "The sheet prints the second lock's lines after the first's, without
/// an answer line." A sheet that has the answer line alone stays as it is.
fn with_fresh_lock(sheet: &str, nodes: u8, threads: u8) -> String {
    let mut sheet = sheet.to_string();
    if sheet.lines().count() > 1 {
        sheet += "root 0 0 open\n";
        (1..nodes).for_each(|node| sheet += &format!("node {node} 0\n"));
        sheet += "queue free 0 0\n";
        (0..threads).for_each(|thread| sheet += &format!("thread {thread} idle - 0\n"));
    }
    sheet
}

/// A run of the plain engine, which has no journal and no second lock.
fn plain_run(name: &'static str, sizes: (u8, u8, u8), rows: &str, sheet: &str) -> Known {
    Known { journal: 0, ..run_of_two(name, sizes, rows, sheet) }
}

/// P1 to P12; P7 and P8 with both their endings. Document 02: "P8 then ends with
/// root 2 after one more row, seven in all."
fn runs() -> Vec<Known> {
    vec![
        run("p01", (1, 1, 1), "", "answer 0 at 0\nroot 0 0 open\nqueue free 0 0\nthread 0 idle - 0\n"),
        run("p02", (1, 1, 1), "0:64,0,0", "answer 0 at 3\nroot 1 0 open\nqueue free 0 0\nthread 0 reading 0 0\n"),
        run(
            "p03",
            (1, 1, 1),
            "0:64,0,0 0:2,0,0",
            "answer 0 at 6\nroot 0 0 open\nqueue free 0 0\nthread 0 idle - 0\n",
        ),
        run(
            "p04",
            (1, 1, 1),
            "0:64,0,0 0:2,0,0 0:2",
            "answer 7 at 6\nroot 0 0 open\nqueue free 0 0\nthread 0 idle - 0\n",
        ),
        run(
            "p05",
            (2, 1, 2),
            "0:65,0,0,0,0,0",
            "answer 0 at 6\nroot 0 1 open\nnode 1 1\nqueue free 0 0\nthread 0 reading 1 0\nthread 1 idle - 0\n",
        ),
        run(
            "p06",
            (2, 1, 2),
            "0:65,0,0,0,0,0 0:2,0,0,0,0",
            "answer 0 at 11\nroot 0 0 open\nnode 1 0\nqueue free 0 0\nthread 0 idle - 0\nthread 1 idle - 0\n",
        ),
        run(
            "p07-held",
            (1, 1, 1),
            "0:1,0,0",
            "answer 0 at 3\nroot 0 0 closed\nqueue free 0 0\nthread 0 writing - 0\n",
        ),
        run(
            "p07",
            (1, 1, 1),
            "0:1,0,0 0:2,0,0,0,0",
            "answer 0 at 8\nroot 0 0 open\nqueue free 0 0\nthread 0 idle - 0\n",
        ),
        run(
            "p08-failed",
            (1, 1, 2),
            "0:64 1:64 0:0 1:0 0:0 1:0",
            "answer 0 at 6\nroot 1 0 open\nqueue free 0 0\nthread 0 reading 0 0\nthread 1 calling - 1\n",
        ),
        run(
            "p08",
            (1, 1, 2),
            "0:64 1:64 0:0 1:0 0:0 1:0 1:0",
            "answer 0 at 7\nroot 2 0 open\nqueue free 0 0\nthread 0 reading 0 0\nthread 1 reading 0 1\n",
        ),
        run(
            "p09",
            (1, 1, 2),
            "0:1,0,0 1:64,0,0,0,0,0",
            "answer 0 at 9\nroot 0 0 closed\nqueue free 1 0\nthread 0 writing - 0\nthread 1 asleep - 0\n",
        ),
        run(
            "p10",
            (1, 1, 2),
            "0:1,0,0 1:64,0,0,0,0,0 0:2,0,0,0,0,0",
            "answer 0 at 15\nroot 1 0 open\nqueue free 0 0\nthread 0 idle - 0\nthread 1 reading 0 0\n",
        ),
        run(
            "p11",
            (2, 1, 3),
            "0:64,0,0 1:65,0 2:1,0,0,0,0,0,0 1:0,0,0,0",
            "answer 0 at 16\nroot 1 1 closed\nnode 1 1\nqueue free 1 1\n\
             thread 0 reading 0 0\nthread 1 reading 1 0\nthread 2 asleep - 0\n",
        ),
        run("p12", (1, 1, 1), "1:64", "answer 5 at 0\nroot 0 0 open\nqueue free 0 0\nthread 0 idle - 0\n"),
    ]
}

/// Runs of document 02's hand-over, "readers hand over to writers and writers to
/// readers". With document 01's, where the first group leaves first, each would
/// end otherwise, but for the one with writers alone.
fn hand_overs() -> Vec<Known> {
    vec![
        // "one group, which a reader joins even behind a writer"; with a group
        // for each of the readers there would be three.
        run(
            "queue-joins-behind-writer",
            (1, 1, 4),
            "0:1,0,0 1:64,0,0,0,0,0 2:1,0,0,0,0,0 3:64,0,0,0,0,0",
            "answer 0 at 21\nroot 0 0 closed\nqueue free 2 1\n\
             thread 0 writing - 0\nthread 1 asleep - 0\nthread 2 asleep - 0\nthread 3 asleep - 0\n",
        ),
        // Both readers are let in at once; the writer is still queued.
        run(
            "queue-joins-behind-writer-handed",
            (1, 1, 4),
            "0:1,0,0 1:64,0,0,0,0,0 2:1,0,0,0,0,0 3:64,0,0,0,0,0 0:2,0,0,0,0,0",
            "answer 0 at 27\nroot 2 0 closed\nqueue free 1 1\n\
             thread 0 idle - 0\nthread 1 reading 0 0\nthread 2 asleep - 0\nthread 3 reading 0 0\n",
        ),
        // "A leaving writer takes that group if there is one": thread 1, who
        // wants to write and came before the reader, is passed over.
        run(
            "queue-passes-over-writer",
            (1, 1, 3),
            "0:1,0,0 1:1,0,0,0,0,0 2:64,0,0,0,0,0 0:2,0,0,0,0,0",
            "answer 0 at 21\nroot 1 0 closed\nqueue free 1 1\n\
             thread 0 idle - 0\nthread 1 asleep - 0\nthread 2 reading 0 0\n",
        ),
        // "The last reader to leave takes that writer."
        run(
            "queue-passes-over-writer-handed",
            (1, 1, 3),
            "0:1,0,0 1:1,0,0,0,0,0 2:64,0,0,0,0,0 0:2,0,0,0,0,0 2:2,0,0,0,0,0,0",
            "answer 0 at 28\nroot 0 0 closed\nqueue free 0 0\n\
             thread 0 idle - 0\nthread 1 writing - 0\nthread 2 idle - 0\n",
        ),
        // Threads 1 and 3 want to write, 2 and 4 to read; the last reader takes
        // thread 1, and one group of two readers and one of a writer stay.
        run(
            "queue-last-reader",
            (1, 1, 5),
            "0:64,0,0 1:1,0,0,0,0,0,0 2:64,0,0,0,0,0 3:1,0,0,0,0,0 4:64,0,0,0,0,0 0:2,0,0,0,0,0,0",
            "answer 0 at 35\nroot 0 0 closed\nqueue free 2 1\nthread 0 idle - 0\n\
             thread 1 writing - 0\nthread 2 asleep - 0\nthread 3 asleep - 0\nthread 4 asleep - 0\n",
        ),
        // Thread 1 leaves: both readers, though thread 3 came before thread 4.
        run(
            "queue-last-reader-handed",
            (1, 1, 5),
            "0:64,0,0 1:1,0,0,0,0,0,0 2:64,0,0,0,0,0 3:1,0,0,0,0,0 4:64,0,0,0,0,0 0:2,0,0,0,0,0,0 \
             1:2,0,0,0,0,0",
            "answer 0 at 41\nroot 2 0 closed\nqueue free 1 1\nthread 0 idle - 0\n\
             thread 1 idle - 0\nthread 2 reading 0 0\nthread 3 asleep - 0\nthread 4 reading 0 0\n",
        ),
        // "else the writer who has waited longest": thread 2.
        run(
            "queue-writers",
            (1, 1, 3),
            "0:1,0,0 2:1,0,0,0,0,0 1:1,0,0,0,0,0 0:2,0,0,0,0",
            "answer 0 at 20\nroot 0 0 closed\nqueue free 1 1\n\
             thread 0 idle - 0\nthread 1 asleep - 0\nthread 2 writing - 0\n",
        ),
    ]
}

const FRESH_7: &str = "answer 7 at 0\nroot 0 0 open\nqueue free 0 0\nthread 0 idle - 0\n";

/// The table's small inputs for refusals 1 to 7.
fn small_inputs() -> Vec<Known> {
    const FRESH_5: &str = "answer 5 at 0\nroot 0 0 open\nqueue free 0 0\nthread 0 idle - 0\n";
    const FRESH_6: &str = "answer 6 at 0\nroot 0 0 open\nqueue free 0 0\nthread 0 idle - 0\n";
    let small = |name, file: &[u8], journal, sheet| Known {
        name,
        file: file.to_vec(),
        journal,
        sheet: with_fresh_lock(sheet, 1, 1),
    };
    vec![
        small("refusal-1", &[1, 1, 1], 0, "answer 1 at 0\n"),
        small("refusal-2", &[0, 1, 1, 0, 0], 0, "answer 2 at 0\n"),
        small("refusal-3", &[1, 1, 1, 1, 0, 0], 2, "answer 3 at 0\n"),
        small("refusal-4", &[1, 1, 1, 1, 0, 0, 0x40], 1, "answer 4 at 0\n"),
        small("refusal-5", &[1, 1, 1, 1, 0, 1, 0x40], 2, FRESH_5),
        small("refusal-6", &[1, 1, 1, 1, 0, 0, 0x41], 2, FRESH_6),
        small("refusal-7", &[1, 1, 1, 1, 0, 0, 0x00], 2, FRESH_7),
    ]
}

/// Runs of the plain engine, "each row being a whole call".
fn plain_runs() -> Vec<Known> {
    let run = plain_run;
    vec![
        run("fresh", (1, 1, 1), "", "answer 0 at 0\nroot 0 open\nqueue free 0 0\nthread 0 idle - 0\n"),
        run(
            "reader-enters",
            (1, 1, 1),
            "0:64",
            "answer 0 at 1\nroot 1 open\nqueue free 0 0\nthread 0 reading - 0\n",
        ),
        run(
            "reader-leaves",
            (1, 1, 1),
            "0:64,2",
            "answer 0 at 2\nroot 0 open\nqueue free 0 0\nthread 0 idle - 0\n",
        ),
        run(
            "writer-enters",
            (1, 1, 1),
            "0:1",
            "answer 0 at 1\nroot 0 closed\nqueue free 0 0\nthread 0 writing - 0\n",
        ),
        run(
            "writer-leaves",
            (1, 1, 1),
            "0:1,2",
            "answer 0 at 2\nroot 0 open\nqueue free 0 0\nthread 0 idle - 0\n",
        ),
        // "Its sheet has no node lines and `-` for each ticket."
        run(
            "readers-by-nodes",
            (3, 1, 2),
            "0:66 1:65",
            "answer 0 at 2\nroot 2 open\nqueue free 0 0\nthread 0 reading - 0\nthread 1 reading - 0\n",
        ),
        run(
            "reader-sleeps",
            (1, 1, 2),
            "0:1 1:64",
            "answer 0 at 2\nroot 0 closed\nqueue free 1 0\nthread 0 writing - 0\nthread 1 asleep - 0\n",
        ),
        run(
            "writer-sleeps",
            (1, 1, 2),
            "0:1 1:1",
            "answer 0 at 2\nroot 0 closed\nqueue free 1 1\nthread 0 writing - 0\nthread 1 asleep - 0\n",
        ),
        run(
            "writer-closes",
            (1, 1, 2),
            "0:64 1:1",
            "answer 0 at 2\nroot 1 closed\nqueue free 1 1\nthread 0 reading - 0\nthread 1 asleep - 0\n",
        ),
        // A call that runs whole looks at a closed lock: no late arrival.
        run(
            "reader-behind-closing",
            (2, 1, 3),
            "0:64 1:1 2:65",
            "answer 0 at 3\nroot 1 closed\nqueue free 2 1\n\
             thread 0 reading - 0\nthread 1 asleep - 0\nthread 2 asleep - 0\n",
        ),
        run(
            "handed-to-reader",
            (1, 1, 2),
            "0:1 1:64 0:2",
            "answer 0 at 3\nroot 1 open\nqueue free 0 0\nthread 0 idle - 0\nthread 1 reading - 0\n",
        ),
        // Both readers are let in at once; the writer between them stays queued.
        run(
            "handed-to-readers-closed",
            (1, 1, 4),
            "0:1 1:64 2:1 3:64 0:2",
            "answer 0 at 5\nroot 2 closed\nqueue free 1 1\n\
             thread 0 idle - 0\nthread 1 reading - 0\nthread 2 asleep - 0\nthread 3 reading - 0\n",
        ),
        // "else the writer who has waited longest": thread 2.
        run(
            "handed-to-writer",
            (1, 1, 3),
            "0:1 2:1 1:1 0:2",
            "answer 0 at 4\nroot 0 closed\nqueue free 1 1\n\
             thread 0 idle - 0\nthread 1 asleep - 0\nthread 2 writing - 0\n",
        ),
        run(
            "not-the-last-reader",
            (1, 1, 3),
            "0:64 1:64 2:1 0:2",
            "answer 0 at 4\nroot 1 closed\nqueue free 1 1\n\
             thread 0 idle - 0\nthread 1 reading - 0\nthread 2 asleep - 0\n",
        ),
        run(
            "last-reader",
            (1, 1, 3),
            "0:64 1:64 2:1 0:2 1:2",
            "answer 0 at 5\nroot 0 closed\nqueue free 0 0\n\
             thread 0 idle - 0\nthread 1 idle - 0\nthread 2 writing - 0\n",
        ),
        // Threads 1 and 3 want to write, 2 and 4 to read; the last reader takes
        // thread 1, which hands over to both readers, the last of whom takes
        // thread 3, which finds nobody.
        run(
            "round-1",
            (1, 1, 5),
            "0:64 1:1 2:64 3:1 4:64 0:2",
            "answer 0 at 6\nroot 0 closed\nqueue free 2 1\nthread 0 idle - 0\n\
             thread 1 writing - 0\nthread 2 asleep - 0\nthread 3 asleep - 0\nthread 4 asleep - 0\n",
        ),
        run(
            "round-2",
            (1, 1, 5),
            "0:64 1:1 2:64 3:1 4:64 0:2 1:2",
            "answer 0 at 7\nroot 2 closed\nqueue free 1 1\nthread 0 idle - 0\n\
             thread 1 idle - 0\nthread 2 reading - 0\nthread 3 asleep - 0\nthread 4 reading - 0\n",
        ),
        run(
            "round-3",
            (1, 1, 5),
            "0:64 1:1 2:64 3:1 4:64 0:2 1:2 2:2 4:2",
            "answer 0 at 9\nroot 0 closed\nqueue free 0 0\nthread 0 idle - 0\n\
             thread 1 idle - 0\nthread 2 idle - 0\nthread 3 writing - 0\nthread 4 idle - 0\n",
        ),
        run(
            "round-4",
            (1, 1, 5),
            "0:64 1:1 2:64 3:1 4:64 0:2 1:2 2:2 4:2 3:2",
            "answer 0 at 10\nroot 0 open\nqueue free 0 0\nthread 0 idle - 0\n\
             thread 1 idle - 0\nthread 2 idle - 0\nthread 3 idle - 0\nthread 4 idle - 0\n",
        ),
    ]
}

/// Small inputs for the plain engine's refusals: "1 to 3, 5 to 7 and 9, order 0
/// under 6 and orders to a sleeper under 7".
fn plain_small_inputs() -> Vec<Known> {
    const FRESH_5: &str = "answer 5 at 0\nroot 0 open\nqueue free 0 0\nthread 0 idle - 0\n";
    const FRESH_6: &str = "answer 6 at 0\nroot 0 open\nqueue free 0 0\nthread 0 idle - 0\n";
    const FRESH_7: &str = "answer 7 at 0\nroot 0 open\nqueue free 0 0\nthread 0 idle - 0\n";
    const ASLEEP_6: &str =
        "answer 6 at 2\nroot 0 closed\nqueue free 1 0\nthread 0 writing - 0\nthread 1 asleep - 0\n";
    const ASLEEP_7: &str =
        "answer 7 at 2\nroot 0 closed\nqueue free 1 0\nthread 0 writing - 0\nthread 1 asleep - 0\n";
    let small = |name, file: &[u8], sheet: &str| Known {
        name,
        file: file.to_vec(),
        journal: 0,
        sheet: sheet.to_string(),
    };
    let asleep = |name, order: u8, sheet| {
        let rows = format!("0:1 1:64 1:{order} 0:2");
        plain_run(name, (1, 1, 2), &rows, sheet)
    };
    vec![
        small("refusal-1", &[1, 1, 1], "answer 1 at 0\n"),
        small("refusal-2", &[0, 1, 1, 0, 0], "answer 2 at 0\n"),
        small("refusal-3", &[1, 1, 1, 1, 0, 0], "answer 3 at 0\n"),
        small("refusal-5", &[1, 1, 1, 1, 0, 1, 0x40], FRESH_5),
        small("refusal-6", &[1, 1, 1, 1, 0, 0, 0x41], FRESH_6),
        small("refusal-6-go-on", &[1, 1, 1, 1, 0, 0, 0x00], FRESH_6),
        small("refusal-7", &[1, 1, 1, 1, 0, 0, 0x02], FRESH_7),
        asleep("asleep-0", 0, ASLEEP_6),
        asleep("asleep-1", 1, ASLEEP_7),
        asleep("asleep-2", 2, ASLEEP_7),
        asleep("asleep-64", 64, ASLEEP_7),
    ]
}

/// Request Five: "Joining, taking a group and every later operation keep it equal
/// to the number of writers queued."
fn numbers_of_writers() -> Vec<Known> {
    vec![
        // The writer has joined and still has the mutex.
        run(
            "number-joining",
            (1, 1, 2),
            "0:1,0,0 1:1,0,0,0,0",
            "answer 0 at 8\nroot 0 0 closed\nqueue 1 1 1\nthread 0 writing - 0\nthread 1 calling - 0\n",
        ),
        run(
            "number-two-writers",
            (1, 1, 4),
            "0:1,0,0 1:1,0,0,0,0,0 2:64,0,0,0,0,0 3:1,0,0,0,0,0",
            "answer 0 at 21\nroot 0 0 closed\nqueue free 3 2\n\
             thread 0 writing - 0\nthread 1 asleep - 0\nthread 2 asleep - 0\nthread 3 asleep - 0\n",
        ),
        // Readers leave the queue: the number stays.
        run(
            "number-readers-leave",
            (1, 1, 4),
            "0:1,0,0 1:1,0,0,0,0,0 2:64,0,0,0,0,0 3:1,0,0,0,0,0 0:2,0,0,0,0,0",
            "answer 0 at 27\nroot 1 0 closed\nqueue free 2 2\n\
             thread 0 idle - 0\nthread 1 asleep - 0\nthread 2 reading 0 0\nthread 3 asleep - 0\n",
        ),
        run(
            "number-writer-leaves",
            (1, 1, 4),
            "0:1,0,0 1:1,0,0,0,0,0 2:64,0,0,0,0,0 3:1,0,0,0,0,0 0:2,0,0,0,0,0 2:2,0,0,0,0,0,0",
            "answer 0 at 34\nroot 0 0 closed\nqueue free 1 1\n\
             thread 0 idle - 0\nthread 1 writing - 0\nthread 2 idle - 0\nthread 3 asleep - 0\n",
        ),
    ]
}

/// The same for the plain engine.
fn plain_numbers_of_writers() -> Vec<Known> {
    let run = plain_run;
    vec![
        run(
            "number-two-writers",
            (1, 1, 4),
            "0:1 1:1 2:64 3:1",
            "answer 0 at 4\nroot 0 closed\nqueue free 3 2\n\
             thread 0 writing - 0\nthread 1 asleep - 0\nthread 2 asleep - 0\nthread 3 asleep - 0\n",
        ),
        run(
            "number-readers-leave",
            (1, 1, 4),
            "0:1 1:1 2:64 3:1 0:2",
            "answer 0 at 5\nroot 1 closed\nqueue free 2 2\n\
             thread 0 idle - 0\nthread 1 asleep - 0\nthread 2 reading - 0\nthread 3 asleep - 0\n",
        ),
        run(
            "number-writer-leaves",
            (1, 1, 4),
            "0:1 1:1 2:64 3:1 0:2 2:2",
            "answer 0 at 6\nroot 0 closed\nqueue free 1 1\n\
             thread 0 idle - 0\nthread 1 writing - 0\nthread 2 idle - 0\nthread 3 asleep - 0\n",
        ),
    ]
}

/// Request Six: arrivals at a closed root.
fn late_arrivals() -> Vec<Known> {
    vec![
        // Thread 1 looks; thread 0 locks to write and hands over to thread 2 with
        // thread 3 still queued. The store is the closing step.
        run(
            "late-after-store",
            (2, 1, 4),
            "1:65,0 0:1,0,0 2:64,0,0,0,0,0 3:1,0,0,0,0,0 0:2,0,0,0,0,0 1:0,0,0,0",
            "answer 0 at 27\nroot 1 1 closed\nnode 1 1\nqueue free 1 1\nthread 0 idle - 0\n\
             thread 1 reading 1 0\nthread 2 reading 0 0\nthread 3 asleep - 0\n",
        ),
        // As before, but thread 1 comes while thread 0 writes: it joins the queue
        // and is woken as a reader of the root.
        run(
            "late-at-empty",
            (2, 1, 2),
            "1:65,0 0:1,0,0 1:0,0,0,0,0,0 0:2,0,0,0,0,0",
            "answer 0 at 17\nroot 1 0 open\nnode 1 0\nqueue free 0 0\nthread 0 idle - 0\n\
             thread 1 reading 0 0\n",
        ),
    ]
}

/// Request Seven: "order 3, upgrade". The last entry of each run's journal is
/// among the tests below.
fn upgrades() -> Vec<Known> {
    vec![
        run(
            "upgrade-granted",
            (1, 1, 1),
            "0:64,0,0 0:3,0,0",
            "answer 0 at 6\nroot 0 0 closed\nqueue free 0 0\nthread 0 writing - 0\n",
        ),
        run(
            "upgrade-granted-left",
            (1, 1, 1),
            "0:64,0,0 0:3,0,0 0:2,0,0,0,0",
            "answer 0 at 11\nroot 0 0 open\nqueue free 0 0\nthread 0 idle - 0\n",
        ),
        run(
            "upgrade-denied-direct",
            (1, 1, 2),
            "0:64,0,0 1:64,0,0 0:3,0",
            "answer 0 at 8\nroot 2 0 open\nqueue free 0 0\nthread 0 reading 0 0\nthread 1 reading 0 0\n",
        ),
        run(
            "upgrade-denied-tree",
            (2, 1, 2),
            "1:65,0,0,0,0,0 0:64,0,0 0:3,0",
            "answer 0 at 11\nroot 1 1 open\nnode 1 1\nqueue free 0 0\n\
             thread 0 reading 0 0\nthread 1 reading 1 0\n",
        ),
        // "With another ticket it first arrives directly at the root, state kept,
        // departs from its node, and then does the same with ticket 0."
        run(
            "upgrade-by-node",
            (2, 1, 1),
            "0:65,0,0,0,0,0 0:3,0,0,0,0,0,0,0,0",
            "answer 0 at 15\nroot 0 0 closed\nnode 1 0\nqueue free 0 0\nthread 0 writing - 0\n",
        ),
        run(
            "upgrade-by-node-traded",
            (2, 1, 1),
            "0:65,0,0,0,0,0 0:3,0,0",
            "answer 0 at 9\nroot 1 1 open\nnode 1 1\nqueue free 0 0\nthread 0 calling - 0\n",
        ),
        // Denied all the same, the thread keeps the ticket it traded for.
        run(
            "upgrade-by-node-denied",
            (2, 1, 2),
            "0:65,0,0,0,0,0 1:65,0,0,0 0:3,0,0,0,0,0",
            "answer 0 at 16\nroot 1 1 open\nnode 1 1\nqueue free 0 0\n\
             thread 0 reading 0 0\nthread 1 reading 1 0\n",
        ),
        run(
            "upgrade-by-node-denied-left",
            (2, 1, 2),
            "0:65,0,0,0,0,0 1:65,0,0,0 0:3,0,0,0,0,0 0:2,0,0",
            "answer 0 at 19\nroot 0 1 open\nnode 1 1\nqueue free 0 0\n\
             thread 0 idle - 0\nthread 1 reading 1 0\n",
        ),
        // "A failed swap that finds otherwise denies it too, still as kind 3."
        run(
            "upgrade-swap-denied",
            (1, 1, 2),
            "0:64,0,0 0:3,0 1:64,0,0 0:0",
            "answer 0 at 9\nroot 2 0 open\nqueue free 0 0\nthread 0 reading 0 1\nthread 1 reading 0 0\n",
        ),
        // The swap finds (1, 0, closed), from which an upgrade is granted too.
        run(
            "upgrade-swap-goes-on",
            (1, 1, 2),
            "0:64,0,0 0:3,0 1:1,0,0,0,0 0:0,0",
            "answer 0 at 12\nroot 0 0 closed\nqueue 1 0 0\nthread 0 writing - 1\nthread 1 calling - 0\n",
        ),
        run(
            "upgrade-past-writer",
            (1, 1, 2),
            "0:64,0,0 1:1,0,0,0,0,0,0 0:3,0,0 0:2,0,0,0,0",
            "answer 0 at 18\nroot 0 0 closed\nqueue free 0 0\nthread 0 idle - 0\nthread 1 writing - 0\n",
        ),
        // A reader that has arrived above and not yet at its node: tree is 1.
        run(
            "upgrade-denied-arriving",
            (2, 1, 2),
            "0:64,0,0 1:65,0,0,0,0 0:3,0",
            "answer 0 at 10\nroot 1 1 open\nnode 1 0\nqueue free 0 0\n\
             thread 0 reading 0 0\nthread 1 calling - 0\n",
        ),
        // A late arrival between an upgrade's read and its swap: the writer has
        // closed, thread 2 looked before.
        run(
            "upgrade-late-arrival",
            (2, 1, 3),
            "0:64,0,0 2:65,0 1:1,0,0,0,0,0,0 0:3,0 2:0,0,0,0 0:0",
            "answer 0 at 19\nroot 1 1 closed\nnode 1 1\nqueue free 1 1\n\
             thread 0 reading 0 1\nthread 1 asleep - 0\nthread 2 reading 1 0\n",
        ),
        run("refusal-7-upgrade", (1, 1, 1), "0:3", FRESH_7),
    ]
}

/// Request Eight: "order 4, downgrade".
fn downgrades() -> Vec<Known> {
    vec![
        run(
            "downgrade-alone",
            (1, 1, 1),
            "0:1,0,0 0:4,0,0,0,0",
            "answer 0 at 8\nroot 1 0 open\nqueue free 0 0\nthread 0 reading 0 0\n",
        ),
        run(
            "downgrade-wakes-readers",
            (1, 1, 3),
            "0:1,0,0 1:64,0,0,0,0,0 2:64,0,0,0,0,0 0:4,0,0,0,0,0",
            "answer 0 at 21\nroot 3 0 open\nqueue free 0 0\n\
             thread 0 reading 0 0\nthread 1 reading 0 0\nthread 2 reading 0 0\n",
        ),
        // Stored and not yet released: the sleeper counts already.
        run(
            "downgrade-stored",
            (1, 1, 2),
            "0:1,0,0 1:64,0,0,0,0,0 0:4,0,0,0",
            "answer 0 at 13\nroot 2 0 open\nqueue 0 0 0\nthread 0 calling - 0\nthread 1 asleep - 0\n",
        ),
        run(
            "downgrade-writer-queued",
            (1, 1, 2),
            "0:1,0,0 1:1,0,0,0,0,0 0:4,0,0,0,0",
            "answer 0 at 14\nroot 1 0 closed\nqueue free 1 1\nthread 0 reading 0 0\nthread 1 asleep - 0\n",
        ),
        run(
            "downgrade-writer-queued-left",
            (1, 1, 2),
            "0:1,0,0 1:1,0,0,0,0,0 0:4,0,0,0,0 0:2,0,0,0,0,0,0",
            "answer 0 at 21\nroot 0 0 closed\nqueue free 0 0\nthread 0 idle - 0\nthread 1 writing - 0\n",
        ),
        run(
            "downgrade-readers-and-writer",
            (1, 1, 3),
            "0:1,0,0 1:1,0,0,0,0,0 2:64,0,0,0,0,0 0:4,0,0,0,0,0",
            "answer 0 at 21\nroot 2 0 closed\nqueue free 1 1\n\
             thread 0 reading 0 0\nthread 1 asleep - 0\nthread 2 reading 0 0\n",
        ),
        run(
            "downgrade-held-up",
            (1, 1, 2),
            "0:1,0,0 1:64,0,0 0:4,0 1:0,0,0 0:0,0,0,0,0",
            "answer 0 at 16\nroot 2 0 open\nqueue free 0 0\nthread 0 reading 0 0\nthread 1 reading 0 0\n",
        ),
        // The upgrade's swap found (1, 0, open), and that is the root's word again.
        run(
            "upgrade-and-downgrade",
            (1, 1, 1),
            "0:64,0,0 0:3,0,0 0:4,0,0,0,0",
            "answer 0 at 11\nroot 1 0 open\nqueue free 0 0\nthread 0 reading 0 0\n",
        ),
        run(
            "upgrade-by-node-and-downgrade",
            (2, 1, 1),
            "0:65,0,0,0,0,0 0:3,0,0,0,0,0,0,0,0 0:4,0,0,0,0",
            "answer 0 at 20\nroot 1 0 open\nnode 1 0\nqueue free 0 0\nthread 0 reading 0 0\n",
        ),
        run("refusal-7-downgrade", (1, 1, 1), "0:4", FRESH_7),
    ]
}

/// Calls that the plain engine refuses "with 6" although they suit the thread.
fn plain_refusals() -> Vec<Known> {
    let run = plain_run;
    vec![
        run(
            "refusal-6-upgrade",
            (1, 1, 1),
            "0:64,3,2",
            "answer 6 at 1\nroot 1 open\nqueue free 0 0\nthread 0 reading - 0\n",
        ),
        run(
            "refusal-6-upgrade-idle",
            (1, 1, 1),
            "0:3",
            "answer 6 at 0\nroot 0 open\nqueue free 0 0\nthread 0 idle - 0\n",
        ),
        run(
            "refusal-6-downgrade",
            (1, 1, 1),
            "0:1,4,2",
            "answer 6 at 1\nroot 0 closed\nqueue free 0 0\nthread 0 writing - 0\n",
        ),
        run(
            "refusal-6-downgrade-idle",
            (1, 1, 1),
            "0:4",
            "answer 6 at 0\nroot 0 open\nqueue free 0 0\nthread 0 idle - 0\n",
        ),
        run(
            "refusal-6-second-lock",
            (1, 1, 1),
            "0:1,130,2",
            "answer 6 at 1\nroot 0 closed\nqueue free 0 0\nthread 0 writing - 0\n",
        ),
        // Request Twelve: a booking "without a till, which the plain engine and the
        // dispatcher never have, is 6".
        run(
            "refusal-6-booking",
            (1, 1, 1),
            "0:1,96,2",
            "answer 6 at 1\nroot 0 closed\nqueue free 0 0\nthread 0 writing - 0\n",
        ),
        run(
            "refusal-6-second-lock-idle",
            (1, 1, 1),
            "0:129",
            "answer 6 at 0\nroot 0 open\nqueue free 0 0\nthread 0 idle - 0\n",
        ),
    ]
}

/// Request Nine: the dispatcher, with the buffer of the schedule it gives in the
/// journal's place.
fn dispatched() -> Vec<Known> {
    let run = |name, sizes, rows: &str, sheet: &str| Known {
        journal: LEAST_SCHEDULE,
        ..run(name, sizes, rows, sheet)
    };
    let fresh = |name, rows: &str, sheet: &str| run(name, (1, 1, 1), rows, sheet);
    let mut long = run(
        "steps-4096",
        (1, 1, 1),
        &"0:64,2 ".repeat(1000),
        "answer 0 at 4096\nroot 1 0 open\nqueue free 0 0\nthread 0 calling - 0\n",
    );
    long.journal += 10;
    vec![
        fresh("fresh", "", "answer 0 at 0\nroot 0 0 open\nqueue free 0 0\nthread 0 idle - 0\n"),
        fresh("alone", "0:64,2", "answer 0 at 6\nroot 0 0 open\nqueue free 0 0\nthread 0 idle - 0\n"),
        // Both read, thread 0 swaps, thread 1's swap fails and is tried again.
        run(
            "two-readers",
            (1, 1, 2),
            "0:64 1:64",
            "answer 0 at 7\nroot 2 0 open\nqueue free 0 0\nthread 0 reading 0 0\nthread 1 reading 0 1\n",
        ),
        // Nobody can move: thread 0 has no call left, thread 1 sleeps.
        run(
            "sleeper-left",
            (1, 1, 2),
            "0:1 1:64,2",
            "answer 0 at 10\nroot 0 0 closed\nqueue free 1 0\nthread 0 writing - 0\nthread 1 asleep - 1\n",
        ),
        // Thread 0 is held up three times while thread 1 joins, and then wakes it;
        // thread 1 has its step in the same round.
        run(
            "woken-in-the-round",
            (1, 1, 2),
            "0:1,2 1:64,2",
            "answer 0 at 22\nroot 0 0 open\nqueue free 0 0\nthread 0 idle - 0\nthread 1 idle - 1\n",
        ),
        run(
            "upgrade-and-downgrade",
            (1, 1, 1),
            "0:64,3,4,2",
            "answer 0 at 14\nroot 0 0 open\nqueue free 0 0\nthread 0 idle - 0\n",
        ),
        run(
            "unsuited",
            (1, 1, 2),
            "0:64,64 1:64",
            "answer 7 at 6\nroot 1 0 open\nqueue free 0 0\nthread 0 reading 0 0\nthread 1 calling - 1\n",
        ),
        fresh("refusal-7", "0:2,64", "answer 7 at 0\nroot 0 0 open\nqueue free 0 0\nthread 0 idle - 0\n"),
        // Both are found before the first step.
        fresh("refusal-5", "0:64 1:64", "answer 5 at 0\nroot 0 0 open\nqueue free 0 0\nthread 0 idle - 0\n"),
        fresh("refusal-6", "0:64,0", "answer 6 at 0\nroot 0 0 open\nqueue free 0 0\nthread 0 idle - 0\n"),
        fresh(
            "refusal-6-after-7",
            "0:2,5",
            "answer 6 at 0\nroot 0 0 open\nqueue free 0 0\nthread 0 idle - 0\n",
        ),
        fresh("refusal-5-and-6", "1:0", "answer 5 at 0\nroot 0 0 open\nqueue free 0 0\nthread 0 idle - 0\n"),
        fresh(
            "refusal-6-then-5",
            "0:0 1:64",
            "answer 6 at 0\nroot 0 0 open\nqueue free 0 0\nthread 0 idle - 0\n",
        ),
        // Request Ten: "the plain engine and the dispatcher refuse 128 and up with 6".
        fresh(
            "refusal-6-second-lock",
            "0:64,2,129",
            "answer 6 at 0\nroot 0 0 open\nqueue free 0 0\nthread 0 idle - 0\n",
        ),
        fresh(
            "refusal-6-booking",
            "0:1,96,2",
            "answer 6 at 0\nroot 0 0 open\nqueue free 0 0\nthread 0 idle - 0\n",
        ),
        long,
        Known { journal: LEAST_SCHEDULE - 1, ..fresh("one-reader", "0:64", "answer 4 at 0\n") },
        Known { file: vec![1, 1, 1], ..fresh("refusal-1", "", "answer 1 at 0\n") },
        Known { file: vec![0, 1, 1, 0, 0], ..fresh("refusal-2", "", "answer 2 at 0\n") },
        Known { file: vec![1, 1, 1, 1, 0, 0], ..fresh("refusal-3", "", "answer 3 at 0\n") },
    ]
}

/// The runs and small inputs of document 01 and of requests One to Four.
pub fn first() -> Vec<Known> {
    runs().into_iter().chain(hand_overs()).chain(small_inputs()).collect()
}

/// Those of requests Five to Eight.
pub fn later() -> Vec<Known> {
    numbers_of_writers().into_iter().chain(late_arrivals()).chain(upgrades()).chain(downgrades()).collect()
}

/// All runs and small inputs.
pub fn all() -> Vec<Known> {
    first().into_iter().chain(later()).chain(known_two_locks::all()).collect()
}

/// The plain engine's runs and small inputs of request Four.
pub fn first_of_plain_engine() -> Vec<Known> {
    plain_runs().into_iter().chain(plain_small_inputs()).collect()
}

/// Those of the later requests.
pub fn later_of_plain_engine() -> Vec<Known> {
    plain_numbers_of_writers().into_iter().chain(plain_refusals()).collect()
}

/// All runs and small inputs of the plain engine.
pub fn of_plain_engine() -> Vec<Known> {
    first_of_plain_engine().into_iter().chain(later_of_plain_engine()).collect()
}

/// All runs and small inputs of the dispatcher.
pub fn of_dispatcher() -> Vec<Known> {
    dispatched()
}

/// The text of the sheet that `write` makes.
pub fn text_of(write: impl FnOnce(&mut [u8]) -> usize) -> String {
    let mut page = vec![0; LEAST_SHEET];
    let length = write(&mut page);
    String::from_utf8(page[..length].to_vec()).expect("a sheet is text")
}

/// The text of the sheet that the plain machine writes.
fn sheet_of(file: &[u8], journal: &mut [u8]) -> String {
    text_of(|page| machine::bench_sheet(file, journal, page))
}

/// The text of the dispatcher's sheet.
fn dispatched_sheet_of(file: &[u8], schedule: &mut [u8]) -> String {
    text_of(|page| dispatcher::dispatch_sheet(file, schedule, page))
}

/// Asks that the sheet is the known one. Returns a line on it.
fn held(name: &str, known: &str, sheet: &str) -> Result<String, String> {
    if sheet != known {
        return Err(format!("{name}: expected\n{known}but got\n{sheet}"));
    }
    Ok(format!("{name}: {}", sheet.lines().next().unwrap_or_default()))
}

/// Holds the plain implementation against the documents. Returns one line for
/// every check made, or the first that does not hold.
pub fn check() -> Result<Vec<String>, String> {
    let mut made = Vec::new();
    for Known { name, file, journal, sheet } in all() {
        made.push(held(name, &sheet, &sheet_of(&file, &mut vec![0xee; journal]))?);
    }
    for Known { name, file, sheet, .. } in of_plain_engine() {
        let name = format!("plain engine, {name}");
        made.push(held(&name, &sheet, &text_of(|page| plain::plain_sheet(&file, page)))?);
    }
    for Known { name, file, journal, sheet } in of_dispatcher() {
        let name = format!("dispatcher, {name}");
        made.push(held(&name, &sheet, &dispatched_sheet_of(&file, &mut vec![0xee; journal]))?);
    }
    for Known { name, file, sheet, .. } in known_tickets::all() {
        let name = format!("ticket lock, {name}");
        made.push(held(&name, &sheet, &text_of(|page| ticket::ticket_sheet(&file, page)))?);
    }
    for Known { name, file, sheet, .. } in known_records::all() {
        let name = format!("record, {name}");
        made.push(held(&name, &sheet, &text_of(|page| record::record_sheet(&file, page)))?);
    }
    for KnownCredit { name, file, till, journal, sheet } in known_credit::all() {
        let (name, mut journal) = (format!("credit table, {name}"), vec![0xee; journal]);
        let text = text_of(|page| credit::credit_sheet(&file, &till, &mut journal, page));
        made.push(held(&name, &sheet, &text)?);
    }

    for KnownSite { name, site, turns, sheet } in known_sites::all() {
        let text = text_of(|page| site::site_sheet(&site, &turns, page));
        made.push(held(&format!("site, {name}"), sheet, &text)?);
    }

    let mut journal = [0xee; 14];
    sheet_of(&P5_FILE, &mut journal);
    if journal[..12] != P5_JOURNAL || journal[12..] != [0xee; 2] {
        return Err(format!("p05: journal {journal:02x?}"));
    }
    made.push("p05: journal of the worked run, bytes behind it unchanged".to_string());

    let mut journal = [0xee; 12];
    made.push(refuses_small("", |page| machine::bench_sheet(&P5_FILE, &mut journal, page))?);
    made.push(refuses_small("plain engine, ", |page| plain::plain_sheet(&P5_FILE, page))?);
    made.push(refuses_small("ticket lock, ", |page| ticket::ticket_sheet(&[1, 0, 0, 0, 0], page))?);
    made.push(refuses_small("record, ", |page| record::record_sheet(&[1, 1, 1], page))?);
    made.push(refuses_small("site, ", |page| site::site_sheet(&[0; 11], &[], page))?);
    let mut credit_journal = [0xee; 12];
    let credit = |page: &mut [u8]| credit::credit_sheet(&P5_FILE, &[1, 0], &mut credit_journal, page);
    made.push(refuses_small("credit table, ", credit)?);
    if journal != P5_JOURNAL || credit_journal != P5_JOURNAL {
        return Err("refusal 9: the journal does not stand".to_string());
    }
    made.push("refusal-9: the journals stand".to_string());
    Ok(made)
}

/// Asks that a buffer of 8,191 bytes is refused and gets nothing. Returns a line on it.
fn refuses_small(name: &str, write: impl FnOnce(&mut [u8]) -> usize) -> Result<String, String> {
    let mut page = [0xee; LEAST_SHEET - 1];
    if write(&mut page) != 0 || page != [0xee; LEAST_SHEET - 1] {
        return Err(format!("{name}refusal 9: something was written"));
    }
    Ok(format!("{name}refusal-9: nothing written"))
}

#[cfg(test)]
pub mod tests {
    use super::*;
    use crate::by_sheets::lock_lines;
    use std::{fs, path::Path};

    #[test]
    fn documents_hold() {
        check().unwrap();
    }

    #[test]
    fn worked_file_is_p5() {
        let p5 = runs().into_iter().find(|known| known.name == "p05").unwrap();
        assert_eq!(p5.file, P5_FILE);
    }

    /// The text between two marks.
    fn between<'a>(text: &'a str, before: &str, after: &str) -> &'a str {
        text.split_once(before).unwrap().1.split_once(after).unwrap().0
    }

    /// Each section of `examples/README.md` shows its file's sizes and rows, and
    /// its sheet.
    #[test]
    fn examples_are_as_shown() {
        let folder = Path::new(env!("CARGO_MANIFEST_DIR")).join("../../examples");
        let text = fs::read_to_string(folder.join("README.md")).unwrap();
        let sections: Vec<_> = text.split("\n## ").skip(1).collect();
        let names = fs::read_dir(&folder).unwrap().map(|entry| entry.unwrap().file_name());
        let files = names.filter(|name| name.to_string_lossy().ends_with(".schedule"));
        assert_eq!(sections.len(), files.count());
        for section in sections {
            let name = section.lines().next().unwrap();
            let sizes = between(section, "\nN = ", "; rows:\n");
            let sizes: Vec<u8> =
                sizes.split(", ").map(|size| size.split(" = ").last().unwrap().parse().unwrap()).collect();
            let rows = between(section, "; rows:\n", "Its sheet:");
            let file = Schedule::new(sizes[0], sizes[1], sizes[2]).rows(rows).file();
            assert_eq!(fs::read(folder.join(format!("{name}.schedule"))).unwrap(), file, "{name}");
            let sheet = sheet_of(&file, &mut vec![0; 2 * rows_named(&file)]);
            assert_eq!(sheet, between(section, "```\n", "```"), "{name}");
        }
    }

    /// The journal of a file whose rows are all taken, as pairs of kind and word.
    pub fn entries_of(file: &[u8]) -> Vec<(u8, u8)> {
        let rows = rows_named(file);
        let mut journal = vec![0xee; 2 * rows];
        let outcome = machine::run(file, &mut journal);
        assert_eq!((outcome.answer, outcome.taken), (0, rows));
        (0..rows).map(|row| (journal[row], journal[rows + row])).collect()
    }

    /// The same for a schedule.
    fn entries(schedule: Schedule) -> Vec<(u8, u8)> {
        entries_of(&schedule.file())
    }

    /// The first lock's part of the sheet of a run that names that lock alone.
    fn sheet(schedule: Schedule) -> String {
        let file = schedule.file();
        let sheet = sheet_of(&file, &mut vec![0; 2 * rows_named(&file)]);
        let [_, second] = lock_lines(&sheet).unwrap();
        let first = sheet.strip_suffix(second).unwrap();
        assert_eq!(with_fresh_lock(first, schedule.sizes.nodes, schedule.sizes.threads), sheet);
        first.to_string()
    }

    #[test]
    fn hand_over_to_a_reader_is_journalled() {
        let rows = "0:1,0,0 1:64,0,0,0,0,0 0:2,0,0,0,0,0";
        let expected = [
            (0, 33),
            (1, 0),
            (2, 0),
            (0, 33),
            (1, 0),
            (6, 32),
            (1, 0),
            (8, 32),
            (7, 32),
            (0, 33),
            (6, 32),
            (8, 32),
            (5, 0),
            (7, 32),
            (9, 32),
        ];
        assert_eq!(entries(Schedule::new(1, 1, 2).rows(rows)), expected);
    }

    #[test]
    fn unlock_without_a_group_stores_open() {
        let expected = [(0, 33), (1, 0), (2, 0), (0, 33), (6, 32), (8, 32), (5, 0), (7, 32)];
        assert_eq!(entries(Schedule::new(1, 1, 1).rows("0:1,0,0 0:2,0,0,0,0")), expected);
    }

    /// Both threads arrive at the root for node 1; the second finds node 1
    /// raised on its way down, raises it from there and departs from the root.
    #[test]
    fn departure_owed_on_the_way_down() {
        let rows = "0:65,0,0,0,0 1:65,0,0,0,0 0:0 1:0,0,0,0";
        let tail = [(2, 1), (3, 1), (2, 1), (1, 0), (2, 0)];
        assert_eq!(entries(Schedule::new(2, 1, 2).rows(rows))[10..], tail);
        assert_eq!(
            sheet(Schedule::new(2, 1, 2).rows(rows)),
            "answer 0 at 15\nroot 0 1 open\nnode 1 2\nqueue free 0 0\nthread 0 reading 1 0\nthread 1 reading 1 1\n"
        );
    }

    /// As above, but the first thread departs before the second swaps again:
    /// that swap finds 0, and the swap from 0 owes no departure.
    #[test]
    fn later_swap_from_0_owes_nothing() {
        let rows = "0:65,0,0,0,0 1:65,0,0,0,0 0:0 1:0 0:2,0,0,0,0 1:0,0";
        assert_eq!(
            sheet(Schedule::new(2, 1, 2).rows(rows)),
            "answer 0 at 19\nroot 0 1 open\nnode 1 1\nqueue free 0 0\nthread 0 idle - 0\nthread 1 reading 1 2\n"
        );
    }

    /// "a failed swap on any word is also the next read, and the thread's next
    /// row is what follows that read": the rows end with a failed swap and what
    /// follows the word that it found.
    #[test]
    fn failed_swap_is_the_next_read() {
        let ends = |rows: &str, tail: &[(u8, u8)]| {
            let all = entries(Schedule::new(2, 1, 3).rows(rows));
            assert_eq!(&all[all.len() - tail.len()..], tail, "{rows}");
        };
        // A direct arrival finds the root open, and closed.
        ends("0:64,0 1:64,0,0 0:0,0", &[(3, 0), (2, 0)]);
        ends("0:64,0 1:1,0,0 0:0,0", &[(3, 0), (6, 32)]);
        // The way up finds a node at 0, the root as (0, closed), and closed with
        // a surplus.
        ends("0:65,0,0,0,0,0 1:65,0,0 0:2,0,0 1:0,0", &[(3, 1), (1, 0)]);
        ends("0:65,0,0,0 1:1,0,0 0:0,0", &[(3, 0), (6, 32)]);
        ends("0:64,0,0 1:65,0,0,0 2:1,0,0,0,0 1:0,0,0", &[(3, 0), (2, 0), (2, 1)]);
        // A departure.
        ends("0:64,0,0 1:64,0,0 0:2,0 1:2,0,0 0:0,0", &[(3, 0), (2, 0)]);
        // A writer's first swap; its closing swap finds (0, open), and closed.
        ends("0:1,0 1:64,0,0 0:0,0", &[(3, 0), (6, 32)]);
        ends("1:64,0,0 0:1,0,0,0 1:2,0,0 0:0,0,0", &[(3, 0), (2, 0), (7, 32)]);
        ends("1:64,0,0 0:1,0,0,0 1:2,0,0 2:1,0,0 0:0,0,0", &[(3, 0), (8, 32), (7, 32)]);
    }

    /// The last entries of upgrades: granted, denied by the read, denied by the
    /// swap; with a node's ticket, all of them. Then those of downgrades.
    #[test]
    fn upgrades_and_downgrades_are_journalled() {
        let ends = |name: &str, tail: &[(u8, u8)]| {
            let known = all().into_iter().find(|known| known.name == name).unwrap();
            let all = entries_of(&known.file);
            assert_eq!(&all[all.len() - tail.len()..], tail, "{name}");
        };
        ends("upgrade-granted", &[(0, 33), (1, 0), (2, 0)]);
        ends("upgrade-denied-direct", &[(0, 33), (10, 0)]);
        ends("upgrade-denied-tree", &[(0, 33), (10, 0)]);
        let by_node = [(0, 33), (1, 0), (2, 0), (1, 1), (2, 1), (1, 0), (2, 0), (1, 0), (2, 0)];
        ends("upgrade-by-node", &by_node);
        ends("upgrade-by-node-denied", &[(0, 33), (1, 0), (2, 0), (1, 1), (2, 1), (10, 0)]);
        ends("upgrade-swap-denied", &[(3, 0)]);
        ends("upgrade-swap-goes-on", &[(3, 0), (2, 0)]);
        ends("upgrade-late-arrival", &[(3, 0)]);

        let alone = [(0, 33), (6, 32), (8, 32), (5, 0), (7, 32)];
        ends("downgrade-alone", &alone);
        ends("downgrade-writer-queued", &alone);
        ends("downgrade-wakes-readers", &[(0, 33), (6, 32), (8, 32), (5, 0), (7, 32), (9, 32)]);
    }

    /// The schedule that the dispatcher gives, and what stands behind it.
    #[test]
    fn steps_come_back_as_a_schedule() {
        let given = |sizes: (u8, u8, u8), calls: &str| {
            let mut schedule = vec![0xee; LEAST_SCHEDULE];
            let file = Schedule::new(sizes.0, sizes.1, sizes.2).rows(calls).file();
            dispatched_sheet_of(&file, &mut schedule);
            let length = 5 + 2 * rows_named(&schedule);
            assert!(schedule[length..].iter().all(|byte| *byte == 0xee));
            schedule[..length].to_vec()
        };
        let rows = |threads, rows: &str| Schedule::new(1, 1, threads).rows(rows).file();
        assert_eq!(given((1, 1, 2), "0:64 1:64"), rows(2, "0:64 1:64 0:0 1:0 0:0 1:0 1:0"));
        let round = "0:1 1:64 0:0 1:0 0:0 1:0 0:2 1:0 0:0 1:0 0:0 1:0 0:0 1:0 0:0,0,0,0 0:0 1:2 1:0,0";
        assert_eq!(given((1, 1, 2), "0:1,2 1:64,2"), rows(2, round));
        // No steps after 5 and 6, and those before a call that does not suit.
        assert_eq!(given((1, 1, 1), "0:64 1:64"), rows(1, ""));
        assert_eq!(given((1, 1, 1), "0:64,0"), rows(1, ""));
        assert_eq!(given((1, 1, 1), "0:64,64"), rows(1, "0:64,0,0"));
        // Untouched after 1 to 4 and 9.
        let mut schedule = vec![0xee; LEAST_SCHEDULE];
        let file = rows(1, "0:64,2");
        dispatched_sheet_of(&file[..4], &mut schedule);
        dispatched_sheet_of(&file[..6], &mut schedule);
        dispatched_sheet_of(&file, &mut schedule[1..]);
        let mut page = [0xee; LEAST_SHEET - 1];
        assert_eq!(dispatcher::dispatch_sheet(&file, &mut schedule, &mut page), 0);
        assert!(schedule.iter().chain(&page).all(|byte| *byte == 0xee));
    }

    /// A writer closes the root under a reader, the reader leaves last and
    /// hands over to the writer.
    #[test]
    fn last_reader_hands_over_to_a_writer() {
        let rows = "0:64,0,0 1:1,0,0,0,0,0,0 1:0 0:2,0,0,0,0,0,0";
        let tail = [(4, 32), (0, 33), (1, 0), (2, 0), (6, 32), (8, 32), (7, 32), (9, 32)];
        assert_eq!(entries(Schedule::new(1, 1, 2).rows(rows))[10..], tail);
        assert_eq!(
            sheet(Schedule::new(1, 1, 2).rows(rows)),
            "answer 0 at 18\nroot 0 0 closed\nqueue free 0 0\nthread 0 idle - 0\nthread 1 writing - 0\n"
        );
    }

    /// Readers queued before a writer: the store keeps the root closed while
    /// the writer is still queued. Thread 3 is held up at the mutex.
    #[test]
    fn readers_before_a_writer_are_let_in_closed() {
        let rows = "0:1,0,0 1:64,0,0,0,0,0 2:64,0,0,0,0,0 3:1,0,0 0:2,0 3:0,0,0 0:0,0,0,0,0";
        assert_eq!(
            sheet(Schedule::new(1, 1, 4).rows(rows)),
            "answer 0 at 28\nroot 2 0 closed\nqueue free 1 1\n\
             thread 0 idle - 0\nthread 1 reading 0 0\nthread 2 reading 0 0\nthread 3 asleep - 0\n"
        );
    }
}
