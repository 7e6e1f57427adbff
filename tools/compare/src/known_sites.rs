//! Sites with their sheets, worked out by hand.

use crate::schedule::Schedule;
use crate::site_cases::SiteRows;

/// A site file and turns, with the sheet that they must give.
pub struct KnownSite {
    pub name: &'static str,
    pub site: Vec<u8>,
    pub turns: Vec<u8>,
    pub sheet: &'static str,
}

/// N 1 and F 1 with so many threads, these calls, hold, think and warm-up.
fn site(threads: u8, calls: &str, [hold, think]: [u8; 2], warm: u32) -> Vec<u8> {
    let calls = Schedule::new(1, 1, threads).rows(calls);
    SiteRows { calls, hold, think, warm }.file()
}

/// Turns: each thread as often as its number says.
fn turns(runs: &[(u8, usize)]) -> Vec<u8> {
    runs.iter().flat_map(|&(thread, count)| vec![thread; count]).collect()
}

/// A writer, and a reader that sleeps until the writer hands over.
const TWO: &str = "0:1,2 1:64,2";

/// Thread 0 has the lock after three rows; thread 1's six rows end asleep; thread 0's
/// unlock takes six, the last of which wakes thread 1.
fn woken() -> Vec<u8> {
    turns(&[(0, 3), (1, 7), (0, 7)])
}

pub fn all() -> Vec<KnownSite> {
    let known = |name, site, turns, sheet| KnownSite { name, site, turns, sheet };
    vec![
        // Three rows, two turns of holding, three rows, one of thinking, and a row; the last
        // turn is nobody's.
        known(
            "alone",
            site(1, "0:64,2", [2, 1], 0),
            turns(&[(0, 10), (1, 1)]),
            "answer 0 at 7\nturns 11 1 2 1\ncalls 2 1\nrows 7 0 4 0\nwrite-locks 0 0 0 0\n\
             read-locks 1 2 2 1\nthread 0 2 0\n",
        ),
        known(
            "warm-up-before-the-unlock",
            site(1, "0:64,2", [2, 1], 4),
            turns(&[(0, 8)]),
            "answer 0 at 6\nturns 4 0 1 0\ncalls 1 0\nrows 3 0 2 0\nwrite-locks 0 0 0 0\n\
             read-locks 0 0 0 0\nthread 0 1 0\n",
        ),
        known(
            "warm-up-inside-a-call",
            site(1, "0:64,2", [2, 1], 1),
            turns(&[(0, 3)]),
            "answer 0 at 3\nturns 2 0 0 0\ncalls 1 0\nrows 2 0 2 0\nwrite-locks 0 0 0 0\n\
             read-locks 1 2 2 0\nthread 0 1 0\n",
        ),
        known(
            "warm-up-of-all",
            site(1, "0:64,2", [2, 1], 2),
            turns(&[(0, 2)]),
            "answer 0 at 2\nturns 0 0 0 0\ncalls 0 1\nrows 0 0 0 0\nwrite-locks 0 0 0 0\n\
             read-locks 0 0 0 1\nthread 0 0 0\n",
        ),
        known(
            "warm-up-of-more",
            site(1, "0:64,2", [2, 1], u32::MAX),
            turns(&[(0, 4)]),
            "answer 0 at 3\nturns 0 0 0 0\ncalls 0 0\nrows 0 0 0 0\nwrite-locks 0 0 0 0\n\
             read-locks 0 0 0 0\nthread 0 0 0\n",
        ),
        // Thread 1's last turn is passed over, thread 0's first behind it is one of holding.
        // The wait of the read-lock is the rows 5 to 15.
        known(
            "woken",
            site(2, TWO, [1, 0], 0),
            woken(),
            "answer 0 at 15\nturns 17 1 1 0\ncalls 3 0\nrows 15 0 5 0\nwrite-locks 1 2 2 0\n\
             read-locks 1 11 11 0\nthread 0 2 0\nthread 1 1 0\n",
        ),
        // The warm-up ends with thread 1 asleep; its wait counts whole, of the rows waited
        // those behind the warm-up.
        known(
            "woken-behind-the-warm-up",
            site(2, TWO, [1, 0], 10),
            woken(),
            "answer 0 at 15\nturns 7 0 1 0\ncalls 2 0\nrows 6 0 1 0\nwrite-locks 0 0 0 0\n\
             read-locks 1 6 11 0\nthread 0 1 0\nthread 1 1 0\n",
        ),
        known(
            "asleep-at-the-end",
            site(2, TWO, [1, 0], 0),
            turns(&[(0, 3), (1, 9)]),
            "answer 0 at 9\nturns 12 3 0 0\ncalls 1 1\nrows 9 0 4 0\nwrite-locks 1 2 2 0\n\
             read-locks 0 5 0 1\nthread 0 1 0\nthread 1 0 0\n",
        ),
        // Three rows, a turn of holding, five rows, a turn of holding, three rows.
        known(
            "downgrade",
            site(1, "0:1,4,2", [1, 0], 0),
            turns(&[(0, 13)]),
            "answer 0 at 11\nturns 13 0 2 0\ncalls 3 0\nrows 11 0 5 0\nwrite-locks 1 2 2 0\n\
             read-locks 0 0 0 0\nthread 0 3 0\n",
        ),
        // The second read-lock does not suit a reader.
        known(
            "unsuited",
            site(1, "0:64,64", [1, 0], 0),
            turns(&[(0, 9)]),
            "answer 7 at 3\nturns 4 0 1 0\ncalls 1 0\nrows 3 0 2 0\nwrite-locks 0 0 0 0\n\
             read-locks 1 2 2 0\nthread 0 1 0\n",
        ),
        known(
            "unsuited-in-the-warm-up",
            site(1, "0:64,64", [1, 0], 5),
            turns(&[(0, 9)]),
            "answer 7 at 3\nturns 0 0 0 0\ncalls 0 0\nrows 0 0 0 0\nwrite-locks 0 0 0 0\n\
             read-locks 0 0 0 0\nthread 0 0 0\n",
        ),
        known(
            "unsuited-at-once",
            site(1, "0:2", [0, 0], 0),
            turns(&[(0, 1)]),
            "answer 7 at 0\nturns 0 0 0 0\ncalls 0 0\nrows 0 0 0 0\nwrite-locks 0 0 0 0\n\
             read-locks 0 0 0 0\nthread 0 0 0\n",
        ),
        known(
            "nothing-wanted",
            site(2, "", [0, 0], 0),
            turns(&[(0, 1), (1, 1), (2, 1), (255, 1)]),
            "answer 0 at 0\nturns 4 4 0 0\ncalls 0 0\nrows 0 0 0 0\nwrite-locks 0 0 0 0\n\
             read-locks 0 0 0 0\nthread 0 0 0\nthread 1 0 0\n",
        ),
        known(
            "no-turns",
            site(1, "0:64,2", [0, 0], 0),
            Vec::new(),
            "answer 0 at 0\nturns 0 0 0 0\ncalls 0 0\nrows 0 0 0 0\nwrite-locks 0 0 0 0\n\
             read-locks 0 0 0 0\nthread 0 0 0\n",
        ),
        known("refusal-1", vec![1, 1, 1, 0, 0, 0, 0, 0, 0, 0], vec![0], "answer 1 at 0\n"),
        known("refusal-2", vec![1, 1, 65, 0, 0, 1, 0, 0, 0, 0, 0], vec![0], "answer 2 at 0\n"),
        known("refusal-2-rows", vec![1, 1, 1, 0, 0, 1, 16, 0, 0, 0, 0], vec![0], "answer 2 at 0\n"),
        known("refusal-3", vec![1, 1, 1, 0, 0, 1, 0, 0, 0, 0, 0, 0], vec![0], "answer 3 at 0\n"),
        known("refusal-5", site(1, "0:64 1:0", [0, 0], 0), vec![0], "answer 5 at 0\n"),
        known("refusal-6", site(1, "0:65 1:64", [0, 0], 0), vec![0], "answer 6 at 0\n"),
    ]
}
