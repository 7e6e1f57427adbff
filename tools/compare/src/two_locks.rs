//! Request Ten on every row of a followed run: which standings at both locks were
//! reached, and what the rows of one lock alone give.

use crate::locking::{Standing, State};
use crate::machine::{Bench, Lock, Sizes, Which};
use crate::tally::{events, Tally};

events! {
    FirstIdle = "row of the first lock: its thread is idle at the second",
    FirstReading = "row of the first lock: its thread reads the second",
    FirstWriting = "row of the first lock: its thread writes the second",
    FirstAsleepReading = "row of a sleeper in the first lock, who reads the second",
    FirstAsleepWriting = "row of a sleeper in the first lock, who writes the second",
    SecondIdle = "row of the second lock: its thread is idle at the first",
    SecondReading = "row of the second lock: its thread reads the first",
    SecondWriting = "row of the second lock: its thread writes the first",
    SecondAsleepReading = "row of a sleeper in the second lock, who reads the first",
    SecondAsleepWriting = "row of a sleeper in the second lock, who writes the first",
    ReadsBoth = "after the row: its thread reads both locks",
    ReadsFirst = "after the row: its thread reads the first lock and writes the second",
    ReadsSecond = "after the row: its thread writes the first lock and reads the second",
    WritesBoth = "after the row: its thread writes both locks",
    Crossed = "after the row: in each lock a sleeper who holds the other",
    OnlyFirst = "row of a run that has named the first lock alone",
    OnlySecond = "row of a run that has named the second lock alone",
}

/// A tally of standings at both locks.
pub fn tally() -> Tally {
    Tally::new(Event::NAMES, Vec::new())
}

/// Follows one run on two locks: each lock's rows are run once more without the
/// other's.
pub struct Pair {
    alone: [Bench; 2],
    /// Whether the lock has rows, and whether they are all taken alone too.
    named: [bool; 2],
    taken: [bool; 2],
}

impl Pair {
    pub fn new(sizes: Sizes) -> Pair {
        Pair { alone: [Bench::fresh(sizes), Bench::fresh(sizes)], named: [false; 2], taken: [true; 2] }
    }

    /// Takes in a row of this lock and the state after it.
    pub fn row(&mut self, reached: &mut Tally, bench: &Bench, which: Which, thread: u8, order: u8) {
        self.named[which as usize] = true;
        self.taken[which as usize] &= self.alone[which as usize].row(thread, order).is_ok();
        for event in self.events(bench, which, thread) {
            reached.count(event as usize);
        }
    }

    pub fn both_have_rows(&self) -> bool {
        self.named == [true; 2]
    }

    /// Whether the lock is as its own rows alone leave it.
    pub fn separate(&self, bench: &Bench, which: Which) -> bool {
        self.taken[which as usize] && same(bench.lock(which), self.alone[which as usize].lock(which))
    }

    fn events(&self, bench: &Bench, which: Which, thread: u8) -> impl Iterator<Item = Event> {
        let standing = |which| bench.lock(which).standing(thread);
        let asleep = standing(which) == Standing::Asleep;
        let row = match (which, asleep, standing(which.other())) {
            (Which::First, true, Standing::Reading) => Event::FirstAsleepReading,
            (Which::First, true, Standing::Writing) => Event::FirstAsleepWriting,
            (Which::First, _, Standing::Reading) => Event::FirstReading,
            (Which::First, _, Standing::Writing) => Event::FirstWriting,
            (Which::First, _, _) => Event::FirstIdle,
            (Which::Second, true, Standing::Reading) => Event::SecondAsleepReading,
            (Which::Second, true, Standing::Writing) => Event::SecondAsleepWriting,
            (Which::Second, _, Standing::Reading) => Event::SecondReading,
            (Which::Second, _, Standing::Writing) => Event::SecondWriting,
            (Which::Second, _, _) => Event::SecondIdle,
        };
        let after = match (standing(Which::First), standing(Which::Second)) {
            (Standing::Reading, Standing::Reading) => Some(Event::ReadsBoth),
            (Standing::Reading, Standing::Writing) => Some(Event::ReadsFirst),
            (Standing::Writing, Standing::Reading) => Some(Event::ReadsSecond),
            (Standing::Writing, Standing::Writing) => Some(Event::WritesBoth),
            _ => None,
        };
        let run = match self.named {
            [true, false] => Some(Event::OnlyFirst),
            [false, true] => Some(Event::OnlySecond),
            _ => None,
        };
        let crossed = (asleep && self.crossed(bench)).then_some(Event::Crossed);
        [Some(row), after, run, crossed].into_iter().flatten()
    }

    /// Whether each lock has a sleeper who holds the other.
    fn crossed(&self, bench: &Bench) -> bool {
        let sleeps_and_holds = |which: Which| {
            (0..bench.sizes().threads).any(|thread| {
                let holds = bench.lock(which.other()).standing(thread);
                bench.lock(which).standing(thread) == Standing::Asleep
                    && matches!(holds, Standing::Reading | Standing::Writing)
            })
        };
        Which::BOTH.into_iter().all(sleeps_and_holds)
    }
}

/// Whether "words, queue, standings and failures" are the same.
fn same(ours: &Lock, alone: &Lock) -> bool {
    let queue = |lock: &Lock| (lock.mutex(), lock.queue().readers(), lock.queue().number());
    ours.words() == alone.words()
        && queue(ours) == queue(alone)
        && ours.queue().writers().eq(alone.queue().writers())
        && (0..ours.sizes().threads).all(|thread| {
            ours.phase(thread) == alone.phase(thread) && ours.failures(thread) == alone.failures(thread)
        })
}

#[cfg(test)]
mod tests {
    use super::*;
    use crate::schedule::rows_of;

    /// The bench of one node and two threads after these rows.
    fn after(rows: &str) -> Bench {
        let mut bench = Bench::fresh(Sizes { nodes: 1, fan_out: 1, threads: 2 });
        for (thread, order) in rows_of(rows) {
            bench.row(thread, order).unwrap();
        }
        bench
    }

    #[test]
    fn locks_that_differ_are_seen() {
        let same =
            |ours: &str, alone: &str| same(after(ours).lock(Which::First), after(alone).lock(Which::First));
        assert!(same("0:64,0,0 1:192,0,0", "0:64,0,0"));
        // A standing, a word, a failure, the mutex, a queue.
        assert!(!same("0:64", ""));
        assert!(!same("0:64,0,0", "0:64,0"));
        assert!(!same("0:64 1:64 0:0 1:0 0:0 1:0 1:0", "0:64,0,0 1:64,0,0"));
        assert!(!same("0:1,0,0 1:64,0,0", "0:1,0,0 1:64,0"));
        assert!(!same("0:1,0,0 1:64,0,0,0,0", "0:1,0,0 1:64,0,0,0"));
    }

    /// A row that is not taken alone breaks the claim.
    #[test]
    fn rows_that_are_not_taken_alone_are_seen() {
        let mut pair = Pair::new(Sizes { nodes: 1, fan_out: 1, threads: 2 });
        let bench = after("0:64");
        pair.row(&mut tally(), &bench, Which::First, 0, 64);
        assert!(pair.separate(&bench, Which::First) && !pair.both_have_rows());
        pair.row(&mut tally(), &bench, Which::First, 0, 64);
        assert!(!pair.separate(&bench, Which::First));
    }
}
