//! Runs of document 02's request Ten, with their sheets worked out by hand.

use crate::known::{run, run_of_two, Known};

/// Threads that hold both locks, or one each.
fn holders() -> Vec<Known> {
    vec![
        run_of_two(
            "two-writes-both",
            (1, 1, 1),
            "0:1,0,0 0:129,0,0",
            "answer 0 at 6\nroot 0 0 closed\nqueue free 0 0\nthread 0 writing - 0\n\
             root 0 0 closed\nqueue free 0 0\nthread 0 writing - 0\n",
        ),
        run_of_two(
            "two-reads-both",
            (2, 1, 1),
            "0:65,0,0,0,0,0 0:193,0,0,0,0,0",
            "answer 0 at 12\nroot 0 1 open\nnode 1 1\nqueue free 0 0\nthread 0 reading 1 0\n\
             root 0 1 open\nnode 1 1\nqueue free 0 0\nthread 0 reading 1 0\n",
        ),
        // A writer of the first lock does not keep a reader out of the second.
        run_of_two(
            "two-a-holder-each",
            (1, 1, 2),
            "0:1,0,0 1:192,0,0",
            "answer 0 at 6\nroot 0 0 closed\nqueue free 0 0\nthread 0 writing - 0\nthread 1 idle - 0\n\
             root 1 0 open\nqueue free 0 0\nthread 0 idle - 0\nthread 1 reading 0 0\n",
        ),
        // P11 at the second lock.
        run_of_two(
            "two-late-reader",
            (2, 1, 3),
            "0:192,0,0 1:193,0 2:129,0,0,0,0,0,0 1:0,0,0,0",
            "answer 0 at 16\nroot 0 0 open\nnode 1 0\nqueue free 0 0\n\
             thread 0 idle - 0\nthread 1 idle - 0\nthread 2 idle - 0\n\
             root 1 1 closed\nnode 1 1\nqueue free 1 1\n\
             thread 0 reading 0 0\nthread 1 reading 1 0\nthread 2 asleep - 0\n",
        ),
        // Each lock has a mutex of its own.
        run_of_two(
            "two-mutexes",
            (1, 1, 4),
            "0:1,0,0 1:129,0,0 2:64,0,0 3:192,0,0",
            "answer 0 at 12\nroot 0 0 closed\nqueue 2 0 0\n\
             thread 0 writing - 0\nthread 1 idle - 0\nthread 2 calling - 0\nthread 3 idle - 0\n\
             root 0 0 closed\nqueue 3 0 0\n\
             thread 0 idle - 0\nthread 1 writing - 0\nthread 2 idle - 0\nthread 3 calling - 0\n",
        ),
        run_of_two(
            "two-upgrades",
            (1, 1, 1),
            "0:64,0,0 0:192,0,0 0:131,0,0 0:3,0,0",
            "answer 0 at 12\nroot 0 0 closed\nqueue free 0 0\nthread 0 writing - 0\n\
             root 0 0 closed\nqueue free 0 0\nthread 0 writing - 0\n",
        ),
        // Thread 1 reads the second lock alone, so thread 0's upgrade is granted at
        // the first and denied at the second.
        run_of_two(
            "two-upgrade-denied-at-second",
            (1, 1, 2),
            "0:64,0,0 0:192,0,0 1:192,0,0 0:3,0,0 0:131,0",
            "answer 0 at 14\nroot 0 0 closed\nqueue free 0 0\nthread 0 writing - 0\nthread 1 idle - 0\n\
             root 2 0 open\nqueue free 0 0\nthread 0 reading 0 0\nthread 1 reading 0 0\n",
        ),
        run_of_two(
            "two-downgrade-at-second",
            (1, 1, 1),
            "0:1,0,0 0:129,0,0 0:132,0,0,0,0",
            "answer 0 at 11\nroot 0 0 closed\nqueue free 0 0\nthread 0 writing - 0\n\
             root 1 0 open\nqueue free 0 0\nthread 0 reading 0 0\n",
        ),
        // "a standing and failures for each": thread 0's swap fails at the first
        // lock, thread 1's at the second.
        run_of_two(
            "two-failures",
            (1, 1, 2),
            "0:64 1:64 0:0 1:0 1:0 0:0 0:0 0:192 1:192 0:0 1:0 0:0 1:0 1:0",
            "answer 0 at 14\nroot 2 0 open\nqueue free 0 0\nthread 0 reading 0 1\nthread 1 reading 0 0\n\
             root 2 0 open\nqueue free 0 0\nthread 0 reading 0 0\nthread 1 reading 0 1\n",
        ),
        // The second lock's root changes between a look at the first's and its swap.
        run_of_two(
            "two-roots",
            (1, 1, 2),
            "0:64,0 1:192,0,0 0:0",
            "answer 0 at 6\nroot 1 0 open\nqueue free 0 0\nthread 0 reading 0 0\nthread 1 idle - 0\n\
             root 1 0 open\nqueue free 0 0\nthread 0 idle - 0\nthread 1 reading 0 0\n",
        ),
    ]
}

/// Thread 0 reads the first lock and sleeps in the second, which thread 1 writes.
const ASLEEP_IN_SECOND: &str = "1:129,0,0 0:64,0,0 0:192,0,0,0,0,0";

/// The locks' lines then.
const ASLEEP: &str = "root 1 0 open\nqueue free 0 0\nthread 0 reading 0 0\nthread 1 idle - 0\n\
                      root 0 0 closed\nqueue free 1 0\nthread 0 asleep - 0\nthread 1 writing - 0\n";

/// Threads that sleep in one lock and hold the other.
fn sleepers() -> Vec<Known> {
    let asleep = |name, rows: &str, answer: &str| {
        run_of_two(name, (1, 1, 2), &format!("{ASLEEP_IN_SECOND}{rows}"), &format!("{answer}\n{ASLEEP}"))
    };
    vec![
        asleep("two-asleep-in-second", "", "answer 0 at 12"),
        // A row of a sleeper is one of the lock in which it sleeps.
        asleep("two-sleeper-goes-on", " 0:0,0", "answer 0 at 14"),
        // The sleeper may not even unlock what it holds.
        asleep("two-barred-asleep", " 0:2", "answer 7 at 12"),
        asleep("two-barred-asleep-order", " 0:65", "answer 6 at 12"),
        run_of_two(
            "two-woken-in-second",
            (1, 1, 2),
            "1:129,0,0 0:64,0,0 0:192,0,0,0,0,0 1:130,0,0,0,0,0 0:2,0,0",
            "answer 0 at 21\nroot 0 0 open\nqueue free 0 0\nthread 0 idle - 0\nthread 1 idle - 0\n\
             root 1 0 open\nqueue free 0 0\nthread 0 reading 0 0\nthread 1 idle - 0\n",
        ),
        run_of_two(
            "two-barred-asleep-in-first",
            (1, 1, 2),
            "1:1,0,0 0:192,0,0 0:64,0,0,0,0,0 0:130",
            "answer 7 at 12\nroot 0 0 closed\nqueue free 1 0\nthread 0 asleep - 0\nthread 1 writing - 0\n\
             root 1 0 open\nqueue free 0 0\nthread 0 reading 0 0\nthread 1 idle - 0\n",
        ),
        // Each thread waits for the lock that the other holds.
        run_of_two(
            "two-crossed",
            (1, 1, 2),
            "0:1,0,0 1:129,0,0 0:129,0,0,0,0,0 1:1,0,0,0,0,0",
            "answer 0 at 18\nroot 0 0 closed\nqueue free 1 1\nthread 0 writing - 0\nthread 1 asleep - 0\n\
             root 0 0 closed\nqueue free 1 1\nthread 0 asleep - 0\nthread 1 writing - 0\n",
        ),
    ]
}

/// Rows that are refused, 5 before 6 before 7.
fn refusals() -> Vec<Known> {
    const FRESH: &str = "root 0 0 open\nqueue free 0 0\nthread 0 idle - 0\n";
    const CALLING: &str = "root 0 0 open\nqueue free 0 0\nthread 0 calling - 0\n";
    const WRITING: &str = "root 0 0 closed\nqueue free 0 0\nthread 0 writing - 0\n";
    let refused = |name, rows, answer: &str, first: &str, second: &str| {
        run_of_two(name, (1, 1, 1), rows, &format!("{answer}\n{first}{second}"))
    };
    vec![
        // "128 alone is a 6"
        run(
            "two-128",
            (1, 1, 1),
            "0:128",
            "answer 6 at 0\nroot 0 0 open\nqueue free 0 0\nthread 0 idle - 0\n",
        ),
        refused("two-128-in-a-call", "0:129 0:128", "answer 6 at 1", FRESH, CALLING),
        refused("two-0-without-a-call", "0:1,0,0 0:129,0,0 0:0", "answer 7 at 6", WRITING, WRITING),
        // "It refuses a new call under 7 while the thread is in a call of either
        // lock or asleep"
        refused("two-barred-by-second", "0:129 0:1", "answer 7 at 1", FRESH, CALLING),
        refused("two-barred-by-first", "0:64,0 0:129", "answer 7 at 2", CALLING, FRESH),
        refused("two-unlock-of-the-other", "0:1,0,0 0:130", "answer 7 at 3", WRITING, FRESH),
        refused("two-5-before-6", "0:129 1:128", "answer 5 at 1", FRESH, CALLING),
        refused("two-6-before-7", "0:129 0:65", "answer 6 at 1", FRESH, CALLING),
        refused("two-6-before-7-at-second", "0:1 0:193", "answer 6 at 1", CALLING, FRESH),
    ]
}

/// All runs and small inputs of request Ten.
pub fn all() -> Vec<Known> {
    holders().into_iter().chain(sleepers()).chain(refusals()).collect()
}

#[cfg(test)]
mod tests {
    use super::*;
    use crate::known::tests::entries_of;

    /// The entries of the rows that end the run.
    fn ends(name: &str, tail: &[(u8, u8)]) {
        let known = all().into_iter().find(|known| known.name == name).unwrap();
        let entries = entries_of(&known.file);
        assert_eq!(&entries[entries.len() - tail.len()..], tail, "{name}");
    }

    /// "words in the second lock's journal entries have 64 added, 33 included"
    #[test]
    fn both_locks_are_journalled() {
        ends("two-writes-both", &[(0, 33), (1, 0), (2, 0), (0, 97), (1, 64), (2, 64)]);
        ends("two-reads-both", &[(0, 97), (1, 64), (1, 65), (1, 64), (2, 64), (2, 65)]);
        ends(
            "two-failures",
            &[(3, 0), (2, 0), (0, 97), (0, 97), (1, 64), (1, 64), (2, 64), (3, 64), (2, 64)],
        );
        ends("two-upgrades", &[(0, 97), (1, 64), (2, 64), (0, 33), (1, 0), (2, 0)]);
        ends("two-upgrade-denied-at-second", &[(0, 33), (1, 0), (2, 0), (0, 97), (10, 64)]);
        ends("two-downgrade-at-second", &[(0, 97), (6, 96), (8, 96), (5, 64), (7, 96)]);
        let asleep = [(0, 97), (1, 64), (6, 96), (1, 64), (8, 96), (7, 96), (4, 96), (4, 96)];
        ends("two-sleeper-goes-on", &asleep);
        let woken = [(0, 97), (6, 96), (8, 96), (5, 64), (7, 96), (9, 96), (0, 33), (1, 0), (2, 0)];
        ends("two-woken-in-second", &woken);
    }

    /// Rows of one lock stay as they were between those of the other.
    #[test]
    fn rows_of_both_locks_interleave() {
        ends("two-roots", &[(0, 33), (1, 0), (0, 97), (1, 64), (2, 64), (2, 0)]);
    }
}
