//! Holds the two engines against each other. Document 02, request Four:
//! "whenever each call in a schedule is run to such an end before another thread
//! moves, both engines give the same standings, queue, open flag and the same
//! yes or no to 'is the root's count zero'".

use crate::by_sheets::lock_lines;
use crate::differ::Engines;
use crate::machine::{order, Bench, Phase, Sizes, Which, LEAST_SHEET, MOST_ROWS};
use crate::plain_cases::{any_writers, bad_row, drive_calls, tally};
use crate::random::Random;
use crate::schedule::{any_sizes, rows_named, Schedule};

/// Rows that one call takes at most when it runs alone: at N 32 and F 1, a
/// read-lock by node 31 reads 33 words and swaps 32.
const LONGEST_CALL: usize = 100;

/// Whether a call of the thread is under way at the first lock, sleep not counted
/// in.
fn calling(bench: &Bench, thread: u8) -> bool {
    let lock = bench.lock(Which::First);
    !lock.rests(usize::from(thread)) && lock.phase(thread) != Phase::Asleep
}

/// Calls for the plain engine and the same calls as rows of the bench, each run
/// to its end.
struct Pair {
    calls: Schedule,
    rows: Schedule,
    /// How many rows the first k calls take, for every k.
    ends: Vec<usize>,
}

impl Pair {
    /// Runs the calls on the bench as far as 4,096 rows go. A call that the bench
    /// refuses is the last.
    fn new(mut calls: Schedule) -> Pair {
        let Sizes { nodes, fan_out, threads } = calls.sizes;
        let mut rows = Schedule::new(nodes, fan_out, threads);
        let mut bench = Bench::fresh(calls.sizes);
        let mut ends = vec![0];
        for (&thread, &order) in calls.threads.iter().zip(&calls.orders) {
            if rows.threads.len() + LONGEST_CALL > MOST_ROWS {
                break;
            }
            rows.push(thread, order);
            let taken = bench.row(thread, order).is_ok();
            while taken && calling(&bench, thread) {
                bench.row(thread, order::GO_ON).expect("the call goes on");
                rows.push(thread, order::GO_ON);
            }
            ends.push(rows.threads.len());
            if !taken {
                break;
            }
        }
        calls = calls.first(ends.len() - 1);
        Pair { calls, rows, ends }
    }

    /// Random calls over random sizes, the last of which may be refused. Order 0
    /// is none of them: it is no call. Document 02: the "equality with the tree is
    /// from now on over calls with orders it takes", so 3, 4 and the second lock's
    /// are none either.
    fn any(random: &mut Random) -> Pair {
        let count = if random.chance(2) { random.between(100, 1000) } else { random.below(60) };
        let sizes = any_sizes(random);
        let writers = any_writers(random);
        let (mut calls, engine) = drive_calls(random, sizes, count, writers, &mut tally());
        if random.chance(30) {
            let (thread, order) = bad_row(random, &engine);
            let untaken =
                matches!(order, order::GO_ON | order::UPGRADE | order::DOWNGRADE | order::SECOND_LOCK..);
            if thread >= sizes.threads || !untaken {
                calls.push(thread, order);
            }
        }
        Pair::new(calls)
    }

    /// The files of the first `calls` calls: the plain engine's, the bench's.
    fn files(&self, calls: usize) -> (Vec<u8>, Vec<u8>) {
        (self.calls.first(calls).file(), self.rows.first(self.ends[calls]).file())
    }

    /// The numbers of calls after which the sheets are compared: all where there
    /// are few.
    fn places(&self, random: &mut Random) -> Vec<usize> {
        let calls = self.calls.threads.len();
        if calls <= 30 {
            return (0..=calls).collect();
        }
        (0..20).map(|_| random.below(calls + 1)).chain([calls]).collect()
    }
}

/// What the plain engine's sheet must have in common with the first lock's lines of
/// the bench's.
#[derive(Debug, PartialEq)]
struct Shared<'a> {
    answer: &'a str,
    count_is_zero: bool,
    state: &'a str,
    queue: &'a str,
    /// Each thread's number and standing.
    standings: Vec<(&'a str, &'a str)>,
}

fn shared(sheet: &str) -> Option<Shared<'_>> {
    let line = |title| sheet.lines().find(|line| line.split(' ').next() == Some(title));
    // The bench has two counts, the plain engine one.
    let root: Vec<_> = line("root")?.split(' ').skip(1).collect();
    let (state, counts) = root.split_last()?;
    let threads = sheet.lines().filter_map(|line| line.strip_prefix("thread "));
    Some(Shared {
        answer: line("answer")?.split(' ').nth(1)?,
        count_is_zero: !counts.is_empty() && counts.iter().all(|count| *count == "0"),
        state,
        queue: line("queue")?,
        standings: threads
            .map(|line| {
                let mut fields = line.split(' ');
                (fields.next().unwrap_or_default(), fields.next().unwrap_or_default())
            })
            .collect(),
    })
}

/// Runs random calls through both engines of one implementation and compares
/// what their sheets share. Returns how many sheets were compared, or the first
/// difference.
pub fn check(engines: Engines, count: u64, seed: u64) -> Result<u64, String> {
    let mut random = Random::new(seed);
    let mut page = [vec![0; LEAST_SHEET], vec![0; LEAST_SHEET]];
    let mut compared = 0;
    for number in 0..count {
        let pair = Pair::any(&mut random);
        for calls in pair.places(&mut random) {
            let (call_file, row_file) = pair.files(calls);
            let mut journal = vec![0; 2 * rows_named(&row_file)];
            let [plain_page, bench_page] = &mut page;
            let length = (engines.plain)(&call_file, plain_page);
            let plain = String::from_utf8_lossy(&plain_page[..length]);
            let length = (engines.bench)(&row_file, &mut journal, bench_page);
            let bench = String::from_utf8_lossy(&bench_page[..length]);
            let first_lock = lock_lines(&bench).and_then(|[_, second]| bench.strip_suffix(second));
            let (plain_part, bench_part) = (shared(&plain), first_lock.and_then(shared));
            if plain_part != bench_part || plain_part.is_none() {
                return Err(format!(
                    "pair {number} of seed {seed}: the engines differ after {calls} calls\n\
                     calls {call_file:02x?}\nrows {row_file:02x?}\nplain engine:\n{plain}\nbench:\n{bench}"
                ));
            }
            compared += 1;
        }
    }
    Ok(compared)
}

#[cfg(test)]
mod tests {
    use super::*;
    use crate::{machine, plain};

    #[test]
    fn sheets_share_standings_queue_flag_and_zero() {
        let plain = "answer 0 at 2\nroot 2 closed\nqueue free 1 1\nthread 0 reading - 0\n";
        let bench = "answer 0 at 9\nroot 0 1 closed\nnode 1 1\nqueue free 1 1\nthread 0 reading 1 0\n";
        assert!(shared(plain).is_some());
        assert_eq!(shared(plain), shared(bench));
        let others = [
            "answer 7 at 9\nroot 1 0 closed\nqueue free 1 1\nthread 0 reading 1 0\n",
            "answer 0 at 9\nroot 0 0 closed\nqueue free 1 1\nthread 0 reading 1 0\n",
            "answer 0 at 9\nroot 1 0 open\nqueue free 1 1\nthread 0 reading 1 0\n",
            "answer 0 at 9\nroot 1 0 closed\nqueue free 2 1\nthread 0 reading 1 0\n",
            "answer 0 at 9\nroot 1 0 closed\nqueue free 1 0\nthread 0 reading 1 0\n",
            "answer 0 at 9\nroot 1 0 closed\nqueue 0 1 1\nthread 0 reading 1 0\n",
            "answer 0 at 9\nroot 1 0 closed\nqueue free 1 1\nthread 0 calling - 0\n",
            "answer 0 at 9\nroot 1 0 closed\nqueue free 1 1\nthread 0 reading 1 0\nthread 1 idle - 0\n",
        ];
        for other in others {
            assert_ne!(shared(plain), shared(other), "{other}");
        }
    }

    /// A call runs alone from its order to the row that ends it.
    #[test]
    fn calls_are_run_to_their_ends() {
        let pair = Pair::new(Schedule::new(2, 1, 2).rows("0:65 1:1 0:2 1:2"));
        let rows = "0:65,0,0,0,0,0 1:1,0,0,0,0,0,0 0:2,0,0,0,0,0,0,0,0 1:2,0,0,0,0";
        assert_eq!(pair.rows.file(), Schedule::new(2, 1, 2).rows(rows).file());
        assert_eq!(pair.ends, [0, 6, 13, 22, 27]);
    }

    #[test]
    fn engines_agree() {
        let (bench, plain) = (machine::bench_sheet, plain::plain_sheet);
        let engines = Engines {
            bench,
            plain,
            dispatch: None,
            draw: None,
            site: None,
            explore: None,
            ticket: None,
            credit: None,
            record: None,
        };
        assert!(check(engines, 3_000, 9).unwrap() > 50_000);
    }
}
