//! Checks the claims on an implementation by its sheets and journals alone, one of
//! each after every row.

use crate::differ::BenchSheet;
use crate::locking::{Claims, Standing, State, Watch};
use crate::machine::{kind, order, Entry, Sizes, Which, Word, LEAST_SHEET};
use crate::random::Random;
use crate::schedule::{any_sizes, suiting_order, Manner, Schedule};

/// The lines of each lock on the bench's sheet; none where it has the first line
/// alone.
pub fn lock_lines(sheet: &str) -> Option<[&str; 2]> {
    let (_, lines) = sheet.split_once('\n')?;
    let (first, second) = lines.split_at(lines.rfind("\nroot ")? + 1);
    Some([first, second])
}

/// A lock as its lines show it.
pub struct Printed {
    standings: Vec<Standing>,
    failures: Vec<u32>,
    root: Word,
    queued: (usize, usize),
}

impl Printed {
    pub fn new(lines: &str) -> Option<Printed> {
        let fields = |title| {
            let line = lines.lines().find(|line| line.split(' ').next() == Some(title))?;
            Some(line.split(' ').skip(1).collect::<Vec<_>>())
        };
        let number = |text: &str| text.parse::<u16>().ok();
        let (root, queue) = (fields("root")?, fields("queue")?);
        let threads = lines.lines().filter_map(|line| line.strip_prefix("thread "));
        let standings = threads.clone().map(|line| match line.split(' ').nth(1)? {
            "idle" => Some(Standing::Idle),
            "reading" => Some(Standing::Reading),
            "writing" => Some(Standing::Writing),
            "calling" => Some(Standing::Calling),
            "asleep" => Some(Standing::Asleep),
            _ => None,
        });
        let failures = threads.map(|line| line.split(' ').nth(3)?.parse().ok());
        Some(Printed {
            standings: standings.collect::<Option<_>>()?,
            failures: failures.collect::<Option<_>>()?,
            root: Word::new(number(root.first()?)?, number(root.get(1)?)?, *root.get(2)? == "closed"),
            queued: (number(queue.get(1)?)?.into(), number(queue.get(2)?)?.into()),
        })
    }
}

/// Both locks as a sheet of these sizes shows them.
pub fn printed_locks(sheet: &str, sizes: Sizes) -> Option<[Printed; 2]> {
    let [first, second] = lock_lines(sheet)?;
    let lock = |lines| Printed::new(lines).filter(|lock| lock.threads() == sizes.threads);
    Some([lock(first)?, lock(second)?])
}

impl State for Printed {
    fn threads(&self) -> u8 {
        self.standings.len() as u8
    }

    fn standing(&self, thread: u8) -> Standing {
        self.standings[usize::from(thread)]
    }

    fn failures(&self, thread: u8) -> u32 {
        self.failures[usize::from(thread)]
    }

    fn root(&self) -> Word {
        self.root
    }

    fn queued(&self) -> (usize, usize) {
        self.queued
    }

    fn each_sleeper_once(&self) -> Option<bool> {
        None
    }
}

/// The sheet after the rows of the schedule and the entry of the last, where all
/// are taken.
fn shown(bench: BenchSheet, schedule: &Schedule) -> Option<(String, Entry)> {
    let rows = schedule.threads.len();
    let (mut journal, mut page) = (vec![0; 2 * rows], [0; LEAST_SHEET]);
    let length = bench(&schedule.file(), &mut journal, &mut page);
    let text = String::from_utf8_lossy(page.get(..length)?).into_owned();
    let last = |array: &[u8]| array.last().copied().unwrap_or_default();
    let entry = Entry { kind: last(&journal[..rows]), word: last(&journal[rows..]) };
    text.starts_with("answer 0 ").then_some((text, entry))
}

/// A run on another implementation.
struct Run {
    bench: BenchSheet,
    schedule: Schedule,
    /// Each lock's rows without the other's.
    alone: [Schedule; 2],
    watches: [Watch; 2],
    sheet: String,
    states: [Printed; 2],
}

impl Run {
    /// The fresh locks; none where there is no such sheet.
    fn new(bench: BenchSheet, sizes: Sizes) -> Option<Run> {
        let schedule = Schedule::new(sizes.nodes, sizes.fan_out, sizes.threads);
        let (sheet, _) = shown(bench, &schedule)?;
        let states = printed_locks(&sheet, sizes)?;
        let alone = [schedule.clone(), schedule.clone()];
        Some(Run { bench, schedule, alone, watches: [Watch::new(), Watch::new()], sheet, states })
    }

    /// The lock that a row belongs to, by the standings before it.
    fn lock_of(&self, thread: u8, order: u8) -> Which {
        let under_way = |which: &Which| {
            let standing = self.states[*which as usize].standing(thread);
            matches!(standing, Standing::Calling | Standing::Asleep)
        };
        match order {
            order::GO_ON => Which::BOTH.into_iter().find(under_way).unwrap_or(Which::First),
            _ => Which::named(order),
        }
    }

    /// Runs one more row; none where it is refused.
    fn row(&mut self, claims: &mut [Claims; 2], thread: u8, order: u8) -> Option<Result<(), String>> {
        let which = self.lock_of(thread, order);
        self.schedule.push(thread, order);
        self.alone[which as usize].push(thread, order);
        let (sheet, entry) = shown(self.bench, &self.schedule)?;
        let Some(states) = printed_locks(&sheet, self.schedule.sizes) else {
            return Some(Err(format!("no sheet:\n{sheet}")));
        };
        self.states = states;

        let own = Entry { kind: entry.kind, word: entry.word.wrapping_sub(which.word()) };
        let swaps = matches!(own.kind, kind::SWAP_DONE | kind::SWAP_FAILED | kind::PLAIN_STORE);
        if own.word > 33 || swaps && own.word >= self.schedule.sizes.nodes {
            return Some(Err(format!("the entry {entry:?} names no word of the {which:?} lock")));
        }
        let number = which as usize;
        let order = order.saturating_sub(which.order());
        self.watches[number].row(&mut claims[number], thread, order, own, &self.states[number]);
        if self.alone.iter().all(|alone| !alone.threads.is_empty()) {
            self.separation(claims, &sheet, which);
        }
        self.sheet = sheet;
        Some(Ok(()))
    }

    /// The row's lock is as its rows alone leave it, and the other as it was.
    fn separation(&self, claims: &mut [Claims; 2], sheet: &str, which: Which) {
        let lines = |sheet: &str, which| lock_lines(sheet).map(|lines| lines[which as usize].to_string());
        let alone = shown(self.bench, &self.alone[which as usize]);
        let own = alone.is_some_and(|(alone, _)| lines(&alone, which) == lines(sheet, which));
        claims[which as usize].separated(own, &self.watches[which as usize]);
        let other = which.other();
        let kept = lines(&self.sheet, other) == lines(sheet, other);
        claims[other as usize].separated(kept, &self.watches[other as usize]);
    }

    /// Runs `rows` rows with orders that suit the standings on the sheets; none
    /// where one is refused.
    fn drive(
        &mut self,
        claims: &mut [Claims; 2],
        random: &mut Random,
        rows: usize,
    ) -> Option<Result<(), String>> {
        let Sizes { nodes, threads, .. } = self.schedule.sizes;
        let manner = Manner::any_locks(random, self.schedule.sizes);
        let mut thread = 0;
        for _ in 0..rows {
            let asleep = self.states.iter().any(|state| state.standing(thread) == Standing::Asleep);
            if !random.chance(manner.lingering) || asleep {
                thread = random.below(usize::from(threads)) as u8;
            }
            let standings = [0, 1].map(|lock: usize| self.states[lock].standing(thread));
            let order = suiting_order(random, nodes, &manner, standings);
            if let Err(broken) = self.row(claims, thread, order)? {
                return Some(Err(broken));
            }
        }
        Some(Ok(()))
    }
}

/// Checks the claims on an implementation's own sheets, over short random runs.
/// Returns how often their premises were met at each lock, or the first that does
/// not hold.
pub fn check(bench: BenchSheet, count: u64, seed: u64) -> Result<[Claims; 2], String> {
    let mut random = Random::new(seed);
    let mut claims = Claims::of_both();
    for _ in 0..count {
        let mut sizes = any_sizes(&mut random);
        sizes.threads = sizes.threads.min(6);
        let rows = random.between(10, 90);
        // A row that is refused ends the run; the comparison finds that.
        let run = Run::new(bench, sizes).and_then(|mut run| run.drive(&mut claims, &mut random, rows));
        let broken = match &run {
            Some(Err(broken)) => Some(broken.as_str()),
            _ => claims.iter().find_map(Claims::broken),
        };
        if let Some(broken) = broken {
            return Err(format!("{sizes:?}: {broken}"));
        }
    }
    Ok(claims)
}

#[cfg(test)]
mod tests {
    use super::*;
    use crate::locking::Event;
    use crate::machine;

    /// Runs the rows and returns the claims' tallies.
    fn watched(schedule: Schedule) -> [Claims; 2] {
        let mut claims = Claims::of_both();
        let mut run = Run::new(machine::bench_sheet, schedule.sizes).unwrap();
        for (&thread, &order) in schedule.threads.iter().zip(&schedule.orders) {
            run.row(&mut claims, thread, order).unwrap().unwrap();
        }
        assert_eq!(claims.iter().find_map(Claims::broken), None);
        claims
    }

    /// How often the claim's premise was met at each lock.
    fn met(claims: &[Claims; 2], event: Event) -> [u64; 2] {
        [0, 1].map(|lock: usize| claims[lock].met().of(event as usize))
    }

    #[test]
    fn claims_hold_and_their_premises_are_met() {
        // Three need the phase, which no sheet shows; a late arrival after a store
        // is rare in runs this short.
        let unseen = [Event::Sleeper, Event::Departing, Event::HandingOver, Event::TreeLateStore];
        let unseen = unseen.map(|event| Event::NAMES[event as usize]);
        for claims in check(machine::bench_sheet, 6_000, 9).unwrap() {
            let missing = claims.met().missing();
            assert!(missing.iter().all(|name| unseen.contains(name)), "{missing:?}");
        }
    }

    /// P11: the writer closes after thread 1 looked, thread 0 reads all the time.
    #[test]
    fn late_arrival_is_seen() {
        let first = Schedule::new(2, 1, 3).rows("0:64,0,0 1:65,0 2:1,0,0,0,0,0,0 1:0,0,0,0");
        assert_eq!(met(&watched(first), Event::TreeLateSwap), [1, 0]);
        let second = Schedule::new(2, 1, 3).rows("0:192,0,0 1:193,0 2:129,0,0,0,0,0,0 1:0,0,0,0");
        assert_eq!(met(&watched(second), Event::TreeLateSwap), [0, 1]);
    }

    /// Thread 1 looks, thread 0 locks to write and hands over to thread 2, with
    /// thread 3 queued: the store is the closing step that counts.
    #[test]
    fn late_arrival_after_a_store_is_seen() {
        let rows = "1:65,0 0:1,0,0 2:64,0,0,0,0,0 3:1,0,0,0,0,0 0:2,0,0,0,0,0 1:0,0,0,0";
        let claims = watched(Schedule::new(2, 1, 4).rows(rows));
        assert_eq!(met(&claims, Event::TreeLateStore), [1, 0]);
    }

    /// The premise: ticket 0, found open, nobody else moved at this lock.
    #[test]
    fn restored_root_is_seen() {
        let restored = |nodes, rows: &str| {
            let claims = watched(Schedule::new(nodes, 1, 2).rows(rows));
            met(&claims, Event::Restored)
        };
        assert_eq!(restored(1, "0:64,0,0 0:3,0,0 0:4,0,0,0,0"), [1, 0]);
        assert_eq!(restored(2, "0:65,0,0,0,0,0 0:3,0,0,0,0,0,0,0,0 0:4,0,0,0,0"), [0, 0]);
        assert_eq!(restored(1, "0:64,0,0 0:3,0,0 1:64 0:4,0,0,0,0"), [0, 0]);
        assert_eq!(restored(1, "0:64,0,0 1:1,0,0,0,0,0,0 0:3,0,0 0:4,0,0,0,0"), [0, 0]);
        assert_eq!(restored(1, "0:64,0,0 0:3,0,0 0:2,0,0,0,0 0:1,0,0 0:4,0,0,0,0"), [0, 0]);
        // Who moves at the other lock does not move at this one.
        assert_eq!(restored(1, "0:64,0,0 0:3,0,0 1:192,0,0 0:4,0,0,0,0"), [1, 0]);
    }

    /// The rows of one lock among those of the other.
    #[test]
    fn separation_is_seen() {
        let alone = watched(Schedule::new(1, 1, 2).rows("0:64,0,0 1:64,0,0"));
        assert_eq!(met(&alone, Event::Separated), [0, 0]);
        let both = watched(Schedule::new(1, 1, 2).rows("0:64,0,0 1:192,0,0 0:2,0,0"));
        assert_eq!(met(&both, Event::Separated), [6, 6]);
    }

    #[test]
    fn sheets_are_parted() {
        let sheet = "answer 0 at 0\nroot 0 0 open\nthread 0 idle - 0\nroot 1 0 open\nthread 0 reading 0 0\n";
        let [first, second] = lock_lines(sheet).unwrap();
        assert_eq!(first, "root 0 0 open\nthread 0 idle - 0\n");
        assert_eq!(second, "root 1 0 open\nthread 0 reading 0 0\n");
        assert_eq!(lock_lines("answer 1 at 0\n"), None);
        assert_eq!(lock_lines("answer 0 at 0\nroot 0 0 open\n"), None);
    }
}
