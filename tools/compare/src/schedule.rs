//! Builds schedule files, by hand or by driving the plain machine.

use crate::coverage::Coverage;
use crate::locking::{Standing, State};
use crate::machine::{order, Bench, Phase, Sizes, Which, MOST_FAN_OUT, MOST_NODES, MOST_THREADS};
use crate::random::Random;

/// The rows of a schedule with the sizes they are meant for.
#[derive(Clone)]
pub struct Schedule {
    pub sizes: Sizes,
    pub threads: Vec<u8>,
    pub orders: Vec<u8>,
}

impl Schedule {
    pub fn new(nodes: u8, fan_out: u8, threads: u8) -> Schedule {
        Schedule { sizes: Sizes { nodes, fan_out, threads }, threads: Vec::new(), orders: Vec::new() }
    }

    /// Any sizes and no rows.
    pub fn any_empty(random: &mut Random) -> Schedule {
        let Sizes { nodes, fan_out, threads } = any_sizes(random);
        Schedule::new(nodes, fan_out, threads)
    }

    pub fn push(&mut self, thread: u8, order: u8) {
        self.threads.push(thread);
        self.orders.push(order);
    }

    /// Adds rows in document 01's notation.
    pub fn rows(mut self, text: &str) -> Schedule {
        rows_of(text).for_each(|(thread, order)| self.push(thread, order));
        self
    }

    /// The first `rows` rows.
    pub fn first(&self, rows: usize) -> Schedule {
        let (threads, orders) = (self.threads[..rows].to_vec(), self.orders[..rows].to_vec());
        Schedule { sizes: self.sizes, threads, orders }
    }

    /// The file's bytes: sizes, thread numbers, orders.
    pub fn file(&self) -> Vec<u8> {
        let rows = u16::try_from(self.threads.len()).expect("S has two bytes");
        let mut file = vec![self.sizes.nodes, self.sizes.fan_out, self.sizes.threads];
        file.extend(rows.to_le_bytes());
        file.extend(&self.threads);
        file.extend(&self.orders);
        file
    }
}

/// The rows of a text: "t:o" is one row, "t:o,o" several of one thread.
pub fn rows_of(text: &str) -> impl Iterator<Item = (u8, u8)> + '_ {
    text.split_whitespace().flat_map(|part| {
        let (thread, orders) = part.split_once(':').expect("a row is t:o");
        let thread = thread.parse().expect("a thread is a number");
        orders.split(',').map(move |order| (thread, order.parse().expect("an order is a number")))
    })
}

/// S as bytes 3 and 4 of a file tell it, 0 where the file ends before them.
pub fn rows_named(file: &[u8]) -> usize {
    match file {
        [_, _, _, low, high, ..] => usize::from(u16::from_le_bytes([*low, *high])),
        _ => 0,
    }
}

/// How a driven run chooses its rows; the numbers are percentages.
#[derive(Clone, Default)]
pub struct Manner {
    /// Calls that are write-locks.
    pub writers: usize,
    /// Rows that stay with the thread of the row before.
    pub lingering: usize,
    /// Times that a thread which would be held up may have the row all the
    /// same.
    pub waiting: usize,
    /// Readers that upgrade where they would unlock.
    pub upgrades: usize,
    /// Writers that downgrade where they would unlock.
    pub downgrades: usize,
    /// Calls by threads that hold neither lock or both that are for the second; with
    /// 0 or 100 no row is one of the other lock.
    pub second: usize,
    /// Calls by threads that hold one lock that are for the other.
    pub nesting: usize,
    /// The routes that most read-locks take; the others take any node.
    pub routes: Vec<u8>,
}

impl Manner {
    /// A manner that differs from run to run and makes threads meet: few
    /// routes, often deep ones. It names the first lock alone.
    pub fn any(random: &mut Random, sizes: Sizes) -> Manner {
        let nodes = usize::from(sizes.nodes);
        let routes = (0..random.between(1, 3))
            .map(|_| if random.chance(50) { nodes - 1 } else { random.below(nodes) } as u8)
            .collect();
        Manner {
            writers: random.pick(&[0, 2, 5, 10, 20, 40, 80]),
            lingering: random.pick(&[0, 0, 30, 60, 90]),
            waiting: random.pick(&[5, 20, 100]),
            upgrades: random.pick(&[0, 10, 30, 60]),
            downgrades: random.pick(&[0, 20, 50]),
            routes,
            ..Manner::default()
        }
    }

    /// The same, over one lock or both.
    pub fn any_locks(random: &mut Random, sizes: Sizes) -> Manner {
        let second = random.pick(&[0, 0, 0, 30, 50, 50, 100]);
        let nesting = random.pick(&[0, 10, 30, 60]);
        Manner { second, nesting, ..Manner::any(random, sizes) }
    }

    /// The lock that a thread in no call turns to. No number is drawn where there is
    /// no choice, so that a manner over one lock gives the runs that it always gave.
    fn which(&self, random: &mut Random, standings: [Standing; 2]) -> Which {
        let second = match (self.second, standings.map(|standing| standing == Standing::Idle)) {
            (0, _) => return Which::First,
            (100, _) => return Which::Second,
            (_, [false, true]) => random.chance(self.nesting),
            (_, [true, false]) => !random.chance(self.nesting),
            (second, _) => random.chance(second),
        };
        if second {
            Which::Second
        } else {
            Which::First
        }
    }
}

/// Sizes within their ranges, the limits and small numbers more often.
pub fn any_sizes(random: &mut Random) -> Sizes {
    let nodes = match random.below(4) {
        0 => random.between(1, 4),
        1 => random.between(2, 8),
        2 => MOST_NODES,
        _ => random.between(1, MOST_NODES),
    };
    let fan_out = match random.below(4) {
        0 => 1,
        1 => 2,
        2 => 3,
        _ => random.between(1, MOST_FAN_OUT),
    };
    let threads = match random.below(4) {
        0 => random.between(1, 3),
        1 => random.between(2, 8),
        2 => random.between(4, 16),
        _ => random.between(1, MOST_THREADS),
    };
    Sizes { nodes: nodes as u8, fan_out: fan_out as u8, threads: threads as u8 }
}

/// Whether the thread's next step is held up.
fn waits(bench: &Bench, thread: u8) -> bool {
    let lock = bench.lock(bench.lock_of(thread, order::GO_ON));
    match lock.phase(thread) {
        Phase::Asleep => true,
        Phase::ReaderTakeMutex { .. } | Phase::WriterTakeMutex | Phase::LeaverTakeMutex { .. } => {
            lock.mutex().is_some()
        }
        _ => false,
    }
}

/// The next thread to move.
pub fn next_thread(random: &mut Random, bench: &Bench, manner: &Manner, before: u8) -> u8 {
    let threads = usize::from(bench.sizes().threads);
    let mut thread = if random.chance(manner.lingering) { before } else { random.below(threads) as u8 };
    // Over both locks every thread may be held up, each asleep in one lock while it
    // holds the other.
    for _ in 0..2 * threads {
        if !waits(bench, thread) || random.chance(manner.waiting) {
            break;
        }
        thread = random.below(threads) as u8;
    }
    thread
}

/// An order that suits a thread of these standings.
pub fn suiting_order(random: &mut Random, nodes: u8, manner: &Manner, standings: [Standing; 2]) -> u8 {
    if standings.iter().any(|standing| matches!(standing, Standing::Calling | Standing::Asleep)) {
        return order::GO_ON;
    }
    let which = manner.which(random, standings);
    which.order() + suiting_call(random, nodes, manner, standings[which as usize])
}

/// A call of a lock that suits a thread of this standing, which is in none.
fn suiting_call(random: &mut Random, nodes: u8, manner: &Manner, standing: Standing) -> u8 {
    match standing {
        Standing::Idle if random.chance(manner.writers) => order::WRITE_LOCK,
        Standing::Idle if random.chance(75) => order::READ_LOCK + random.pick(&manner.routes),
        Standing::Idle => order::READ_LOCK + random.below(usize::from(nodes)) as u8,
        // No number is drawn where there is no choice, so that a manner without
        // upgrades and downgrades gives the runs that it always gave.
        Standing::Reading if manner.upgrades > 0 && random.chance(manner.upgrades) => order::UPGRADE,
        Standing::Writing if manner.downgrades > 0 && random.chance(manner.downgrades) => order::DOWNGRADE,
        _ => order::UNLOCK,
    }
}

/// The next row: a thread, as the one of the row before it and the manner have it, with
/// an order that suits it.
pub fn next_row(random: &mut Random, bench: &Bench, manner: &Manner, before: u8) -> (u8, u8) {
    let thread = next_thread(random, bench, manner, before);
    let standings = Which::BOTH.map(|which| bench.lock(which).standing(thread));
    (thread, suiting_order(random, bench.sizes().nodes, manner, standings))
}

/// Drives the plain machine through `rows` legal rows from the fresh locks.
/// Returns the schedule and the state it ends in.
pub fn drive(
    random: &mut Random,
    sizes: Sizes,
    rows: usize,
    manner: &Manner,
    coverage: &mut Coverage,
) -> (Schedule, Bench) {
    let mut schedule = Schedule { sizes, threads: Vec::new(), orders: Vec::new() };
    let mut bench = Bench::fresh(sizes);
    let mut trace = coverage.trace(sizes);
    let mut thread = 0;
    for _ in 0..rows {
        let (next, order) = next_row(random, &bench, manner, thread);
        thread = next;
        trace.row(&mut bench, thread, order);
        schedule.push(thread, order);
    }
    (schedule, bench)
}

#[cfg(test)]
mod tests {
    use super::*;

    /// Drives runs of every manner and hands each state to `look`.
    fn each_state(mut look: impl FnMut(&Bench)) {
        let mut random = Random::new(8);
        for _ in 0..500 {
            let sizes = any_sizes(&mut random);
            let manner = Manner::any_locks(&mut random, sizes);
            let (schedule, _) = drive(&mut random, sizes, 300, &manner, &mut Coverage::new());
            let mut bench = Bench::fresh(sizes);
            for (&thread, &order) in schedule.threads.iter().zip(&schedule.orders) {
                bench.row(thread, order).unwrap();
                look(&bench);
            }
        }
    }

    /// Document 02: "keep it equal to the number of writers queued"
    #[test]
    fn stored_number_is_that_of_the_writers() {
        each_state(|bench| {
            for which in Which::BOTH {
                let queue = bench.lock(which).queue();
                assert_eq!(usize::from(queue.number()), queue.writers().count());
            }
        });
    }

    #[test]
    fn nobody_else_holds_while_one_writes() {
        each_state(|bench| {
            for which in Which::BOTH {
                let phases = (0..bench.sizes().threads).map(|thread| bench.lock(which).phase(thread));
                let writing = phases.clone().filter(|phase| *phase == Phase::Writing).count();
                let reading = phases.filter(|phase| matches!(phase, Phase::Reading { .. })).count();
                assert!(writing == 0 || writing == 1 && reading == 0);
            }
        });
    }

    /// A manner over one lock gives the same run at either.
    #[test]
    fn either_lock_alone_gives_the_same_run() {
        let mut random = Random::new(8);
        for seed in 0..50 {
            let sizes = any_sizes(&mut random);
            let manner = Manner::any(&mut random, sizes);
            let at = |second| Manner { second, ..manner.clone() };
            let drive = |manner| drive(&mut Random::new(seed), sizes, 100, &manner, &mut Coverage::new()).0;
            let (first, second) = (drive(at(0)), drive(at(100)));
            let added = |order: &u8| if *order == order::GO_ON { 0 } else { order + order::SECOND_LOCK };
            assert_eq!(first.threads, second.threads);
            assert_eq!(first.orders.iter().map(added).collect::<Vec<_>>(), second.orders);
        }
    }
}
