//! Every state of one lock that rows lead to from the fresh lock, breadth first: what
//! `explore_lock` and `explore_schedule` give. Written from what docs/SPECIFICATION.md
//! says of them; a row is the bench's.

use std::collections::HashMap;
use std::mem;

use crate::differ::Explored;
use crate::machine::{kind, order, Bench, Departure, Leaver, Phase, Sizes, Which, Word};
use crate::schedule::Schedule;

/// The most nodes and threads of a lock that is explored; the fan-out is a schedule's.
const MOST_NODES: usize = 8;
const MOST_THREADS: usize = 8;

/// Complete, the store was too small, a size is out of range.
pub mod answer {
    pub const COMPLETE: u8 = 0;
    pub const TOO_SMALL: u8 = 1;
    pub const SIZE: u8 = 2;
}

/// N, F and T of a lock that may be explored.
pub fn sizes_of([nodes, fan_out, threads]: [usize; 3]) -> Option<Sizes> {
    if nodes > MOST_NODES || threads > MOST_THREADS {
        return None;
    }
    Sizes::new(nodes as u8, u8::try_from(fan_out).ok()?, threads as u8)
}

/// A phase without what it remembers and no row goes by from then on: whether it is a
/// writer or the last reader that wakes a group and is idle then, and by which node above
/// the root a reader arrived whose unlock has begun.
fn at_row(phase: Phase) -> Phase {
    let unlock = |made| match made {
        Departure::Unlock { ticket } => Departure::Unlock { ticket: ticket.min(1) },
        _ => made,
    };
    let wakes = |leaver| if leaver == Leaver::LastReader { Leaver::Writer } else { leaver };
    match phase {
        Phase::DepartRead { node, made } => Phase::DepartRead { node, made: unlock(made) },
        Phase::DepartSwap { node, seen, made } => Phase::DepartSwap { node, seen, made: unlock(made) },
        Phase::ReleaseToWake { leaver, waiters, members } => {
            Phase::ReleaseToWake { leaver: wakes(leaver), waiters, members }
        }
        Phase::Wake { leaver, waiters, members } => Phase::Wake { leaver: wakes(leaver), waiters, members },
        _ => phase,
    }
}

/// One lock as its rows are made.
#[derive(Clone)]
pub struct Rows {
    bench: Bench,
    /// The threads that swap a node on the way down once more, one bit each. Document 01's
    /// "swap to 1 from the 0 read on the way up" and "after a failure, read and swap + 1, even
    /// from 0" are two rows of the call, also where the second is from 0.
    again: u64,
}

impl Rows {
    pub fn fresh(sizes: Sizes) -> Rows {
        Rows { bench: Bench::fresh(sizes), again: 0 }
    }

    /// Makes a row. A refused row changes nothing.
    pub fn row(&mut self, thread: u8, order: u8) -> Result<(), u8> {
        let entry = self.bench.row(thread, order)?;
        let down = matches!(self.bench.lock(Which::First).phase(thread), Phase::RaiseDown { .. });
        let again = down && entry.kind == kind::SWAP_FAILED;
        self.again = self.again & !(1 << thread) | u64::from(again) << thread;
        Ok(())
    }
}

/// All that a row goes by, and at which row of its call each thread is: a lock but for its
/// threads' failures.
#[derive(Clone, Debug, PartialEq, Eq, Hash)]
pub struct State {
    words: Vec<Word>,
    mutex: Option<u8>,
    readers: u64,
    writers: Vec<u8>,
    /// The stored number of waiting writers.
    number: u8,
    phases: Vec<Phase>,
    again: u64,
}

impl State {
    pub fn of(rows: &Rows) -> State {
        let lock = rows.bench.lock(Which::First);
        let queue = lock.queue();
        State {
            words: lock.words().to_vec(),
            mutex: lock.mutex(),
            readers: queue.readers(),
            writers: queue.writers().collect(),
            number: queue.number(),
            phases: (0..lock.sizes().threads).map(|thread| at_row(lock.phase(thread))).collect(),
            again: rows.again,
        }
    }
}

/// The row by which the search came to a state, from which one, and how many it needs.
struct Step {
    from: usize,
    thread: u8,
    order: u8,
    depth: usize,
}

/// The states found, numbered in the order of the rows that they need.
pub struct Found {
    sizes: Sizes,
    complete: bool,
    numbers: HashMap<State, usize>,
    steps: Vec<Step>,
}

impl Found {
    /// Explores a lock in room for so many states.
    pub fn explore(sizes: Sizes, room: usize) -> Found {
        let mut found = Found { sizes, complete: room > 0, numbers: HashMap::new(), steps: Vec::new() };
        let mut level = Vec::new();
        if found.complete {
            let fresh = Rows::fresh(sizes);
            found.add(State::of(&fresh), Step { from: 0, thread: 0, order: 0, depth: 0 });
            level.push((0, fresh));
        }
        while found.complete && !level.is_empty() {
            level = found.beyond(&level, room);
        }
        found
    }

    fn add(&mut self, state: State, step: Step) {
        self.numbers.insert(state, self.steps.len());
        self.steps.push(step);
    }

    /// The states that a row leads to from those of one level and that were not found.
    fn beyond(&mut self, level: &[(usize, Rows)], room: usize) -> Vec<(usize, Rows)> {
        let mut next = Vec::new();
        for &(from, ref rows) in level {
            let depth = self.steps[from].depth + 1;
            for thread in 0..self.sizes.threads {
                // A refused row changes nothing.
                let mut tried = rows.clone();
                for order in 0..order::SECOND_LOCK {
                    if tried.row(thread, order).is_err() {
                        continue;
                    }
                    let after = mem::replace(&mut tried, rows.clone());
                    let state = State::of(&after);
                    if self.numbers.contains_key(&state) {
                        continue;
                    }
                    if self.steps.len() == room {
                        self.complete = false;
                        return next;
                    }
                    next.push((self.steps.len(), after));
                    self.add(state, Step { from, thread, order, depth });
                }
            }
        }
        next
    }

    /// The number of a state, where it was found.
    pub fn number(&self, state: &State) -> Option<usize> {
        self.numbers.get(state).copied()
    }

    /// How many rows a state needs.
    pub fn depth(&self, number: usize) -> usize {
        self.steps[number].depth
    }

    pub fn explored(&self) -> Explored {
        Explored {
            answer: if self.complete { answer::COMPLETE } else { answer::TOO_SMALL },
            states: self.steps.len(),
            depth: self.steps.last().map_or(0, |step| step.depth),
        }
    }

    /// The rows by which the search came to a state, as a schedule file.
    fn schedule(&self, mut number: usize) -> Vec<u8> {
        let Sizes { nodes, fan_out, threads } = self.sizes;
        let mut schedule = Schedule::new(nodes, fan_out, threads);
        while number > 0 {
            let Step { from, thread, order, .. } = self.steps[number];
            schedule.push(thread, order);
            number = from;
        }
        schedule.threads.reverse();
        schedule.orders.reverse();
        schedule.file()
    }
}

/// Explores a lock in room for so many states, and tells each state's number and schedule.
pub fn explore_lock(sizes: [usize; 3], room: usize, tell: &mut dyn FnMut(usize, &[u8])) -> Explored {
    let Some(sizes) = sizes_of(sizes) else {
        return Explored { answer: answer::SIZE, states: 0, depth: 0 };
    };
    let found = Found::explore(sizes, room);
    for number in 0..found.steps.len() {
        tell(number, &found.schedule(number));
    }
    found.explored()
}
