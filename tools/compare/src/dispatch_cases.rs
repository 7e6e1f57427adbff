//! The files of the dispatcher's cases, what its steps reach, and the claims of
//! request Nine on every schedule it gives.

use crate::cases::{call_edges, orders_after, size_edges, Files, Named, Reached};
use crate::dispatcher::{dispatch_sheet, LEAST_SCHEDULE};
use crate::known::{self, Known};
use crate::machine::{
    self, kind, order, parse, refusal, Bench, Lock, Phase, Sizes, Which, LEAST_SHEET, MOST_ROWS,
};
use crate::random::Random;
use crate::schedule::{any_sizes, Schedule};
use crate::tally::{events, Tally};

events! {
    Begun = "step: call begun",
    WentOn = "step: call went on",
    HeldUp = "step: held up at the mutex",
    SleeperPassed = "turn: a sleeper is passed over",
    DonePassed = "turn: a thread done with its last call is passed over",
    WokenAbove = "step: by a thread woken in the same round",
    WokenBelow = "step: by a thread woken in the round before",
    EndedDone = "end: every thread is done with its last call",
    EndedAsleep = "end: every thread is done or asleep, some asleep",
    EndedLimit = "end: 4,096 steps, calls left",
    RefusedThread = "refusal 5",
    RefusedGoOn = "refusal 6: order 0",
    RefusedOrder = "refusal 6: another order below 128",
    RefusedSecondLock = "refusal 6: order 128 or more",
    Unsuited = "refusal 7, after steps",
    UnsuitedFirst = "refusal 7, at the first step",
}

/// A tally of the dispatcher's turns.
pub fn tally() -> Tally {
    Tally::new(Event::NAMES, Vec::new())
}

/// Follows the schedule that was given for a file of calls. Asks for what
/// request Nine claims of it, and counts its turns.
pub struct Follower<'a> {
    reached: &'a mut Tally,
    sizes: Sizes,
    bench: Bench,
    /// The calls that each thread has yet to begin, the next one last.
    wanted: Vec<Vec<u8>>,
    /// How many steps in a row others were given while the thread could move.
    passed: Vec<usize>,
    /// Who woke the thread, until it has its next step.
    woken: Vec<Option<u8>>,
}

impl<'a> Follower<'a> {
    fn new(reached: &'a mut Tally, sizes: Sizes, threads: &[u8], orders: &[u8]) -> Follower<'a> {
        let count = usize::from(sizes.threads);
        let mut wanted = vec![Vec::new(); count];
        for (&thread, &order) in threads.iter().zip(orders).rev() {
            if let Some(calls) = wanted.get_mut(usize::from(thread)) {
                calls.push(order);
            }
        }
        let bench = Bench::fresh(sizes);
        Follower { reached, sizes, bench, wanted, passed: vec![0; count], woken: vec![None; count] }
    }

    fn count(&mut self, event: Event) {
        self.reached.count(event as usize);
    }

    /// The one lock that is used.
    fn lock(&self) -> &Lock {
        self.bench.lock(Which::First)
    }

    fn resting(&self, thread: u8) -> bool {
        self.lock().rests(usize::from(thread))
    }

    fn asleep(&self, thread: u8) -> bool {
        self.lock().phase(thread) == Phase::Asleep
    }

    fn done(&self, thread: u8) -> bool {
        self.resting(thread) && self.wanted[usize::from(thread)].is_empty()
    }

    /// "neither asleep nor done with its last call"
    fn able(&self, thread: u8) -> bool {
        !self.asleep(thread) && !self.done(thread)
    }

    /// The threads that had a turn and no step between two steps.
    fn turns_between(&mut self, before: Option<u8>, thread: u8) {
        let mut turn = before.map_or(0, |before| (before + 1) % self.sizes.threads);
        while turn != thread {
            let asleep = self.asleep(turn);
            self.count(if asleep { Event::SleeperPassed } else { Event::DonePassed });
            turn = (turn + 1) % self.sizes.threads;
        }
    }

    fn step(&mut self, number: usize, before: Option<u8>, thread: u8, order: u8) -> Result<(), String> {
        let place = usize::from(thread);
        if thread >= self.sizes.threads || !self.able(thread) {
            return Err(format!("step {number}: thread {thread} is asleep or done with its last call"));
        }
        self.turns_between(before, thread);
        // "A thread that stays able to move gets a step within any T consecutive
        // steps given"
        for other in 0..self.sizes.threads {
            let waits = other != thread && self.able(other);
            let passed = &mut self.passed[usize::from(other)];
            *passed = if waits { *passed + 1 } else { 0 };
            if *passed >= usize::from(self.sizes.threads) {
                return Err(format!("step {number}: thread {other} could move and was passed over"));
            }
        }

        // "each row is a call that its thread wants, in file order"
        let wanted = if self.resting(thread) { self.wanted[place].pop() } else { Some(order::GO_ON) };
        if wanted != Some(order) {
            return Err(format!("step {number}: order {order} is not what thread {thread} wants next"));
        }
        let asleep: Vec<u8> = (0..self.sizes.threads).filter(|thread| self.asleep(*thread)).collect();
        let entry = self.bench.row(thread, order).map_err(|answer| format!("step {number}: {answer}"))?;
        self.count(match (order, entry.kind) {
            (order::GO_ON, kind::HELD_UP) => Event::HeldUp,
            (order::GO_ON, _) => Event::WentOn,
            (_, _) => Event::Begun,
        });
        if let Some(waker) = self.woken[place].take() {
            self.count(if waker < thread { Event::WokenAbove } else { Event::WokenBelow });
        }
        for sleeper in asleep {
            if !self.asleep(sleeper) {
                self.woken[usize::from(sleeper)] = Some(thread);
            }
        }
        Ok(())
    }

    /// Whether the steps end where they may.
    fn end(&mut self, answer: u8, steps: usize, before: Option<u8>) -> Result<(), String> {
        let threads = self.sizes.threads;
        match answer {
            refusal::NONE if steps == MOST_ROWS && (0..threads).any(|thread| self.able(thread)) => {
                self.count(Event::EndedLimit);
            }
            refusal::NONE => {
                if let Some(thread) = (0..threads).find(|thread| self.able(*thread)) {
                    return Err(format!("the steps end though thread {thread} can move"));
                }
                let asleep = (0..threads).any(|thread| !self.done(thread));
                self.count(if asleep { Event::EndedAsleep } else { Event::EndedDone });
            }
            refusal::UNSUITED => {
                let first = before.map_or(0, |before| (before + 1) % threads);
                let turns = (0..threads).map(|turn| (first + turn) % threads);
                let next = turns.into_iter().find(|thread| self.able(*thread));
                let call = next.and_then(|thread| self.wanted[usize::from(thread)].last().copied());
                let (Some(thread), Some(call)) = (next, call) else {
                    return Err("no call is left that could be refused".to_string());
                };
                if steps == MOST_ROWS || self.bench.row(thread, call) != Err(refusal::UNSUITED) {
                    return Err(format!("thread {thread}'s call {call} is refused"));
                }
                self.count(if steps == 0 { Event::UnsuitedFirst } else { Event::Unsuited });
            }
            _ => {}
        }
        Ok(())
    }
}

/// Asks for what request Nine claims of a file's schedule and sheet, given with
/// answers 0 and 5 to 7; `bench` makes the sheet of that schedule.
pub fn follow(
    file: &[u8],
    schedule: &[u8],
    text: &str,
    bench: crate::differ::BenchSheet,
    reached: &mut Tally,
) -> Result<(), String> {
    let mut words = text.split([' ', '\n']);
    let answer: u8 = words.nth(1).and_then(|word| word.parse().ok()).ok_or("the sheet has no answer")?;
    if (refusal::SHORT_FILE..=refusal::JOURNAL).contains(&answer) {
        return Ok(());
    }
    let (sizes, threads, orders) = parse(file).map_err(|_| "the file is refused")?;
    let length = 5 + 2 * crate::schedule::rows_named(schedule);
    let schedule = schedule.get(..length).ok_or("the schedule is longer than its buffer")?;
    let (_, step_threads, step_orders) = parse(schedule).map_err(|_| "the schedule is none")?;

    // "the bench's sheet of it is the same but for the refusal number"
    let mut page = [0; LEAST_SHEET];
    let written = bench(schedule, &mut [0; 2 * MOST_ROWS], &mut page);
    let sheet = String::from_utf8_lossy(&page[..written]);
    if sheet.strip_prefix("answer 0 ") != text.strip_prefix(&format!("answer {answer} ")) {
        return Err(format!("the bench's sheet of the schedule is another:\n{sheet}"));
    }

    let mut follower = Follower::new(reached, sizes, threads, orders);
    let mut before = None;
    for (number, (&thread, &order)) in step_threads.iter().zip(step_orders).enumerate() {
        follower.step(number, before, thread, order)?;
        before = Some(thread);
    }
    follower.end(answer, step_threads.len(), before)
}

/// Calls that suit whatever the other threads do, and their threads in any order.
pub fn any_calls(random: &mut Random, sizes: Sizes, calls: usize, writers: usize) -> Schedule {
    // What a thread is after its latest call; an upgrade leaves it reading or
    // writing.
    #[derive(Clone, Copy)]
    enum After {
        Unlock,
        ReadLock,
        WriteLock,
        Upgrade,
    }
    let mut schedule = Schedule::new(sizes.nodes, sizes.fan_out, sizes.threads);
    let mut after = vec![After::Unlock; usize::from(sizes.threads)];
    let (upgrades, downgrades) = (random.pick(&[0, 10, 40]), random.pick(&[0, 20, 50]));
    for _ in 0..calls {
        let thread = random.below(usize::from(sizes.threads));
        let (order, next) = match after[thread] {
            After::Unlock if random.chance(writers) => (order::WRITE_LOCK, After::WriteLock),
            After::Unlock => {
                let node = random.below(usize::from(sizes.nodes)) as u8;
                (order::READ_LOCK + node, After::ReadLock)
            }
            After::ReadLock if random.chance(upgrades) => (order::UPGRADE, After::Upgrade),
            After::WriteLock if random.chance(downgrades) => (order::DOWNGRADE, After::ReadLock),
            _ => (order::UNLOCK, After::Unlock),
        };
        schedule.push(thread as u8, order);
        after[thread] = next;
    }
    schedule
}

/// Any share of writers.
fn any_writers(random: &mut Random) -> usize {
    random.pick(&[0, 5, 10, 20, 40, 80])
}

/// The files on both sides of every limit.
pub fn edge_files() -> Vec<Named> {
    let mut random = Random::new(1);
    let run = |[nodes, fan_out, threads]: [u8; 3], calls| {
        any_calls(&mut random, Sizes { nodes, fan_out, threads }, calls, 10).file()
    };
    let mut edges = size_edges(run);
    edges.extend(call_edges());
    let rows = |text: &str| Schedule::new(1, 2, 2).rows(text).file();
    edges.extend([
        ("edge-order-5", Schedule::new(1, 2, 1).rows("0:5").file()),
        ("edge-order-before-thread", rows("1:0 2:64")),
        ("edge-order-before-suiting", rows("1:2 1:65")),
    ]);
    edges
}

/// Makes files for the dispatcher and counts the turns they reach.
pub struct DispatchCases {
    reached: Tally,
    broken: Option<String>,
}

impl DispatchCases {
    pub fn new() -> DispatchCases {
        DispatchCases { reached: tally(), broken: None }
    }

    /// Follows what the dispatcher gives for the file.
    fn follow(&mut self, file: &[u8]) {
        let (mut schedule, mut page) = (vec![0; LEAST_SCHEDULE], [0; LEAST_SHEET]);
        let written = dispatch_sheet(file, &mut schedule, &mut page);
        let text = String::from_utf8_lossy(&page[..written]);
        let followed = follow(file, &schedule, &text, machine::bench_sheet, &mut self.reached);
        if let (Err(broken), None) = (followed, &self.broken) {
            self.broken = Some(format!("{broken}\nfile {file:02x?}"));
        }
    }
}

impl Reached for DispatchCases {
    fn name(&self) -> &'static str {
        "The dispatcher"
    }

    fn reached(&self) -> Vec<(&'static str, &Tally)> {
        vec![("Turn", &self.reached)]
    }

    fn broken(&self) -> Option<&str> {
        self.broken.as_deref()
    }
}

impl Files for DispatchCases {
    type Run = Schedule;

    fn known(&self) -> Vec<Known> {
        known::of_dispatcher()
    }

    fn edges(&mut self) -> Vec<Named> {
        edge_files()
    }

    fn legal(&mut self, random: &mut Random, rows: usize) -> Vec<u8> {
        let sizes = any_sizes(random);
        let writers = any_writers(random);
        let file = any_calls(random, sizes, rows, writers).file();
        self.follow(&file);
        file
    }

    fn refused(&mut self, random: &mut Random, rows: usize) -> Schedule {
        let sizes = any_sizes(random);
        let writers = any_writers(random);
        let mut schedule = any_calls(random, sizes, rows, writers);
        let thread = random.below(usize::from(sizes.threads)) as u8;
        let read_lock = order::READ_LOCK + random.below(usize::from(sizes.nodes)) as u8;
        // Calls that do not suit are so where they come after certain others.
        let (thread, order, event) = match random.below(9) {
            0 => {
                let thread = random.between(usize::from(sizes.threads), 255) as u8;
                (thread, random.byte(), Some(Event::RefusedThread))
            }
            1 => (thread, order::GO_ON, Some(Event::RefusedGoOn)),
            2 => (thread, random.between(5, 63) as u8, Some(Event::RefusedOrder)),
            3 => (thread, random.between(96, 127) as u8, Some(Event::RefusedOrder)),
            4 => (thread, random.between(128, 255) as u8, Some(Event::RefusedSecondLock)),
            _ => (thread, random.pick(&[1, 2, 3, 4, read_lock]), None),
        };
        schedule.push(thread, order);
        match event {
            Some(event) => self.reached.count(event as usize),
            None => self.follow(&schedule.file()),
        }
        schedule
    }

    fn empty(&self, random: &mut Random) -> Schedule {
        Schedule::any_empty(random)
    }

    fn every_order(&self) -> Vec<Vec<u8>> {
        orders_after(&["", "0:64", "0:1", "1:1 0:64"])
    }

    fn orders(&self) -> &'static [u8] {
        &[1, 2, 2, 3, 4, 64, 64, 64, 65]
    }

    fn enough_journal(&self, _: &[u8]) -> usize {
        LEAST_SCHEDULE
    }

    fn journals(&self, _: &[u8]) -> Vec<usize> {
        vec![LEAST_SCHEDULE - 1, LEAST_SCHEDULE, LEAST_SCHEDULE + 10]
    }

    fn any_journal(&self, random: &mut Random, _: &[u8]) -> usize {
        match random.below(20) {
            0 => 0,
            1 => LEAST_SCHEDULE - 1,
            2 => random.below(LEAST_SCHEDULE),
            3 | 4 => LEAST_SCHEDULE + random.below(100),
            _ => LEAST_SCHEDULE,
        }
    }
}
