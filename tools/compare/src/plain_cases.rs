//! The files of the plain engine's cases, and which calls they reach.

use crate::cases::{call_edges, orders_after, size_edges, Files, Named, Reached};
use crate::known::{self, Known};
use crate::machine::{order, Sizes};
use crate::plain::{Engine, Standing};
use crate::random::Random;
use crate::schedule::{any_sizes, Schedule};
use crate::tally::{events, Tally};

events! {
    ReadEntered = "read-lock: open, enters",
    ReadStartsGroup = "read-lock: closed, starts the group and sleeps",
    ReadStartsGroupBehind = "read-lock: closed, starts the group behind a writer and sleeps",
    ReadJoinsGroup = "read-lock: closed, joins the group and sleeps",
    WriteEntered = "write-lock: (0, open), enters",
    WriteCloses = "write-lock: open with a surplus, closes and sleeps",
    WriteSleeps = "write-lock: closed, sleeps",

    ReaderLeftOpen = "reader's unlock: open",
    ReaderLeftClosed = "reader's unlock: closed, not the last",
    LastTookWriter = "reader's unlock: the last, to the one writer",
    LastTookWriterOfSeveral = "reader's unlock: the last, to the longest-waiting of several writers",
    LastTookWriterNotReaders = "reader's unlock: the last, to a writer though readers are queued too",
    WriterLeftOpen = "writer's unlock: nobody queued, opens",
    WriterToReadersOpen = "writer's unlock: to readers, opens",
    WriterToReadersClosed = "writer's unlock: to readers, closed for a writer still queued",
    WriterToWriter = "writer's unlock: to the one writer",
    WriterToWriterOfSeveral = "writer's unlock: to the longest-waiting of several writers",

    RefusedThread = "refusal 5",
    RefusedGoOn = "refusal 6: go on",
    RefusedOrderLow = "refusal 6: order 3 to 63",
    RefusedOrderNode = "refusal 6: node N or more",
    RefusedOrderHigh = "refusal 6: order 96 to 127",
    RefusedSecondLock = "refusal 6: order 128 or more",
    RefusedGoOnAsleep = "refusal 6: go on, asleep",
    WriteLockReading = "refusal 7: write-lock, reading",
    WriteLockWriting = "refusal 7: write-lock, writing",
    WriteLockAsleep = "refusal 7: write-lock, asleep",
    ReadLockReading = "refusal 7: read-lock, reading",
    ReadLockWriting = "refusal 7: read-lock, writing",
    ReadLockAsleep = "refusal 7: read-lock, asleep",
    UnlockIdle = "refusal 7: unlock, idle",
    UnlockAsleep = "refusal 7: unlock, asleep",
}

/// The event of a call that suits its thread, which has this standing after it;
/// the state is the one before it.
fn taken_event(before: &Engine, thread: u8, order: u8, after: Standing) -> Event {
    let queue = before.queue();
    let (readers, writers) = (queue.readers() != 0, queue.writers().count());
    match (before.standing(thread), order) {
        (Standing::Idle, order::WRITE_LOCK) => match after {
            Standing::Writing => Event::WriteEntered,
            _ if before.closed() => Event::WriteSleeps,
            _ => Event::WriteCloses,
        },
        (Standing::Idle, _) => match (after, readers, writers) {
            (Standing::Reading, _, _) => Event::ReadEntered,
            (_, true, _) => Event::ReadJoinsGroup,
            (_, false, 0) => Event::ReadStartsGroup,
            (_, false, _) => Event::ReadStartsGroupBehind,
        },
        (Standing::Reading, _) => {
            let holders = (0..before.sizes().threads)
                .filter(|holder| before.standing(*holder) == Standing::Reading)
                .count();
            match (before.closed(), holders, readers, writers) {
                (false, _, _, _) => Event::ReaderLeftOpen,
                (true, 2.., _, _) => Event::ReaderLeftClosed,
                (true, _, true, _) => Event::LastTookWriterNotReaders,
                (true, _, false, 2..) => Event::LastTookWriterOfSeveral,
                (true, _, false, _) => Event::LastTookWriter,
            }
        }
        (_, _) => match (readers, writers) {
            (true, 0) => Event::WriterToReadersOpen,
            (true, _) => Event::WriterToReadersClosed,
            (false, 0) => Event::WriterLeftOpen,
            (false, 1) => Event::WriterToWriter,
            (false, _) => Event::WriterToWriterOfSeveral,
        },
    }
}

/// The event of a refused row.
fn refused_event(engine: &Engine, thread: u8, order: u8) -> Event {
    let sizes = engine.sizes();
    if thread >= sizes.threads {
        return Event::RefusedThread;
    }
    match (order, engine.standing(thread)) {
        (order::GO_ON, Standing::Asleep) => Event::RefusedGoOnAsleep,
        (order::GO_ON, _) => Event::RefusedGoOn,
        (order::WRITE_LOCK, Standing::Reading) => Event::WriteLockReading,
        (order::WRITE_LOCK, Standing::Writing) => Event::WriteLockWriting,
        (order::WRITE_LOCK, _) => Event::WriteLockAsleep,
        (order::UNLOCK, Standing::Idle) => Event::UnlockIdle,
        (order::UNLOCK, _) => Event::UnlockAsleep,
        (3..=63, _) => Event::RefusedOrderLow,
        (order::READ_LOCK..=order::LAST_READ_LOCK, _) if order - order::READ_LOCK >= sizes.nodes => {
            Event::RefusedOrderNode
        }
        (order::READ_LOCK..=order::LAST_READ_LOCK, Standing::Reading) => Event::ReadLockReading,
        (order::READ_LOCK..=order::LAST_READ_LOCK, Standing::Writing) => Event::ReadLockWriting,
        (order::READ_LOCK..=order::LAST_READ_LOCK, _) => Event::ReadLockAsleep,
        (order::SECOND_LOCK.., _) => Event::RefusedSecondLock,
        _ => Event::RefusedOrderHigh,
    }
}

/// Drives the plain engine through `calls` calls from the fresh lock, of which
/// `writers` in a hundred that lock do so to write. Returns the calls and the
/// state they end in.
pub fn drive_calls(
    random: &mut Random,
    sizes: Sizes,
    calls: usize,
    writers: usize,
    reached: &mut Tally,
) -> (Schedule, Engine) {
    let mut schedule = Schedule::new(sizes.nodes, sizes.fan_out, sizes.threads);
    let mut engine = Engine::fresh(sizes);
    for _ in 0..calls {
        let awake: Vec<u8> =
            (0..sizes.threads).filter(|thread| engine.standing(*thread) != Standing::Asleep).collect();
        // Who sleeps waits for a holder, who does not.
        let thread = random.pick(&awake);
        let order = match engine.standing(thread) {
            Standing::Idle if random.chance(writers) => order::WRITE_LOCK,
            Standing::Idle => order::READ_LOCK + random.below(usize::from(sizes.nodes)) as u8,
            _ => order::UNLOCK,
        };
        let mut after = engine.clone();
        after.row(thread, order).expect("the call suits its thread");
        reached.count(taken_event(&engine, thread, order, after.standing(thread)) as usize);
        engine = after;
        schedule.push(thread, order);
    }
    (schedule, engine)
}

/// Any share of writers.
pub fn any_writers(random: &mut Random) -> usize {
    random.pick(&[0, 5, 10, 20, 40, 80, 100])
}

/// A tally of the plain engine's calls.
pub fn tally() -> Tally {
    Tally::new(Event::NAMES, Vec::new())
}

/// The files on both sides of every limit.
pub fn edge_files(reached: &mut Tally) -> Vec<Named> {
    let mut random = Random::new(1);
    let run = |[nodes, fan_out, threads]: [u8; 3], calls| {
        drive_calls(&mut random, Sizes { nodes, fan_out, threads }, calls, 10, reached).0.file()
    };
    let mut edges = size_edges(run);
    edges.extend(call_edges());
    let rows = |threads, text: &str| Schedule::new(1, 2, threads).rows(text).file();
    edges.extend([
        ("edge-n-1", rows(1, "0:64,2")),
        ("edge-order-0-asleep", rows(2, "0:1 1:64,0")),
        ("edge-order-3", rows(1, "0:3")),
        ("edge-order-before-suiting", rows(2, "1:64,65")),
    ]);
    edges
}

/// A row that is refused with 5, 6 or 7 in this state.
pub fn bad_row(random: &mut Random, engine: &Engine) -> (u8, u8) {
    let sizes = engine.sizes();
    let thread = random.below(usize::from(sizes.threads)) as u8;
    let read_lock = order::READ_LOCK + random.below(usize::from(sizes.nodes)) as u8;
    match random.below(9) {
        0 => (random.between(usize::from(sizes.threads), 255) as u8, random.byte()),
        1 => (thread, order::GO_ON),
        2 => (thread, random.between(3, 63) as u8),
        3 if sizes.nodes < 32 => (thread, random.between(64 + usize::from(sizes.nodes), 95) as u8),
        3 => (thread, random.between(96, 127) as u8),
        4 => (thread, random.between(128, 255) as u8),
        _ => {
            let orders: &[u8] = match engine.standing(thread) {
                Standing::Idle => &[order::UNLOCK],
                Standing::Reading | Standing::Writing => &[order::WRITE_LOCK, read_lock],
                Standing::Asleep => &[order::WRITE_LOCK, order::UNLOCK, read_lock],
            };
            (thread, random.pick(orders))
        }
    }
}

/// Makes files for the plain engine and counts the calls they reach.
pub struct PlainCases {
    reached: Tally,
}

impl PlainCases {
    pub fn new() -> PlainCases {
        PlainCases { reached: tally() }
    }
}

impl Reached for PlainCases {
    fn name(&self) -> &'static str {
        "The plain engine"
    }

    fn reached(&self) -> Vec<(&'static str, &Tally)> {
        vec![("Call", &self.reached)]
    }
}

impl Files for PlainCases {
    type Run = Schedule;

    fn known(&self) -> Vec<Known> {
        known::of_plain_engine()
    }

    fn edges(&mut self) -> Vec<Named> {
        edge_files(&mut self.reached)
    }

    fn legal(&mut self, random: &mut Random, rows: usize) -> Vec<u8> {
        let sizes = any_sizes(random);
        let writers = any_writers(random);
        drive_calls(random, sizes, rows, writers, &mut self.reached).0.file()
    }

    fn refused(&mut self, random: &mut Random, rows: usize) -> Schedule {
        let sizes = any_sizes(random);
        let writers = any_writers(random);
        let (mut schedule, mut engine) = drive_calls(random, sizes, rows, writers, &mut self.reached);
        let (thread, order) = bad_row(random, &engine);
        self.reached.count(refused_event(&engine, thread, order) as usize);
        engine.row(thread, order).expect_err("the row is bad");
        schedule.push(thread, order);
        schedule
    }

    fn empty(&self, random: &mut Random) -> Schedule {
        Schedule::any_empty(random)
    }

    fn every_order(&self) -> Vec<Vec<u8>> {
        orders_after(&["", "0:64", "0:1", "1:1 0:64"])
    }

    fn orders(&self) -> &'static [u8] {
        &[0, 1, 1, 1, 2, 2, 2, 3, 4, 64, 64, 64, 64, 65]
    }

    fn enough_journal(&self, _: &[u8]) -> usize {
        0
    }

    fn journals(&self, _: &[u8]) -> Vec<usize> {
        vec![0]
    }

    fn any_journal(&self, _: &mut Random, _: &[u8]) -> usize {
        0
    }
}
