//! The files of the bench's cases.

use crate::cases::{orders_after, size_edges, Files, Named, Reached};
use crate::coverage::Coverage;
use crate::known::{self, Known};
use crate::machine::{order, refusal, Bench, Phase, Sizes, Which};
use crate::random::Random;
use crate::schedule::{any_sizes, drive, rows_named, Manner, Schedule};
use crate::tally::Tally;

/// Makes files for the bench and counts the steps they reach.
pub struct BenchCases {
    coverage: Coverage,
}

impl BenchCases {
    pub fn new() -> BenchCases {
        BenchCases { coverage: Coverage::new() }
    }

    /// A driven run of any manner.
    fn run(&mut self, random: &mut Random, sizes: Sizes, rows: usize) -> (Schedule, Bench) {
        let manner = Manner::any_locks(random, sizes);
        drive(random, sizes, rows, &manner, &mut self.coverage)
    }
}

/// The files on both sides of every limit that document 01 names, and of the
/// limits beside them.
pub fn edge_files(coverage: &mut Coverage) -> Vec<Named> {
    let mut random = Random::new(1);
    let run = |[nodes, fan_out, threads]: [u8; 3], rows| {
        let sizes = Sizes { nodes, fan_out, threads };
        let manner = Manner::any(&mut random, sizes);
        drive(&mut random, sizes, rows, &manner, coverage).0.file()
    };
    let mut edges = size_edges(run);
    let rows = |nodes, threads, text: &str| Schedule::new(nodes, 2, threads).rows(text).file();
    edges.insert(1, ("edge-n-1", rows(1, 1, "0:64,0,0,2,0,0")));
    edges.extend([
        ("edge-order-95-n32", rows(32, 1, "0:95,0,0,0,0,0,0,0")),
        ("edge-order-95-n31", rows(31, 1, "0:95,0,0,0,0,0,0,0")),
        ("edge-order-94-n31", rows(31, 1, "0:94,0,0,0,0,0,0,0")),
        ("edge-order-3", rows(1, 1, "0:3")),
        ("edge-order-4", rows(1, 1, "0:4")),
        ("edge-order-5", rows(1, 1, "0:5")),
        ("edge-order-63", rows(32, 1, "0:63")),
        ("edge-order-96", rows(32, 1, "0:96")),
        ("edge-order-255", rows(32, 1, "0:255")),
        ("edge-thread-63", rows(2, 64, "63:64,0,0")),
        ("edge-thread-64", rows(2, 64, "64:64,0,0")),
        ("edge-thread-before-order", rows(1, 2, "1:64 2:96")),
        ("edge-order-before-suiting", rows(1, 2, "1:64 1:65")),
    ]);
    edges
}

/// The files on both sides of the limits of the second lock's orders.
pub fn second_lock_edges() -> Vec<Named> {
    let rows = |nodes, text: &str| Schedule::new(nodes, 2, 1).rows(text).file();
    vec![
        ("edge-order-127", rows(32, "0:127")),
        ("edge-order-133", rows(1, "0:133")),
        ("edge-order-191", rows(32, "0:191")),
        ("edge-order-223-n32", rows(32, "0:223,0,0,0,0,0,0,0")),
        ("edge-order-223-n31", rows(31, "0:223,0,0,0,0,0,0,0")),
        ("edge-order-222-n31", rows(31, "0:222,0,0,0,0,0,0,0")),
        ("edge-order-224", rows(32, "0:224")),
    ]
}

/// A row that is refused with 5, 6 or 7 in this state.
pub fn bad_row(random: &mut Random, bench: &Bench) -> (u8, u8) {
    let sizes = bench.sizes();
    let which = random.pick(&Which::BOTH);
    let any = random.below(usize::from(sizes.threads)) as u8;
    // A writer, who is alone, would be met seldom.
    let writing = |thread: &u8| bench.lock(which).phase(*thread) == Phase::Writing;
    let writer = (0..sizes.threads).find(writing).filter(|_| random.chance(30));
    let thread = writer.unwrap_or(any);
    let order = match random.below(6) {
        0 => return (random.between(usize::from(sizes.threads), 255) as u8, random.byte()),
        1 => random.between(5, 63) as u8,
        2 if sizes.nodes < 32 => random.between(64 + usize::from(sizes.nodes), 95) as u8,
        2 => random.between(96, 127) as u8,
        _ => return (thread, unsuited_order(random, bench, thread, which)),
    };
    (thread, order + which.order())
}

/// An order that is refused to the thread as it is: a call of this lock, 0 or 128.
fn unsuited_order(random: &mut Random, bench: &Bench, thread: u8, which: Which) -> u8 {
    let read_lock = order::READ_LOCK + random.below(usize::from(bench.sizes().nodes)) as u8;
    let any = [order::WRITE_LOCK, order::UNLOCK, order::UPGRADE, order::DOWNGRADE, read_lock];
    let rests = |which: Which| bench.lock(which).rests(usize::from(thread));
    if rests(Which::First) && rests(Which::Second) && random.chance(20) {
        return random.pick(&[order::GO_ON, order::SECOND_LOCK]);
    }
    let orders: &[u8] = match bench.lock(which).phase(thread) {
        _ if !rests(which.other()) => &any,
        Phase::Idle => &[order::UNLOCK, order::UPGRADE, order::DOWNGRADE],
        Phase::Reading { .. } => &[order::WRITE_LOCK, order::DOWNGRADE, read_lock],
        Phase::Writing => &[order::WRITE_LOCK, order::UPGRADE, read_lock],
        _ => &any,
    };
    which.order() + random.pick(orders)
}

impl Reached for BenchCases {
    fn name(&self) -> &'static str {
        "The bench"
    }

    fn reached(&self) -> Vec<(&'static str, &Tally)> {
        self.coverage.tables()
    }

    fn broken(&self) -> Option<&str> {
        self.coverage.broken()
    }
}

impl Files for BenchCases {
    type Run = Schedule;

    fn known(&self) -> Vec<Known> {
        known::all()
    }

    fn edges(&mut self) -> Vec<Named> {
        let mut edges = edge_files(&mut self.coverage);
        edges.extend(second_lock_edges());
        edges
    }

    fn empty(&self, random: &mut Random) -> Schedule {
        Schedule::any_empty(random)
    }

    fn every_order(&self) -> Vec<Vec<u8>> {
        orders_after(&[
            "",
            "0:64,0,0",
            "0:129,0,0",
            "0:1,0,0 0:192,0,0",
            "0:64,0",
            "0:129",
            "0:1,0,0 0:129",
            "1:1,0,0 0:64,0,0,0,0,0",
            "1:129,0,0 0:64,0,0 0:192,0,0,0,0,0",
        ])
    }

    fn legal(&mut self, random: &mut Random, rows: usize) -> Vec<u8> {
        let sizes = any_sizes(random);
        self.run(random, sizes, rows).0.file()
    }

    fn refused(&mut self, random: &mut Random, rows: usize) -> Schedule {
        let sizes = any_sizes(random);
        let (mut schedule, mut bench) = self.run(random, sizes, rows);
        let (thread, order) = bad_row(random, &bench);
        let answer = bench.row(thread, order).expect_err("the row is bad");
        assert!([refusal::THREAD, refusal::ORDER, refusal::UNSUITED].contains(&answer));
        self.coverage.refused(&bench, thread, order);
        schedule.push(thread, order);
        schedule
    }

    fn orders(&self) -> &'static [u8] {
        &[0, 0, 0, 0, 0, 0, 1, 1, 2, 3, 4, 64, 65, 129, 130, 131, 132, 192, 193]
    }

    fn enough_journal(&self, file: &[u8]) -> usize {
        2 * rows_named(file)
    }

    fn journals(&self, file: &[u8]) -> Vec<usize> {
        let needed = self.enough_journal(file);
        vec![0, needed.saturating_sub(1), needed, needed + 1, needed + 100]
    }

    fn any_journal(&self, random: &mut Random, file: &[u8]) -> usize {
        let needed = self.enough_journal(file);
        match random.below(20) {
            0 => 0,
            1 => needed.saturating_sub(1),
            2 => random.below(needed + 1),
            3 => needed + 1,
            4 | 5 => needed + random.below(100),
            _ => needed,
        }
    }
}
