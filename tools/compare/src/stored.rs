//! Writes stored schedules and the output that programs must give for them, a
//! folder for each program.

use std::collections::BTreeMap;
use std::fs;
use std::io;
use std::path::Path;

use crate::bench_cases::{edge_files, second_lock_edges};
use crate::cases::{damage, Damage, Named, Rows};
use crate::coverage::Coverage;
use crate::credit::{self, Till};
use crate::credit_cases::{self, edge_tills, TillEntries};
use crate::differ::Explored;
use crate::dispatch_cases::{self, any_calls};
use crate::dispatcher::{dispatch_sheet, LEAST_SCHEDULE};
use crate::draw_cases::any_turns;
use crate::drawer::draw_sheet;
use crate::known::{self, text_of, Known};
use crate::known_credit::{self, KnownCredit};
use crate::machine::{self, order, refusal, Bench, Sizes, LEAST_SHEET, MOST_ROWS};
use crate::plain;
use crate::plain_cases::{self, drive_calls, tally};
use crate::random::Random;
use crate::record::{self, ROW};
use crate::record_cases::RecordRows;
use crate::schedule::{drive, rows_named, rows_of, Manner, Schedule};
use crate::site::site_sheet;
use crate::site_cases::{self, SiteRows};
use crate::tally::Tally;
use crate::ticket::{self, Head};
use crate::ticket_cases;
use crate::{explore, known_records, known_sites, known_tickets, known_two_locks};

/// Files with their names, in the order of their list.
type Files = Vec<(String, Vec<u8>)>;

/// The byte that fills a journal and a sheet's buffer before a run.
const FILL: u8 = 0xee;

/// The length of a sheet's buffer, which is longer than it need be.
const PAGE: usize = LEAST_SHEET + 8;

/// The bytes behind a sheet that are printed.
const BEHIND: usize = 4;

/// A file of at most so many rows is run with a longer journal too.
const MOST_LONGER: usize = 1024;

/// A long run: its name; N, F and T; S; the percentages of write-locks, of
/// lingering and of waiting; its routes.
type Long = (&'static str, [u8; 3], usize, [usize; 3], &'static [u8]);

/// With the file of S 4,096 among the edges, these reach every step that is of no
/// upgrade or downgrade.
const LONG: [Long; 12] = [
    ("long-mixed-1", [32, 2, 64], 4096, [10, 0, 20], &[31, 15, 0]),
    ("long-mixed-2", [32, 3, 16], 800, [20, 30, 20], &[31, 30]),
    ("long-mixed-3", [16, 2, 8], 800, [15, 60, 30], &[15, 7]),
    ("long-mixed-4", [4, 1, 6], 700, [10, 0, 10], &[3]),
    ("long-mixed-5", [3, 1, 5], 700, [25, 30, 5], &[2, 1]),
    ("long-read-1", [32, 2, 64], 1200, [0, 0, 100], &[31, 30, 15]),
    ("long-read-2", [8, 1, 12], 800, [0, 0, 100], &[7]),
    ("long-read-3", [32, 16, 20], 700, [1, 0, 20], &[31, 0]),
    ("long-write-1", [2, 1, 3], 700, [60, 30, 10], &[1]),
    ("long-write-2", [1, 1, 64], 900, [50, 0, 20], &[0]),
    ("long-wait-1", [6, 5, 32], 900, [30, 0, 100], &[5, 0]),
    ("long-deep-1", [32, 1, 10], 1200, [3, 30, 20], &[31, 20]),
];

/// Long runs with upgrades by so many readers in a hundred, and downgrades by so
/// many writers.
const LONG_LATER: [(Long, [usize; 2]); 6] = [
    (("long-upgrade-1", [2, 1, 3], 400, [10, 30, 20], &[1, 0]), [60, 0]),
    (("long-upgrade-2", [4, 1, 4], 500, [10, 0, 20], &[3]), [60, 0]),
    (("long-upgrade-3", [32, 2, 16], 700, [3, 0, 20], &[31, 15]), [40, 0]),
    (("long-upgrade-4", [1, 1, 6], 400, [20, 0, 20], &[0]), [60, 0]),
    (("long-downgrade-1", [1, 1, 6], 500, [40, 0, 20], &[0]), [10, 60]),
    (("long-downgrade-2", [3, 1, 4], 500, [30, 30, 20], &[2, 0]), [40, 60]),
];

/// Long runs on both locks.
const LONG_TWO: [Long; 2] = [
    ("long-two-1", [4, 1, 5], 400, [20, 30, 20], &[3, 0]),
    ("long-two-2", [7, 2, 8], 600, [10, 0, 20], &[6, 5]),
];

/// The long run with its name; `more` has what the list does not tell.
fn long_run(long: &Long, more: Manner, coverage: &mut Coverage) -> (String, Vec<u8>) {
    let &(name, [nodes, fan_out, threads], rows, [writers, lingering, waiting], routes) = long;
    let manner = Manner { writers, lingering, waiting, routes: routes.to_vec(), ..more };
    let mut random = Random::new(15);
    let sizes = Sizes { nodes, fan_out, threads };
    (name.to_string(), drive(&mut random, sizes, rows, &manner, coverage).0.file())
}

/// Edges as files.
fn edges(edges: Vec<Named>) -> Files {
    edges.into_iter().map(|(name, file)| (name.to_string(), file)).collect()
}

/// Known runs as files.
fn named(runs: Vec<Known>) -> Files {
    runs.into_iter().map(|known| (known.name.to_string(), known.file)).collect()
}

/// Follows the rows of a file that are taken.
fn follow(file: &[u8], coverage: &mut Coverage) {
    let taken = machine::run(file, &mut [0; 2 * MOST_ROWS]).taken;
    let Ok((sizes, threads, orders)) = machine::parse(file) else { return };
    let mut bench = Bench::fresh(sizes);
    let mut trace = coverage.trace(sizes);
    for (&thread, &order) in threads.iter().zip(orders).take(taken) {
        trace.row(&mut bench, thread, order);
    }
}

/// A standing's name, rows that lead to it and orders that do not suit it.
type Unsuited = (&'static str, &'static str, &'static [u8]);

/// Every order of document 01 that does not suit a standing.
const UNSUITED: [Unsuited; 5] = [
    ("idle", "", &[0, 2]),
    ("reading", "0:64,0,0", &[0, 1, 65]),
    ("writing", "0:1,0,0", &[0, 1, 65]),
    ("calling", "0:64,0", &[1, 2, 65]),
    ("asleep", "1:1,0,0 0:64,0,0,0,0,0", &[1, 2, 65]),
];

/// Those of document 02.
const UNSUITED_LATER: [Unsuited; 7] = [
    ("idle", "", &[3, 4]),
    ("reading", "0:64,0,0", &[4]),
    ("writing", "0:1,0,0", &[3]),
    ("calling", "0:64,0", &[3, 4]),
    ("asleep", "1:1,0,0 0:64,0,0,0,0,0", &[3, 4]),
    ("upgrading", "0:64,0,0 0:3", &[1, 2, 3, 4, 65]),
    ("downgrading", "0:1,0,0 0:4", &[1, 2, 3, 4, 65]),
];

/// Orders that do not suit a standing, with rows behind them that are not run.
fn unsuited(standings: &[Unsuited]) -> Files {
    let mut files = Vec::new();
    for &(standing, rows, orders) in standings {
        for order in orders {
            let schedule = Schedule::new(2, 1, 2).rows(&format!("{rows} 0:{order} 1:64,0"));
            files.push((format!("unsuited-{standing}-{order}"), schedule.file()));
        }
    }
    files
}

/// Runs that stop in their middle with this refusal: their names and rows. Rows are
/// taken before it and left behind it, by threads that differ.
const STOPPED: [(&str, u8, &str); 4] = [
    ("stopped-thread", refusal::THREAD, "0:64,0,0 2:1 1:64,0 0:2"),
    ("stopped-order", refusal::ORDER, "1:1,0,0 0:66 1:2 0:64"),
    ("stopped-unsuited", refusal::UNSUITED, "0:64,0,0 1:2 0:2,0 1:1"),
    ("stopped-second-lock", refusal::UNSUITED, "0:129,0,0,1 0:130 1:64 0:0"),
];

/// The same with a till of three entries.
const STOPPED_BOOKINGS: [(&str, u8, &str); 4] = [
    ("stopped-thread-books", refusal::THREAD, "0:1,0,0,96 2:97 1:64 0:97"),
    ("stopped-entry", refusal::ORDER, "0:1,0,0,96 0:99 1:64 0:97"),
    ("stopped-reader-books", refusal::UNSUITED, "1:64,0,0 1:96 0:64 1:2"),
    ("stopped-other-books", refusal::UNSUITED, "0:1,0,0,96 1:97 0:97 1:64"),
];

/// The till of these.
fn stopped_till() -> Vec<u8> {
    TillEntries::new(1, &[(0, 50), (0, -30), (0, -21)]).file()
}

/// Two threads on locks of two nodes.
fn stopped(rows: &str) -> Vec<u8> {
    Schedule::new(2, 1, 2).rows(rows).file()
}

/// A good file, damaged. Damage to the high byte of S, which would print
/// thousands of untouched bytes, is left to the comparison.
fn damaged_files(random: &mut Random, good: Vec<u8>) -> Files {
    damaged_as(random, good, |file| rows_named(file) < 256)
}

/// The same, as far as `keep` says.
fn damaged_as(random: &mut Random, good: Vec<u8>, keep: fn(&[u8]) -> bool) -> Files {
    let mut files = vec![("damaged-not-yet".to_string(), good.clone())];
    let kinds = [
        ("flipped", Damage::Flipped),
        ("truncated", Damage::Truncated),
        ("extended", Damage::Extended),
        ("resized", Damage::Resized),
    ];
    for (name, kind) in kinds {
        for number in 1..=6 {
            let file = loop {
                let mut file = good.clone();
                damage(random, &mut file, kind);
                if keep(&file) {
                    break file;
                }
            };
            files.push((format!("damaged-{name}-{number}"), file));
        }
    }
    for length in 0..=5 {
        files.push((format!("damaged-length-{length}"), good[..length].to_vec()));
    }
    files
}

/// All stored schedules of the bench.
fn schedules(coverage: &mut Coverage) -> Files {
    let mut all = named(known::first());
    all.extend(edges(edge_files(coverage)));
    all.extend(unsuited(&UNSUITED));

    let mut random = Random::new(12);
    let sizes = Sizes { nodes: 7, fan_out: 2, threads: 5 };
    let routes = vec![6, 5];
    let manner = Manner { writers: 15, lingering: 30, waiting: 20, routes, ..Manner::default() };
    let good = drive(&mut random, sizes, 60, &manner, &mut Coverage::new()).0.file();
    all.extend(damaged_files(&mut random, good));
    all.extend(LONG.iter().map(|long| long_run(long, Manner::default(), coverage)));
    // What later requests add stands behind, so that the others keep their places.
    let later = named(known::later());
    later.iter().for_each(|(_, file)| follow(file, coverage));
    all.extend(later);
    all.extend(unsuited(&UNSUITED_LATER));
    for &(ref long, [upgrades, downgrades]) in &LONG_LATER {
        all.push(long_run(long, Manner { upgrades, downgrades, ..Manner::default() }, coverage));
    }
    let two_locks = named(known_two_locks::all());
    two_locks.iter().for_each(|(_, file)| follow(file, coverage));
    all.extend(two_locks);
    all.extend(edges(second_lock_edges()));
    let two = Manner { upgrades: 30, downgrades: 30, second: 50, nesting: 20, ..Manner::default() };
    all.extend(LONG_TWO.iter().map(|long| long_run(long, two.clone(), coverage)));
    all.extend(STOPPED.map(|(name, _, rows)| (name.to_string(), stopped(rows))));
    all
}

/// A long run of calls: its name; N, F and T; S; the percentage of write-locks.
type LongCalls = (&'static str, [u8; 3], usize, usize);

/// These reach every call that is taken.
const LONG_CALLS: [LongCalls; 6] = [
    ("long-mixed-1", [32, 2, 64], 4096, 10),
    ("long-mixed-2", [7, 2, 19], 4096, 10),
    ("long-mixed-3", [1, 1, 8], 1000, 30),
    ("long-mixed-4", [3, 16, 4], 1000, 50),
    ("long-read-1", [32, 1, 64], 1000, 0),
    ("long-write-1", [1, 1, 64], 1000, 100),
];

/// Every order that does not suit a standing, with calls behind it that are not
/// run. The known runs have those to a sleeper.
fn unsuited_calls() -> Files {
    let standings: [(&str, &str, &[u8]); 3] =
        [("idle", "", &[2]), ("reading", "0:64", &[1, 65]), ("writing", "0:1", &[1, 65])];
    let mut files = Vec::new();
    for (standing, rows, orders) in standings {
        for order in orders {
            let schedule = Schedule::new(2, 1, 2).rows(&format!("{rows} 0:{order} 1:64,2"));
            files.push((format!("unsuited-{standing}-{order}"), schedule.file()));
        }
    }
    files
}

/// All stored files of calls, for the plain engine.
fn call_files(reached: &mut Tally) -> Files {
    let mut all = named(known::first_of_plain_engine());
    all.extend(edges(plain_cases::edge_files(reached)));
    all.extend(unsuited_calls());

    let mut random = Random::new(12);
    let sizes = Sizes { nodes: 7, fan_out: 2, threads: 5 };
    let good = drive_calls(&mut random, sizes, 60, 25, reached).0.file();
    all.extend(damaged_files(&mut random, good));
    for (name, [nodes, fan_out, threads], calls, writers) in LONG_CALLS {
        let sizes = Sizes { nodes, fan_out, threads };
        let file = drive_calls(&mut random, sizes, calls, writers, reached).0.file();
        all.push((name.to_string(), file));
    }
    all.extend(named(known::later_of_plain_engine()));
    all
}

/// Runs of the dispatcher: their names; N, F and T; calls; the percentage of
/// write-locks.
const DISPATCHED: [LongCalls; 5] = [
    ("mixed-1", [4, 1, 5], 60, 20),
    ("mixed-2", [32, 2, 64], 200, 10),
    ("mixed-3", [1, 1, 3], 60, 50),
    ("mixed-4", [7, 2, 19], 100, 5),
    ("mixed-5", [3, 1, 8], 1000, 30),
];

/// All stored files of calls for the dispatcher.
fn dispatch_files() -> Files {
    let mut all = named(known::of_dispatcher());
    all.extend(edges(dispatch_cases::edge_files()));
    let mut random = Random::new(12);
    let sizes = Sizes { nodes: 7, fan_out: 2, threads: 5 };
    let good = any_calls(&mut random, sizes, 20, 25).file();
    all.extend(damaged_files(&mut random, good));
    for (name, [nodes, fan_out, threads], calls, writers) in DISPATCHED {
        let sizes = Sizes { nodes, fan_out, threads };
        all.push((name.to_string(), any_calls(&mut random, sizes, calls, writers).file()));
    }
    all
}

/// A file of wanted calls, or a site file, and one of turns for it, with their names.
struct Drawn {
    wants: (String, Vec<u8>),
    turns: (String, Vec<u8>),
}

/// Runs of the dispatcher that are drawn at turns too, and some that it refuses.
const DRAWN: [&str; 17] = [
    "fresh",
    "alone",
    "two-readers",
    "sleeper-left",
    "woken-in-the-round",
    "upgrade-and-downgrade",
    "unsuited",
    "refusal-7",
    "refusal-5",
    "refusal-6",
    "damaged-length-3",
    "damaged-extended-1",
    "edge-n-33",
    "mixed-1",
    "mixed-3",
    "mixed-4",
    "mixed-5",
];

/// All stored draws: each run at turns of its own, the last at none, at such as name no
/// thread, and at more than 4,096 steps need.
fn drawn_runs() -> Vec<Drawn> {
    let files = dispatch_files();
    let wants = |name: &str| files.iter().find(|file| file.0 == name).expect(name).clone();
    let mut random = Random::new(14);
    let mut all: Vec<_> = DRAWN
        .iter()
        .map(|name| {
            let file = wants(name);
            let threads = file.1.get(2).copied().unwrap_or(1);
            let turns = any_turns(&mut random, threads, 300);
            Drawn { wants: file, turns: (format!("turns-of-{name}"), turns) }
        })
        .collect();
    let last = || wants("mixed-5");
    let strangers = (0..100).map(|turn| 8 + turn).collect();
    let many = (0..12_000).map(|_| random.below(8) as u8).collect();
    for (name, turns) in [("no-turns", Vec::new()), ("turns-of-nobody", strangers), ("many-turns", many)] {
        all.push(Drawn { wants: last(), turns: (name.to_string(), turns) });
    }
    all
}

/// Stored sites: their names; N, F and T; calls; the percentage of write-locks; hold, think
/// and the warm-up; the turns.
type StoredSite = (&'static str, [u8; 3], [usize; 2], ([u8; 2], u32), usize);

const SITES: [StoredSite; 9] = [
    ("mixed-1", [4, 1, 5], [20, 20], ([0, 0], 0), 300),
    ("mixed-2", [7, 2, 19], [80, 10], ([2, 5], 50), 300),
    ("mixed-3", [1, 1, 3], [30, 50], ([1, 0], 0), 300),
    ("mixed-4", [2, 1, 2], [12, 30], ([0, 3], 100), 300),
    ("mixed-5", [13, 3, 8], [60, 5], ([255, 0], 0), 300),
    ("mixed-6", [3, 1, 4], [40, 40], ([0, 255], 256), 300),
    ("readers", [32, 4, 16], [60, 0], ([0, 0], 20), 300),
    ("writers", [1, 1, 6], [20, 100], ([1, 1], 0), 300),
    ("long", [32, 2, 64], [MOST_ROWS, 10], ([1, 2], 1_000), 5_000),
];

/// All stored sites: those whose sheets are known, such as lie on both sides of a limit, and
/// random ones, each at turns of its own; the last also at none and at such as name no thread.
fn site_runs() -> Vec<Drawn> {
    let run = |name: &str, site: Vec<u8>, turns: Vec<u8>| Drawn {
        wants: (name.to_string(), site),
        turns: (format!("turns-of-{name}"), turns),
    };
    let known = known_sites::all().into_iter();
    let mut all: Vec<_> = known.map(|known| run(known.name, known.site, known.turns)).collect();
    for (name, file) in site_cases::edge_files() {
        let last = file[2].saturating_sub(1);
        all.push(run(name, file, [0, last].repeat(20)));
    }
    let mut random = Random::new(14);
    for (name, [nodes, fan_out, threads], [rows, writers], ([hold, think], warm), count) in SITES {
        let sizes = Sizes { nodes, fan_out, threads };
        let calls = any_calls(&mut random, sizes, rows.min(MOST_ROWS - usize::from(threads)), writers);
        let site = SiteRows { hold, think, warm, ..SiteRows::of(calls) }.file();
        let turns = (0..count).map(|_| random.below(usize::from(threads)) as u8).collect();
        all.push(run(name, site, turns));
    }
    let wants = all[all.len() - 2].wants.clone();
    for (name, turns) in [("no-turns-at-all", Vec::new()), ("turns-of-nobody", (6..106).collect())] {
        all.push(Drawn { wants: wants.clone(), turns: (name.to_string(), turns) });
    }
    all
}

/// N, F and T of the locks that are explored for the gate, in room for 8,192 states.
const EXPLORED: [[u8; 3]; 15] = [
    [1, 1, 1],
    [1, 1, 2],
    [2, 1, 2],
    [3, 1, 2],
    [3, 2, 2],
    [8, 2, 1],
    [8, 1, 1],
    [1, 16, 2],
    [1, 1, 3],
    [0, 1, 1],
    [9, 1, 1],
    [1, 0, 1],
    [1, 17, 1],
    [1, 1, 0],
    [1, 1, 9],
];
const EXPLORED_STATES: usize = 8_192;

/// A file of these sizes for each, and one without.
fn explore_files() -> Files {
    let named = |sizes: [u8; 3]| {
        let [nodes, fan_out, threads] = sizes;
        (format!("n{nodes}-f{fan_out}-t{threads}"), sizes.to_vec())
    };
    EXPLORED.map(named).into_iter().chain([("empty".to_string(), Vec::new())]).collect()
}

/// A long run of the ticket lock: its name; T; the start number; S; the rows in a
/// hundred that go to the thread whose turn it is, and those of a holder that release.
type LongTickets = (&'static str, u8, u16, usize, [usize; 2]);

/// These reach every row that is taken.
const LONG_TICKETS: [LongTickets; 4] = [
    ("long-1", 64, 65_000, 4096, [40, 30]),
    ("long-2", 64, 65_500, 1000, [0, 100]),
    ("long-3", 3, 65_530, 300, [0, 100]),
    ("long-4", 17, 0, 1000, [80, 5]),
];

/// All stored files of the ticket lock.
fn ticket_files(reached: &mut Tally) -> Files {
    let mut all = named(known_tickets::all());
    all.extend(edges(ticket_cases::edge_files(reached)));
    let mut random = Random::new(12);
    let mut run = |random: &mut Random, threads, start, rows, [granted, releasing]: [usize; 2]| {
        let (head, manner) = (Head { threads, start }, ticket_cases::Manner { granted, releasing });
        ticket_cases::drive(random, head, rows, &manner, reached).expect("the claims hold").0.file()
    };
    let good = run(&mut random, 5, 65_530, 40, [30, 50]);
    all.extend(damaged_as(&mut random, good, |_| true));
    for (name, threads, start, rows, manner) in LONG_TICKETS {
        all.push((name.to_string(), run(&mut random, threads, start, rows, manner)));
    }
    all
}

/// Runs whose records are stored: their names; N, F and T; their rows. Each is stored at
/// either lock; together they have every kind and every call.
const RECORDED: [(&str, [u8; 3], &str); 6] = [
    ("tree", [2, 1, 2], "0:65,0,0,0,0,0 1:65,0,0,0 0:2,0,0 1:2,0,0,0,0"),
    ("hand-over", [1, 1, 2], "0:1,0,0 1:64,0,0,0,0,0,0 0:2,0,0,0,0,0 1:2,0,0"),
    ("writers", [1, 1, 3], "0:1,0,0 1:1,0,0 2:1,0,0 1:0,0,0 2:0,0,0,0 0:2,0,0,0,0 1:2,0,0,0,0 2:2,0,0,0,0"),
    ("failed", [2, 1, 2], "0:65,0,0,0,0,0 1:65,0,0 0:2,0,0 1:0 0:0,0 1:0 0:64,0,0 1:0,0,0"),
    ("late", [2, 1, 3], "0:64,0,0 1:65,0 2:1,0,0,0,0,0,0 1:0,0,0,0 0:2,0,0 1:2,0,0,0,0,0,0,0,0"),
    (
        "upgrade",
        [2, 1, 2],
        "0:65,0,0,0,0,0 1:64,0,0 0:3,0,0,0,0,0,0,0 1:2,0,0 0:3,0,0 1:64,0,0,0,0,0 0:4,0,0,0,0,0",
    ),
];

/// The same rows at the second lock.
fn at_the_second(rows: &str) -> String {
    let row = |(thread, order): (u8, u8)| match order {
        order::GO_ON => format!("{thread}:0 "),
        _ => format!("{thread}:{} ", order + order::SECOND_LOCK),
    };
    rows_of(rows).map(row).collect()
}

/// Rows in which each lock is held while the other is locked and unlocked.
const RECORDED_NESTED: &str =
    "0:1,0,0 0:193,0,0,0,0,0 1:129,0,0,0,0,0,0 0:130,0,0,0,0,0,0,0,0 1:65,0,0,0,0,0 0:2,0,0,0,0,0 1:2,0,0";

/// A change of a row's bytes, with its name.
type RecordChange = (&'static str, fn(&mut [u8; ROW]));

/// What a record is changed in, at its first row, in its middle and at its last.
const RECORD_CHANGES: [RecordChange; 5] = [
    ("kind", |row| row[2] = (row[2] + 1) % 11),
    ("word", |row| row[3] ^= 1),
    ("lock", |row| row[3] ^= 64),
    ("entry", |row| (row[2], row[3]) = ((row[2] + 1) % 11, row[3] ^ 1)),
    // One more; where none is recorded, 0.
    ("value", |row| {
        let value = u32::from_le_bytes([row[4], row[5], row[6], row[7]]);
        row[4..].copy_from_slice(&value.wrapping_add(1).to_le_bytes());
    }),
];

/// Rows that are refused wherever they stand in the record of a hand-over, with their
/// names and answers.
const RECORD_REFUSED: [(&str, u8, (u8, u8)); 3] = [
    ("thread", refusal::THREAD, (2, 0)),
    ("order", refusal::ORDER, (0, 5)),
    ("unsuited", refusal::UNSUITED, (1, 3)),
];

/// Others, which stand where thread 0 writes.
const RECORD_REFUSED_WRITING: [(&str, u8, (u8, u8)); 4] = [
    ("booking-0", refusal::ORDER, (0, 96)),
    ("booking-31", refusal::ORDER, (0, 127)),
    ("second-lock-no-order", refusal::ORDER, (0, 128)),
    ("second-lock-unsuited", refusal::UNSUITED, (0, 130)),
];

/// The first place of so many, the middle one and the last.
fn places(count: usize) -> [(&'static str, usize); 3] {
    [("first", 0), ("middle", count / 2), ("last", count - 1)]
}

/// All stored records.
fn record_files() -> Files {
    let mut all = named(known_records::all());
    let mut add = |name: String, record: &RecordRows| all.push((name, record.file()));
    let schedule =
        |[nodes, fan_out, threads]: [u8; 3], rows: &str| Schedule::new(nodes, fan_out, threads).rows(rows);
    for (name, sizes, rows) in RECORDED {
        for (name, rows) in
            [(name.to_string(), rows.to_string()), (format!("{name}-second"), at_the_second(rows))]
        {
            add(format!("held-{name}"), &RecordRows::of(&schedule(sizes, &rows), || true));
        }
    }
    let nested = schedule([2, 1, 2], RECORDED_NESTED);
    add("held-nested".to_string(), &RecordRows::of(&nested, || true));
    add("held-nested-no-values".to_string(), &RecordRows::of(&nested, || false));
    let mut recorded = [true, true, false].into_iter().cycle();
    add("held-nested-some-values".to_string(), &RecordRows::of(&nested, || recorded.next() == Some(true)));

    let (tree, hand_over) = (RECORDED[0], RECORDED[1]);
    let changed = [
        ("hand-over", schedule(hand_over.1, hand_over.2)),
        ("tree-second", schedule(tree.1, &at_the_second(tree.2))),
    ];
    for (name, rows) in changed {
        let good = RecordRows::of(&rows, || true);
        for (place_name, place) in places(good.len()) {
            for (change_name, change) in RECORD_CHANGES {
                let mut record = good.clone();
                change(record.row(place));
                add(format!("other-{change_name}-{place_name}-{name}"), &record);
            }
        }
    }
    let hand_over = schedule(hand_over.1, hand_over.2);
    let refused = |place: usize, (thread, order): (u8, u8)| {
        let mut rows = hand_over.clone();
        rows.threads.insert(place, thread);
        rows.orders.insert(place, order);
        RecordRows::of(&rows, || true)
    };
    for (name, _, row) in RECORD_REFUSED {
        for (place_name, place) in places(hand_over.threads.len() + 1) {
            add(format!("refused-{name}-{place_name}"), &refused(place, row));
        }
    }
    for (name, _, row) in RECORD_REFUSED_WRITING {
        add(format!("refused-{name}"), &refused(3, row));
    }
    all
}

/// A schedule of the bench's program, with its till if it has one, and their names.
struct Pair {
    schedule: String,
    file: Vec<u8>,
    till: Option<(String, Vec<u8>)>,
}

impl Pair {
    /// `-` where there is no till.
    fn till_name(&self) -> &str {
        self.till.as_ref().map_or("-", |(name, _)| name)
    }
}

/// The files that the pairs name, each once.
fn files_of(pairs: &[Pair]) -> Files {
    let mut files = BTreeMap::new();
    for Pair { schedule, file, till } in pairs {
        files.insert(schedule.clone(), file.clone());
        files.extend(till.clone());
    }
    files.into_iter().collect()
}

/// A long run with a till: its name; N, F and T; S; the percentages of write-locks, of
/// lingering and of waiting, and of bookings.
type LongCredit = (&'static str, [u8; 3], usize, [usize; 4]);

/// With the known runs these reach every booking that is taken.
const LONG_CREDIT: [LongCredit; 4] = [
    ("long-1", [1, 1, 3], 300, [80, 60, 10, 60]),
    ("long-2", [3, 1, 4], 300, [60, 30, 20, 80]),
    ("long-3", [7, 2, 8], 400, [50, 60, 10, 80]),
    ("long-4", [2, 1, 2], 200, [100, 90, 20, 90]),
];

/// All stored pairs of the credit table.
fn credit_pairs(reached: &mut Tally) -> Vec<Pair> {
    let mut pairs: Vec<Pair> = Vec::new();
    // A till that stands there already keeps its name, and a pair that differs from
    // another in the journal alone is left out.
    let mut add = |schedule: &str, file: Vec<u8>, till: Option<(String, Vec<u8>)>| {
        let known = pairs.iter().filter_map(|pair| pair.till.clone());
        let known = till.as_ref().and_then(|(_, bytes)| known.into_iter().find(|known| known.1 == *bytes));
        let till = known.or(till);
        if !pairs.iter().any(|pair| pair.file == file && pair.till == till) {
            pairs.push(Pair { schedule: schedule.to_string(), file, till });
        }
    };
    for KnownCredit { name, file, till, .. } in known_credit::all() {
        credit_cases::follow(&file, &till, reached).expect("the claims hold");
        add(name, file, Some((format!("till-of-{name}"), till)));
    }
    for (name, file, till) in edge_tills() {
        add("books-0-and-31", file, Some((name.to_string(), till)));
    }
    let rows = |text: &str| Schedule::new(1, 1, 1).rows(text).file();
    add("no-till", rows(""), None);
    add("no-till-booking", rows("0:1,0,0,96"), None);
    add("no-till-booking-idle", rows("0:96"), None);
    add("no-till-both-locks", rows("0:1,0,0,129,0,0"), None);

    let mut random = Random::new(12);
    for (name, [nodes, fan_out, threads], rows, [writers, lingering, waiting, bookings]) in LONG_CREDIT {
        let sizes = Sizes { nodes, fan_out, threads };
        let routes = (0..nodes).collect();
        let manner =
            Manner { writers, lingering, waiting, second: 20, nesting: 20, routes, ..Manner::default() };
        let entries = TillEntries::any(&mut random);
        let bytes = entries.file();
        let till = (Till::new(&bytes).expect("the till is good"), &entries);
        let driven = credit_cases::drive(&mut random, sizes, till, rows, (&manner, bookings), reached);
        let file = driven.expect("the claims hold").0.file();
        add(name, file, Some((format!("till-of-{name}"), bytes.clone())));
    }
    for (name, _, rows) in STOPPED_BOOKINGS {
        add(name, stopped(rows), Some((format!("till-of-{name}"), stopped_till())));
    }
    // No row is taken, and none is left.
    add("stopped-other-books", stopped(STOPPED_BOOKINGS[3].2), Some(("till-of-no-byte".to_string(), vec![])));
    pairs
}

/// All stored schedules of the bench, without a till and then with one.
fn bench_pairs() -> Vec<Pair> {
    let alone = schedules(&mut Coverage::new()).into_iter();
    let alone = alone.map(|(schedule, file)| Pair { schedule, file, till: None });
    alone.chain(credit_pairs(&mut credit_cases::tally())).collect()
}

/// A title and bytes in hexadecimal, on one line.
fn hex_line(title: &str, bytes: &[u8]) -> String {
    let digits: String = bytes.iter().map(|byte| format!(" {byte:02x}")).collect();
    format!("{title}{digits}\n")
}

/// The journals' lengths with which a file of S rows is run: as long as needed, for S
/// above 0 a byte less, and for S up to 1,024 two bytes more.
fn journals(rows: usize) -> impl Iterator<Item = usize> {
    let needed = 2 * rows;
    let longer = (rows <= MOST_LONGER).then_some(needed + 2);
    [Some(needed), needed.checked_sub(1), longer].into_iter().flatten()
}

/// The sheet and the bytes behind it.
fn printed_sheet(file: &[u8], till: Option<&[u8]>, journal: &mut [u8]) -> String {
    let mut page = [FILL; PAGE];
    let length = match till {
        Some(till) => credit::credit_sheet(file, till, journal, &mut page),
        None => machine::bench_sheet(file, journal, &mut page),
    };
    let (sheet, behind) = page.split_at(length);
    let sheet = std::str::from_utf8(sheet).expect("a sheet is text");
    sheet.to_string() + &hex_line("behind", &behind[..BEHIND])
}

/// The rows not run: "the tail of the caller's own array of thread numbers, empty when
/// all were taken and after refusals 1 to 4", and after 10.
fn not_run<'a>(file: &'a [u8], till: Option<&[u8]>, journal: &mut [u8]) -> &'a [u8] {
    let taken = match till {
        Some(till) => {
            let outcome = credit::run(file, till, journal);
            outcome.state.map(|_| outcome.taken)
        }
        None => {
            let outcome = machine::run(file, journal);
            outcome.state.map(|_| outcome.taken)
        }
    };
    match (taken, machine::parse(file)) {
        (Some(taken), Ok((_, numbers, _))) => &numbers[taken..],
        _ => &[],
    }
}

/// What the bench's program prints for one schedule, with a till or without one.
fn printed_pair(pair: &Pair) -> String {
    let (file, till) = (&pair.file, pair.till.as_ref().map(|(_, till)| till.as_slice()));
    let rows = rows_named(file).min(MOST_ROWS);
    let mut text = String::new();
    for length in journals(rows) {
        let mut journal = vec![FILL; length];
        text += &format!("run {} {} journal {length}\n", pair.schedule, pair.till_name());
        text += &printed_sheet(file, till, &mut journal);
        let (kinds, words) = journal.split_at(rows);
        text += &hex_line("kinds", kinds);
        text += &hex_line("words", words);
        text += &hex_line("left", not_run(file, till, &mut vec![FILL; length]));
    }
    text
}

/// What the plain engine's program prints for one file of calls.
fn printed_calls(name: &str, file: &[u8]) -> String {
    format!("run {name}\n{}", text_of(|page| plain::plain_sheet(file, page)))
}

/// What the ticket lock's program prints for one of its files.
fn printed_tickets(name: &str, file: &[u8]) -> String {
    format!("run {name}\n{}", text_of(|page| ticket::ticket_sheet(file, page)))
}

/// What the records' program prints for one record, which it holds whole and then in two
/// pieces: the outcome is the same.
fn printed_record(name: &str, file: &[u8]) -> String {
    let sheet = text_of(|page| record::record_sheet(file, page));
    format!("run {name}\n{sheet}in two pieces\n{sheet}")
}

/// What the dispatcher's program prints for one file of calls: a run with a
/// schedule's buffer of 8,197 bytes.
fn printed_steps(name: &str, file: &[u8]) -> String {
    let mut schedule = vec![FILL; LEAST_SCHEDULE];
    let sheet = text_of(|page| dispatch_sheet(file, &mut schedule, page));
    let steps: usize = sheet.split([' ', '\n']).nth(3).and_then(|at| at.parse().ok()).expect("`at K`");
    format!("run {name}\n{sheet}{}", hex_line("bytes", &schedule[..5 + 2 * steps]))
}

/// What the drawer's program prints for wanted calls and turns: a run with a schedule's
/// buffer of 8,197 bytes.
fn printed_drawn(Drawn { wants, turns }: &Drawn) -> String {
    let mut schedule = vec![FILL; LEAST_SCHEDULE];
    let sheet = text_of(|page| draw_sheet(&wants.1, &turns.1, &mut schedule, page));
    let steps: usize = sheet.split([' ', '\n']).nth(3).and_then(|at| at.parse().ok()).expect("`at K`");
    format!("run {} {}\n{sheet}{}", wants.0, turns.0, hex_line("bytes", &schedule[..5 + 2 * steps]))
}

/// What the sites' program prints for a site and turns.
fn printed_site(Drawn { wants, turns }: &Drawn) -> String {
    let sheet = text_of(|page| site_sheet(&wants.1, &turns.1, page));
    format!("run {} {}\n{sheet}length {}\n", wants.0, turns.0, sheet.len())
}

/// What the program that explores prints for a file of sizes. The states stand in the order
/// of their rows, so that how long the schedule of the state in the middle is goes by no
/// other order.
fn printed_explored(name: &str, file: &[u8]) -> String {
    let size = |place| file.get(place).map_or(0, |size| usize::from(*size));
    let mut lengths = Vec::new();
    let mut tell = |_, schedule: &[u8]| lengths.push(schedule.len());
    let found = explore::explore_lock([size(0), size(1), size(2)], EXPLORED_STATES, &mut tell);
    let middle = lengths.get(found.states / 2).unwrap_or(&0);
    let Explored { answer, states, depth } = found;
    format!("run {name}\nanswer {answer} states {states} depth {depth} schedule {middle}\n")
}

/// Writes the files, the program's arguments and its expected output.
fn write_folder(folder: &Path, files: &Files, args: &[&str], stdout: &str) -> io::Result<()> {
    let data = folder.join("data");
    fs::create_dir_all(&data)?;
    for (name, file) in files {
        fs::write(data.join(name), file)?;
    }
    let args: String = args.iter().map(|word| format!("{word}\n")).collect();
    fs::write(folder.join("args"), args)?;
    fs::write(folder.join("stdout"), stdout)?;
    println!("{}: {} files, {} bytes of expected output", folder.display(), files.len(), stdout.len());
    Ok(())
}

/// Writes the folder of a program whose arguments are the files' names.
fn write_program(folder: &Path, files: &Files, printed: fn(&str, &[u8]) -> String) -> io::Result<()> {
    let args: Vec<_> = files.iter().map(|(name, _)| name.as_str()).collect();
    let stdout: String = files.iter().map(|(name, file)| printed(name, file)).collect();
    write_folder(folder, files, &args, &stdout)
}

/// Writes the folder of the bench's program, whose arguments are pairs of names.
fn write_pairs(folder: &Path, pairs: &[Pair]) -> io::Result<()> {
    let args: Vec<_> = pairs.iter().flat_map(|pair| [pair.schedule.as_str(), pair.till_name()]).collect();
    let stdout: String = pairs.iter().map(printed_pair).collect();
    write_folder(folder, &files_of(pairs), &args, &stdout)
}

/// Writes the folder of a program whose arguments are pairs of names, of turns the second.
fn write_drawn(folder: &Path, runs: &[Drawn], printed: fn(&Drawn) -> String) -> io::Result<()> {
    let mut files: Files = runs.iter().flat_map(|run| [run.wants.clone(), run.turns.clone()]).collect();
    files.sort();
    files.dedup();
    let args: Vec<_> = runs.iter().flat_map(|run| [run.wants.0.as_str(), run.turns.0.as_str()]).collect();
    let stdout: String = runs.iter().map(printed).collect();
    write_folder(folder, &files, &args, &stdout)
}

/// Writes a folder for each program into `folder`.
pub fn write(folder: &Path) -> io::Result<()> {
    write_pairs(&folder.join("runs"), &bench_pairs())?;
    write_program(&folder.join("plain_runs"), &call_files(&mut tally()), printed_calls)?;
    write_program(&folder.join("dispatch_runs"), &dispatch_files(), printed_steps)?;
    write_drawn(&folder.join("draw_runs"), &drawn_runs(), printed_drawn)?;
    write_drawn(&folder.join("site_runs"), &site_runs(), printed_site)?;
    write_program(&folder.join("explore_runs"), &explore_files(), printed_explored)?;
    write_program(&folder.join("ticket_runs"), &ticket_files(&mut ticket_cases::tally()), printed_tickets)?;
    write_program(&folder.join("record_runs"), &record_files(), printed_record)
}

#[cfg(test)]
mod tests {
    use super::*;
    use crate::machine::Which;
    use crate::{draw_cases, record_cases};
    use std::collections::BTreeSet;

    /// What the bench's program prints for one schedule without a till.
    fn printed(name: &str, file: &[u8]) -> String {
        printed_pair(&Pair { schedule: name.to_string(), file: file.to_vec(), till: None })
    }

    #[test]
    fn small_input_4_is_printed_with_every_journal() {
        let sheet = "answer 0 at 1\nroot 0 0 open\nqueue free 0 0\nthread 0 calling - 0\n\
                     root 0 0 open\nqueue free 0 0\nthread 0 idle - 0\nbehind ee ee ee ee\n";
        assert_eq!(
            printed("refusal-4", &[1, 1, 1, 1, 0, 0, 0x40]),
            format!(
                "run refusal-4 - journal 2\n{sheet}kinds 00\nwords 21\nleft\n\
                 run refusal-4 - journal 1\nanswer 4 at 0\nbehind ee ee ee ee\nkinds ee\nwords\nleft\n\
                 run refusal-4 - journal 4\n{sheet}kinds 00\nwords 21 ee ee\nleft\n"
            )
        );
        let empty = "answer 1 at 0\nbehind ee ee ee ee\nkinds\n";
        assert_eq!(
            printed("empty", &[]),
            format!(
                "run empty - journal 0\n{empty}words\nleft\nrun empty - journal 2\n{empty}words ee ee\nleft\n"
            )
        );
    }

    #[test]
    fn a_long_file_is_run_with_no_longer_journal() {
        assert_eq!(journals(0).collect::<Vec<_>>(), [0, 2]);
        assert_eq!(journals(1024).collect::<Vec<_>>(), [2048, 2047, 2050]);
        assert_eq!(journals(1025).collect::<Vec<_>>(), [2050, 2049]);
    }

    /// Rows are taken, and behind the one that is refused others are left.
    #[test]
    fn stopped_runs_leave_rows() {
        let stops = |name, file: &[u8], till: Option<&[u8]>, answered: (u8, usize), answer: u8| {
            let (numbers, taken) = (machine::parse(file).unwrap().1, answered.1);
            assert_eq!(answered.0, answer, "{name}");
            assert!(0 < taken && taken + 1 < numbers.len(), "{name}");
            assert_eq!(not_run(file, till, &mut vec![FILL; 2 * numbers.len()]), &numbers[taken..], "{name}");
        };
        for (name, answer, rows) in STOPPED {
            let file = stopped(rows);
            let outcome = machine::run(&file, &mut [0; 64]);
            stops(name, &file, None, (outcome.answer, outcome.taken), answer);
        }
        let till = stopped_till();
        for (name, answer, rows) in STOPPED_BOOKINGS {
            let file = stopped(rows);
            let outcome = credit::run(&file, &till, &mut [0; 64]);
            stops(name, &file, Some(&till), (outcome.answer, outcome.taken), answer);
            // After 10 and 4 none are left.
            assert!(not_run(&file, Some(&[]), &mut [0; 64]).is_empty(), "{name}");
            assert!(not_run(&file, Some(&till), &mut []).is_empty(), "{name}");
        }
    }

    #[test]
    fn unsuited_orders_are_refused() {
        for (name, file) in unsuited(&UNSUITED).into_iter().chain(unsuited(&UNSUITED_LATER)) {
            assert_eq!(machine::run(&file, &mut [0; 64]).answer, refusal::UNSUITED, "{name}");
        }
    }

    #[test]
    fn a_run_of_calls_is_printed() {
        let sheet = "answer 0 at 1\nroot 1 open\nqueue free 0 0\nthread 0 reading - 0\n";
        assert_eq!(
            printed_calls("reader-enters", &[1, 1, 1, 1, 0, 0, 0x40]),
            format!("run reader-enters\n{sheet}")
        );
        assert_eq!(printed_calls("empty", &[]), "run empty\nanswer 1 at 0\n");
    }

    #[test]
    fn steps_are_printed() {
        assert_eq!(
            printed_steps("one-call", &[1, 1, 1, 1, 0, 0, 0x40]),
            "run one-call\nanswer 0 at 3\nroot 1 0 open\nqueue free 0 0\nthread 0 reading 0 0\n\
             root 0 0 open\nqueue free 0 0\nthread 0 idle - 0\n\
             bytes 01 01 01 03 00 00 00 00 40 00 00\n"
        );
    }

    #[test]
    fn a_run_of_the_ticket_lock_is_printed() {
        assert_eq!(
            printed_tickets("takes", &[1, 1, 0, 0, 1, 0, 1]),
            "run takes\nanswer 0 at 1\nticket 257\ngrant 256\nthread 0 near\n"
        );
        assert_eq!(printed_tickets("empty", &[]), "run empty\nanswer 1 at 0\n");
    }

    /// The ticket lock's refusals and rows.
    #[test]
    fn stored_tickets_reach_every_row() {
        let mut reached = ticket_cases::tally();
        let files = ticket_files(&mut reached);
        assert_reached(vec![("Row", &reached)]);
        let answers: BTreeSet<_> = files.iter().map(|(_, file)| ticket::run(file).answer).collect();
        assert_eq!(answers.into_iter().collect::<Vec<_>>(), [0, 1, 2, 3, 5, 6, 7]);
    }

    #[test]
    fn a_record_is_printed_twice() {
        let sheet = "answer 11 at 0\nentry 0 33 -\nroot 0 0 open\nqueue free 0 0\nthread 0 idle - 0\n\
                     root 0 0 open\nqueue free 0 0\nthread 0 idle - 0\n";
        assert_eq!(
            printed_record("reads", &[1, 1, 1, 0, 64, 1, 33, 255, 255, 255, 255]),
            format!("run reads\n{sheet}in two pieces\n{sheet}")
        );
    }

    /// Every outcome but of long records, and in those that are held every kind and
    /// order at either lock.
    #[test]
    fn stored_records_reach_every_outcome() {
        let mut reached = record_cases::tally();
        let (mut answers, mut kinds, mut orders) = (BTreeSet::new(), BTreeSet::new(), BTreeSet::new());
        let files = record_files();
        for (_, file) in &files {
            record_cases::follow(file, &mut reached);
            let answer = record::run(file).answer;
            answers.insert(answer);
            if answer == refusal::NONE {
                for [_, order, kind, word, ..] in record::parse(file).unwrap().1 {
                    kinds.insert((word / 64, *kind));
                    orders.insert(*order);
                }
            }
        }
        assert_eq!(
            reached.missing(),
            ["held: more than 4,096 rows", "held: a thread with more than 65,535 failures"]
        );
        assert_eq!(answers.into_iter().collect::<Vec<_>>(), [0, 1, 2, 3, 5, 6, 7, 11, 12]);
        let both = |kind| [(0, kind), (1, kind)];
        assert_eq!(kinds, (0..=10).flat_map(both).collect());
        assert_eq!(orders, BTreeSet::from([0, 1, 2, 3, 4, 64, 65, 129, 130, 131, 132, 192, 193]));
        assert!((60..=90).contains(&files.len()), "{}", files.len());
    }

    /// A record is stopped where it was changed, by the number that its name says.
    #[test]
    fn stored_records_stop_where_they_were_changed() {
        let outcomes: BTreeMap<_, _> = record_files()
            .into_iter()
            .map(|(name, file)| {
                let outcome = record::run(&file);
                (name, (outcome.answer, outcome.held, record::parse(&file).map_or(0, |(_, rows)| rows.len())))
            })
            .collect();
        for (name, &(answer, held, rows)) in &outcomes {
            if name.starts_with("held-") {
                assert_eq!((answer, held), (0, rows), "{name}");
            }
            let place =
                places(rows.max(1)).into_iter().find(|(place, _)| name.contains(&format!("-{place}")));
            if let (Some((_, place)), true) =
                (place, name.starts_with("other-") || name.starts_with("refused-"))
            {
                assert_eq!(held, place, "{name}");
            }
            if let Some(changed) = name.strip_prefix("other-") {
                assert_eq!(answer, if changed.starts_with("value-") { 12 } else { 11 }, "{name}");
            }
        }
        for (name, answer, _) in RECORD_REFUSED {
            for place in ["first", "middle", "last"] {
                assert_eq!(outcomes[&format!("refused-{name}-{place}")].0, answer, "{name}");
            }
        }
        for (name, answer, _) in RECORD_REFUSED_WRITING {
            assert_eq!(outcomes[&format!("refused-{name}")].0, answer, "{name}");
        }
    }

    #[test]
    fn pairs_are_printed_with_every_journal() {
        let pair = |till: Option<&[u8]>| {
            let till = till.map(|till| ("t".to_string(), till.to_vec()));
            printed_pair(&Pair { schedule: "s".to_string(), file: vec![1, 1, 1, 1, 0, 0, 1], till })
        };
        // The till's name, the sheet's end, and the sheet with the shorter journal.
        let runs = |till: &str, sheet: &str, shorter: &str| {
            let behind = "behind ee ee ee ee";
            format!(
                "run s {till} journal 2\n{sheet}{behind}\nkinds 00\nwords 21\nleft\n\
                 run s {till} journal 1\n{shorter}{behind}\nkinds ee\nwords\nleft\n\
                 run s {till} journal 4\n{sheet}{behind}\nkinds 00\nwords 21 ee ee\nleft\n"
            )
        };
        let sheet = "answer 0 at 1\nroot 0 0 open\nqueue free 0 0\nthread 0 calling - 0\n\
                     root 0 0 open\nqueue free 0 0\nthread 0 idle - 0\n";
        assert_eq!(pair(None), runs("-", sheet, "answer 4 at 0\n"));
        assert_eq!(pair(Some(&[1, 0])), runs("t", &format!("{sheet}room 0 0\n"), "answer 4 at 0\n"));
        let refused = runs("t", "answer 10 at 0\n", "answer 10 at 0\n");
        assert_eq!(pair(Some(&[])), refused.replace("kinds 00\nwords 21", "kinds ee\nwords ee"));
    }

    /// The credit table's refusals and bookings.
    #[test]
    fn stored_pairs_reach_every_booking() {
        let mut reached = credit_cases::tally();
        let pairs = credit_pairs(&mut reached);
        assert_reached(vec![("Booking", &reached)]);
        assert!((60..=90).contains(&pairs.len()), "{}", pairs.len());
        let mut answers = BTreeSet::new();
        for Pair { file, till, .. } in &pairs {
            if let Some((_, till)) = till {
                answers.insert(credit::run(file, till, &mut vec![0; 2 * rows_named(file)]).answer);
            }
        }
        assert_eq!(answers.into_iter().collect::<Vec<_>>(), [0, 1, 2, 3, 5, 6, 7, 10]);
        let bytes: usize = pairs.iter().map(|pair| printed_pair(pair).len()).sum();
        assert!(bytes < 100_000, "{bytes}");
    }

    #[test]
    fn each_name_of_a_pair_stands_for_one_content() {
        let pairs = bench_pairs();
        let files = files_of(&pairs);
        for Pair { schedule, file, till } in &pairs {
            assert!(files.contains(&(schedule.clone(), file.clone())), "{schedule}");
            assert!(till.iter().all(|till| files.contains(till)), "{schedule}");
        }
    }

    /// The dispatcher's refusals and turns.
    #[test]
    fn stored_calls_reach_every_turn() {
        let mut reached = dispatch_cases::tally();
        let mut answers = BTreeSet::new();
        for (name, file) in dispatch_files() {
            let (mut schedule, mut page) = (vec![FILL; LEAST_SCHEDULE], [0; LEAST_SHEET]);
            let written = dispatch_sheet(&file, &mut schedule, &mut page);
            let text = std::str::from_utf8(&page[..written]).unwrap();
            answers.insert(text.split([' ', '\n']).nth(1).unwrap().to_string());
            dispatch_cases::follow(&file, &schedule, text, machine::bench_sheet, &mut reached).expect(&name);
        }
        assert_reached(vec![("Turn", &reached)]);
        assert_eq!(answers.into_iter().collect::<Vec<_>>(), ["0", "1", "2", "3", "5", "6", "7"]);
    }

    /// The refusals and turns of the dispatcher at lent turns.
    #[test]
    fn stored_draws_reach_every_turn() {
        let mut reached = draw_cases::tally();
        let mut names = BTreeSet::new();
        for Drawn { wants, turns } in drawn_runs() {
            let (mut schedule, mut page) = (vec![FILL; LEAST_SCHEDULE], [0; LEAST_SHEET]);
            let written = draw_sheet(&wants.1, &turns.1, &mut schedule, &mut page);
            let text = std::str::from_utf8(&page[..written]).unwrap();
            let run = (&wants.1[..], &turns.1[..]);
            draw_cases::follow(run, &schedule, text, machine::bench_sheet, &mut reached).expect(&turns.0);
            assert!(names.insert(turns.0));
        }
        assert!(reached.missing().is_empty(), "{:?}", reached.missing());
        assert!(drawn_runs().iter().map(|run| printed_drawn(run).len()).sum::<usize>() < 200_000);
    }

    /// The refusals and turns of sites, and pairs of names that differ.
    #[test]
    fn stored_sites_reach_every_turn() {
        let mut reached = site_cases::tally();
        let (mut answers, mut names, mut bytes) = (BTreeSet::new(), BTreeSet::new(), 0);
        for run in site_runs() {
            let printed = printed_site(&run);
            let sheet = text_of(|page| site_sheet(&run.wants.1, &run.turns.1, page));
            answers.insert(sheet.split([' ', '\n']).nth(1).unwrap().to_string());
            site_cases::follow(&run.wants.1, &run.turns.1, &sheet, &mut reached).expect(&run.turns.0);
            bytes += printed.len();
            assert!(names.insert(run.turns.0));
        }
        assert!(reached.missing().is_empty(), "{:?}", reached.missing());
        assert_eq!(answers.into_iter().collect::<Vec<_>>(), ["0", "1", "2", "3", "5", "6", "7"]);
        assert!((40..=60).contains(&names.len()) && bytes < 20_000, "{} {bytes}", names.len());
    }

    #[test]
    fn an_exploration_is_printed() {
        let printed = |file: &[u8]| printed_explored("x", file);
        assert_eq!(printed(&[1, 1, 2]), "run x\nanswer 0 states 613 depth 18 schedule 23\n");
        assert_eq!(printed(&[1, 1, 3]), "run x\nanswer 1 states 8192 depth 13 schedule 27\n");
        assert_eq!(printed(&[9, 1, 1]), "run x\nanswer 2 states 0 depth 0 schedule 0\n");
        assert_eq!(printed(&[]), printed(&[9, 1, 1]));
    }

    #[test]
    fn unsuited_calls_are_refused() {
        for (name, file) in unsuited_calls() {
            assert_eq!(plain::run(&file).answer, refusal::UNSUITED, "{name}");
        }
    }

    #[test]
    fn names_differ_and_the_output_stays_small() {
        let differ_and_stay_small = |files: Files, printed: fn(&str, &[u8]) -> String| {
            let names: BTreeSet<_> = files.iter().map(|(name, _)| name).collect();
            assert_eq!(names.len(), files.len());
            let bytes: usize = files.iter().map(|(name, file)| printed(name, file).len()).sum();
            assert!(bytes < 640_000, "{bytes}");
        };
        differ_and_stay_small(schedules(&mut Coverage::new()), printed);
        differ_and_stay_small(call_files(&mut tally()), printed_calls);
        differ_and_stay_small(dispatch_files(), printed_steps);
        differ_and_stay_small(ticket_files(&mut ticket_cases::tally()), printed_tickets);
        differ_and_stay_small(record_files(), printed_record);
    }

    /// Refused rows are not driven and so not counted here.
    fn assert_reached(tallies: Vec<(&str, &Tally)>) {
        let missing: Vec<_> = tallies.into_iter().flat_map(|(_, tally)| tally.missing()).collect();
        assert!(missing.iter().all(|name| name.starts_with("refusal")), "{missing:?}");
    }

    #[test]
    fn long_runs_reach_every_step() {
        let mut coverage = Coverage::new();
        schedules(&mut coverage);
        assert_reached(coverage.tables_of(Which::First));
        // At the second lock every kind, which is the first of its tables.
        assert_reached(coverage.tables_of(Which::Second)[..1].to_vec());
        let mut reached = tally();
        call_files(&mut reached);
        assert_reached(vec![("Call", &reached)]);
    }

    /// The plain engine's refusals by number.
    #[test]
    fn stored_calls_have_every_refusal() {
        let answers: BTreeSet<_> =
            call_files(&mut tally()).iter().map(|(_, file)| plain::run(file).answer).collect();
        assert_eq!(answers.into_iter().collect::<Vec<_>>(), [0, 1, 2, 3, 5, 6, 7]);
    }
}
