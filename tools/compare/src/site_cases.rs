//! The cases of sites, what their turns reach, and what is claimed of every sheet.

use crate::cases::{any_sheet, damage_anyhow, Reached, Source, KNOWN, SHEETS};
use crate::differ::{BenchSheet, Case, DrawSheet, SiteSheet};
use crate::dispatch_cases::any_calls;
use crate::dispatcher::LEAST_SCHEDULE;
use crate::draw_cases::any_turns;
use crate::known::text_of;
use crate::known_sites;
use crate::machine::{kind, order, refusal, word, Bench, Entry, Phase, Sizes, Which, LEAST_SHEET, MOST_ROWS};
use crate::random::Random;
use crate::schedule::{any_sizes, rows_named, Schedule};
use crate::site::{self, site_sheet, Site, HEAD, MOST_TURNS};
use crate::tally::{events, Tally};

events! {
    Begun = "turn: a call is begun",
    Again = "turn: a thread's first call is begun again",
    WentOn = "turn: a call goes on",
    HeldUp = "turn: a call is held up at the mutex",
    Holding = "turn: spent holding",
    HoldingConverted = "turn: spent holding before a conversion",
    Thinking = "turn: spent thinking",
    SleeperPassed = "turn passed over: its thread sleeps",
    IdlePassed = "turn passed over: its thread has no calls",
    NobodyPassed = "turn passed over: T or more",

    GotWriting = "finished: a write-lock, by its own row",
    GotReading = "finished: a read-lock, by its own row",
    WokenWriting = "finished: a write-lock, by another's row",
    WokenReading = "finished: a read-lock, by another's row",
    WokenSeveral = "finished: several calls in one row",
    Granted = "finished: an upgrade that is granted",
    Denied = "finished: an upgrade that is denied",
    Downgraded = "finished: a downgrade",
    Unlocked = "finished: an unlock",

    WarmOver = "warm-up: over among the turns",
    WarmInside = "warm-up: over inside a call that is finished behind it",
    WarmAll = "warm-up: all turns",
    WarmMore = "warm-up: more than all turns",

    Unfinished = "end: a call is unfinished",
    WaitsWriting = "end: a thread waits for a write-lock",
    WaitsReading = "end: a thread waits for a read-lock",
    AtRest = "end: no call is unfinished, after some were made",
    NoTurns = "end: no turns",
    Unsuited = "refusal 7, measured",
    UnsuitedWarm = "refusal 7 in the warm-up",
    UnsuitedFirst = "refusal 7 before any row",

    Short = "refusal 1",
    Size = "refusal 2",
    Length = "refusal 3",
    Thread = "refusal 5",
    Order = "refusal 6",
}

/// A tally of sites.
pub fn tally() -> Tally {
    Tally::new(Event::NAMES, Vec::new())
}

/// What a site file is made of.
#[derive(Clone)]
pub struct SiteRows {
    pub calls: Schedule,
    pub hold: u8,
    pub think: u8,
    pub warm: u32,
}

impl SiteRows {
    /// The file's bytes: sizes, hold, think, S, warm-up, thread numbers, orders.
    pub fn file(&self) -> Vec<u8> {
        let calls = self.calls.file();
        let (sizes, rest) = calls.split_at(3);
        let (rows, arrays) = rest.split_at(2);
        [sizes, &[self.hold, self.think], rows, &self.warm.to_le_bytes(), arrays].concat()
    }

    /// A site of calls that suit whatever the other threads do, however often they come: an
    /// unlock is added for each thread whose last is none.
    pub fn of(mut calls: Schedule) -> SiteRows {
        for thread in 0..calls.sizes.threads {
            let last = calls.threads.iter().rposition(|other| *other == thread);
            if last.is_some_and(|last| calls.orders[last] != order::UNLOCK) {
                calls.push(thread, order::UNLOCK);
            }
        }
        SiteRows { calls, hold: 0, think: 0, warm: 0 }
    }

    /// Such a site of any sizes.
    pub fn any(random: &mut Random, rows: usize) -> SiteRows {
        let sizes = any_sizes(random);
        let writers = random.pick(&[0, 5, 10, 40, 80, 100]);
        let calls = any_calls(random, sizes, rows.min(MOST_ROWS - usize::from(sizes.threads)), writers);
        let [hold, think] = [(); 2].map(|()| random.pick(&[0, 0, 0, 1, 2, 5, 20, 255]));
        SiteRows { hold, think, ..SiteRows::of(calls) }
    }
}

/// How often a site's turns come, and how many calls it has.
fn any_length(random: &mut Random) -> (usize, usize) {
    let turns = random.pick(&[0, 1, 10, 60, 200, 200, 600, 600, 2_000]);
    let rows = random.pick(&[0, 2, 4, 8, 8, 20, 20, 60, 200]);
    match random.below(100) {
        0 => (12_000, random.pick(&[200, 1_000, MOST_ROWS])),
        _ => (turns, rows),
    }
}

/// A warm-up: none as a rule, or on either side of so many turns.
fn any_warm(random: &mut Random, turns: usize) -> u32 {
    let turns = turns as u32;
    match random.below(12) {
        0 => turns,
        1 => turns + 1,
        2 => turns.saturating_sub(1),
        3 => random.pick(&[1, 255, 256, 65_536, 16_777_216, u32::MAX]),
        4..=7 => random.below(turns as usize + 1) as u32,
        _ => 0,
    }
}

/// A call that was made: whose, which, and by which rows it was begun and ended, counted
/// from 1.
struct Made {
    thread: u8,
    order: u8,
    begun: usize,
    ended: Option<usize>,
}

/// A row that was made.
struct Row {
    turn: usize,
    thread: u8,
    entry: Entry,
}

/// What became of a turn that made no row.
#[derive(Clone, Copy, PartialEq, Eq)]
enum Spent {
    Passed,
    Holding,
    Thinking,
}

/// A run kept whole: the rows, the calls, and the turns without a row. What a sheet says is
/// counted afterwards.
struct Kept {
    answer: u8,
    rows: Vec<Row>,
    calls: Vec<Made>,
    spent: Vec<(usize, Spent)>,
}

/// Runs a site and keeps everything; counts what its turns reach.
fn keep(site: &Site, turns: &[u8], reached: &mut Tally) -> Kept {
    let mut count = |event: Event| reached.count(event as usize);
    let threads = usize::from(site.sizes.threads);
    let mut bench = Bench::fresh(site.sizes);
    let mut kept = Kept { answer: refusal::NONE, rows: Vec::new(), calls: Vec::new(), spent: Vec::new() };
    // Of each thread: the calls begun, the turns that it lets pass, the call that it is in.
    let mut begun = vec![0; threads];
    let mut pause = vec![0; threads];
    let mut under: Vec<Option<usize>> = vec![None; threads];
    for (turn, &thread) in turns.iter().enumerate() {
        let place = usize::from(thread);
        if thread >= site.sizes.threads {
            count(Event::NobodyPassed);
            kept.spent.push((turn, Spent::Passed));
            continue;
        }
        let own: Vec<u8> =
            site.threads.iter().zip(site.orders).filter(|row| *row.0 == thread).map(|row| *row.1).collect();
        let phase = bench.lock(Which::First).phase(thread);
        let rests = bench.lock(Which::First).rests(place);
        if phase == Phase::Asleep || rests && own.is_empty() {
            count(if rests { Event::IdlePassed } else { Event::SleeperPassed });
            kept.spent.push((turn, Spent::Passed));
            continue;
        }
        if rests && pause[place] > 0 {
            pause[place] -= 1;
            let holds = phase != Phase::Idle;
            count(if holds { Event::Holding } else { Event::Thinking });
            if matches!(own[begun[place] % own.len()], order::UPGRADE | order::DOWNGRADE) {
                count(Event::HoldingConverted);
            }
            kept.spent.push((turn, if holds { Spent::Holding } else { Spent::Thinking }));
            continue;
        }
        let order = if rests { own[begun[place] % own.len()] } else { order::GO_ON };
        let entry = match bench.row(thread, order) {
            Ok(entry) => entry,
            Err(answer) => {
                count(if turn < site.warm { Event::UnsuitedWarm } else { Event::Unsuited });
                if kept.rows.is_empty() {
                    count(Event::UnsuitedFirst);
                }
                kept.answer = answer;
                return kept;
            }
        };
        kept.rows.push(Row { turn, thread, entry });
        let row = kept.rows.len();
        if rests {
            count(if begun[place] > 0 && begun[place] % own.len() == 0 {
                Event::Again
            } else {
                Event::Begun
            });
            begun[place] += 1;
            under[place] = Some(kept.calls.len());
            kept.calls.push(Made { thread, order, begun: row, ended: None });
        } else {
            count(if entry.kind == kind::HELD_UP { Event::HeldUp } else { Event::WentOn });
        }
        // Every thread is looked at, after every row.
        let mut ended = 0;
        for other in 0..threads {
            let Some(call) = under[other] else { continue };
            if !bench.lock(Which::First).rests(other) {
                continue;
            }
            let (order, own) = (kept.calls[call].order, other == place);
            let phase = bench.lock(Which::First).phase(other as u8);
            count(match (order, own) {
                (order::WRITE_LOCK, true) => Event::GotWriting,
                (order::WRITE_LOCK, false) => Event::WokenWriting,
                (order::UPGRADE, _) if phase == Phase::Writing => Event::Granted,
                (order::UPGRADE, _) => Event::Denied,
                (order::DOWNGRADE, _) => Event::Downgraded,
                (order::UNLOCK, _) => Event::Unlocked,
                (_, true) => Event::GotReading,
                (_, false) => Event::WokenReading,
            });
            kept.calls[call].ended = Some(row);
            pause[other] = if phase == Phase::Idle { site.think } else { site.hold };
            under[other] = None;
            ended += 1;
        }
        if ended > 2 {
            count(Event::WokenSeveral);
        }
    }
    kept
}

impl Kept {
    /// The sheet, counted from what was kept.
    fn sheet(&self, site: &Site) -> String {
        let measured = |turn: usize| turn >= site.warm;
        let rows: Vec<&Row> = self.rows.iter().filter(|row| measured(row.turn)).collect();
        // The number of the last row that is not measured, and of the last of all.
        let (before, last) = (self.rows.len() - rows.len(), self.rows.len());
        let spent = |what| self.spent.iter().filter(|spent| measured(spent.0) && spent.1 == what).count();
        let [passed, holding, thinking] = [Spent::Passed, Spent::Holding, Spent::Thinking].map(spent);
        let of = |test: &dyn Fn(&Row) -> bool| rows.iter().filter(|row| test(row)).count();
        let failed = |row: &Row| row.entry.kind == kind::SWAP_FAILED;
        let over = |call: &&Made| call.ended.is_some_and(|ended| ended > before);

        let mut text = format!("answer {} at {last}\n", self.answer);
        text +=
            &format!("turns {} {passed} {holding} {thinking}\n", passed + holding + thinking + rows.len());
        let unfinished = self.calls.iter().filter(|call| call.ended.is_none()).count();
        text += &format!("calls {} {unfinished}\n", self.calls.iter().filter(over).count());
        let root = of(&|row| row.entry.word == word::ROOT);
        let held_up = of(&|row| row.entry.kind == kind::HELD_UP);
        text += &format!("rows {} {} {root} {held_up}\n", rows.len(), of(&failed));
        let locks: [(&str, fn(u8) -> bool); 2] = [
            ("write-locks", |order| order == order::WRITE_LOCK),
            ("read-locks", |order| order >= order::READ_LOCK),
        ];
        for (name, asked) in locks {
            let calls = || self.calls.iter().filter(|call| asked(call.order));
            let waited = |call: &Made| call.ended.unwrap_or(last).saturating_sub(call.begun.max(before));
            let longest = calls().filter(over).filter_map(|call| Some(call.ended? - call.begun)).max();
            text += &format!(
                "{name} {} {} {} {}\n",
                calls().filter(over).count(),
                calls().map(waited).sum::<usize>(),
                longest.unwrap_or(0),
                calls().filter(|call| call.ended.is_none()).count()
            );
        }
        for thread in 0..site.sizes.threads {
            let done = self.calls.iter().filter(over).filter(|call| call.thread == thread).count();
            text += &format!("thread {thread} {done} {}\n", of(&|row| row.thread == thread && failed(row)));
        }
        text
    }

    /// Counts how the run ended.
    fn ended(&self, site: &Site, turns: usize, reached: &mut Tally) {
        let mut count = |event: Event, so: bool| {
            if so {
                reached.count(event as usize);
            }
        };
        let rest =
            |order: fn(u8) -> bool| self.calls.iter().any(|call| call.ended.is_none() && order(call.order));
        count(Event::Unfinished, rest(|_| true));
        count(Event::WaitsWriting, rest(|order| order == order::WRITE_LOCK));
        count(Event::WaitsReading, rest(|order| order >= order::READ_LOCK));
        count(Event::AtRest, !self.calls.is_empty() && !rest(|_| true));
        count(Event::NoTurns, turns == 0);
        if self.answer == refusal::NONE && turns > 0 {
            count(Event::WarmOver, 0 < site.warm && site.warm < turns);
            count(Event::WarmAll, site.warm == turns);
            count(Event::WarmMore, site.warm > turns);
            let before = self.rows.iter().take_while(|row| row.turn < site.warm).count();
            let inside = |call: &Made| call.begun <= before && call.ended.is_some_and(|ended| ended > before);
            count(Event::WarmInside, self.calls.iter().any(inside));
        }
    }
}

/// Asks that a sheet is what is counted from the whole run, and counts what the site reaches.
pub fn follow(file: &[u8], turns: &[u8], text: &str, reached: &mut Tally) -> Result<(), String> {
    let expected = match site::parse(file, turns.len()) {
        Ok(site) => {
            let kept = keep(&site, turns, reached);
            kept.ended(&site, turns.len(), reached);
            kept.sheet(&site)
        }
        Err(answer) => {
            let event = match answer {
                refusal::SHORT_FILE => Event::Short,
                refusal::SIZE => Event::Size,
                refusal::LENGTH => Event::Length,
                refusal::THREAD => Event::Thread,
                _ => Event::Order,
            };
            reached.count(event as usize);
            format!("answer {answer} at 0\n")
        }
    };
    if text != expected {
        return Err(format!(
            "another sheet is counted from the whole run:\n{expected}than is given:\n{text}"
        ));
    }
    Ok(())
}

/// The files on both sides of every limit.
pub fn edge_files() -> Vec<(&'static str, Vec<u8>)> {
    let sized =
        SiteRows { calls: Schedule::new(32, 16, 64).rows("63:95,2 0:1,2"), hold: 0, think: 0, warm: 0 };
    let with = |places: &[(usize, u8)]| {
        let mut file = sized.file();
        places.iter().for_each(|&(place, value)| file[place] = value);
        file
    };
    let calls = |nodes, threads, rows: &str| {
        SiteRows { calls: Schedule::new(nodes, 2, threads).rows(rows), hold: 0, think: 0, warm: 0 }.file()
    };
    vec![
        ("edge-sizes", with(&[])),
        ("edge-n-0", with(&[(0, 0)])),
        ("edge-n-33", with(&[(0, 33)])),
        ("edge-f-0", with(&[(1, 0)])),
        ("edge-f-17", with(&[(1, 17)])),
        ("edge-t-0", with(&[(2, 0)])),
        ("edge-t-65", with(&[(2, 65)])),
        ("edge-s-4097", with(&[(5, 1), (6, 16)])),
        ("edge-s-3", with(&[(5, 3)])),
        ("edge-s-5", with(&[(5, 5)])),
        ("edge-size-before-length", with(&[(0, 33), (5, 5)])),
        ("edge-hold-255", with(&[(3, 255)])),
        ("edge-think-255", with(&[(4, 255)])),
        ("edge-thread-64", calls(1, 64, "64:64")),
        ("edge-thread-before-order", calls(1, 2, "1:64 2:0")),
        ("edge-order-before-thread", calls(1, 2, "1:0 2:64")),
        ("edge-order-95-n-31", calls(31, 1, "0:95")),
        ("edge-order-before-suiting", calls(1, 2, "1:2 1:65")),
        ("edge-length-10", with(&[])[..HEAD - 1].to_vec()),
        ("edge-length-11", with(&[])[..HEAD].to_vec()),
    ]
}

/// Makes sites with their turns, and counts what they reach.
pub struct SiteCases {
    reached: Tally,
    broken: Option<String>,
}

impl SiteCases {
    pub fn new() -> SiteCases {
        SiteCases { reached: tally(), broken: None }
    }

    /// A case of this site at these turns; what it reaches is counted.
    fn case(
        &mut self,
        class: &'static str,
        (file, turns): (Vec<u8>, Vec<u8>),
        sheet: usize,
        fill: u64,
    ) -> Case {
        let text = text_of(|page| site_sheet(&file, &turns, page));
        if let (Err(broken), None) = (follow(&file, &turns, &text, &mut self.reached), &self.broken) {
            self.broken = Some(format!("{broken}\nsite {file:02x?}\nturns {turns:02x?}"));
        }
        Case { class, file, till: turns, journal: 0, sheet, fill }
    }

    /// A site whose calls all suit, at turns.
    fn legal(random: &mut Random) -> (Vec<u8>, Vec<u8>) {
        let (length, rows) = any_length(random);
        let mut site = SiteRows::any(random, rows);
        let turns = any_turns(random, site.calls.sizes.threads, length);
        site.warm = any_warm(random, length);
        (site.file(), turns)
    }

    /// A site with a row that is refused: before the first turn, or when its turn comes.
    fn refused(random: &mut Random) -> (Vec<u8>, Vec<u8>) {
        let (length, rows) = any_length(random);
        let mut site = SiteRows::any(random, rows.min(60));
        let Sizes { nodes, threads, .. } = site.calls.sizes;
        let thread = random.below(usize::from(threads)) as u8;
        let read_lock = order::READ_LOCK + random.below(usize::from(nodes)) as u8;
        let (thread, order) = match random.below(10) {
            0 => (random.between(usize::from(threads), 255) as u8, random.byte()),
            1 => (thread, order::GO_ON),
            2 => (thread, random.between(5, 63) as u8),
            3 => (thread, random.between(usize::from(order::READ_LOCK + nodes), 255) as u8),
            _ => (thread, random.pick(&[1, 2, 3, 4, read_lock])),
        };
        let place = random.below(site.calls.threads.len() + 1);
        site.calls.threads.insert(place, thread);
        site.calls.orders.insert(place, order);
        let turns = any_turns(random, threads, length);
        site.warm = any_warm(random, length);
        (site.file(), turns)
    }

    /// A good site with damaged bytes, those of its head as a rule.
    fn damaged(random: &mut Random) -> (Vec<u8>, Vec<u8>) {
        let (mut file, turns) = SiteCases::legal(random);
        if random.chance(50) {
            damage_anyhow(random, &mut file);
        } else {
            let place = random.below(HEAD);
            file[place] = match random.below(3) {
                0 => random.byte(),
                1 => file[place].wrapping_add(1),
                _ => file[place].wrapping_sub(1),
            };
        }
        (file, turns)
    }

    /// Random bytes, or a head in range with any rows behind it.
    fn random(random: &mut Random) -> (Vec<u8>, Vec<u8>) {
        let lengths = (random.below(100), random.below(100));
        if random.chance(30) {
            return (random.bytes(lengths.0), random.bytes(lengths.1));
        }
        let mut calls = Schedule::any_empty(random);
        let threads = usize::from(calls.sizes.threads);
        for _ in 0..random.below(20) {
            let thread = if random.chance(2) { random.byte() } else { random.below(threads) as u8 };
            let order =
                if random.chance(2) { random.byte() } else { random.pick(&[1, 2, 2, 3, 4, 64, 64, 64]) };
            calls.push(thread, order);
        }
        let site =
            SiteRows { calls, hold: random.byte(), think: random.byte(), warm: random.below(100) as u32 };
        (site.file(), any_turns(random, threads as u8, lengths.1))
    }
}

impl Reached for SiteCases {
    fn name(&self) -> &'static str {
        "Sites"
    }

    fn reached(&self) -> Vec<(&'static str, &Tally)> {
        vec![("Turn", &self.reached)]
    }

    fn broken(&self) -> Option<&str> {
        self.broken.as_deref()
    }
}

/// The turns of a long run of the comparison.
const LONG_TURNS: usize = 100_000;

/// Sites at many turns: N, F and T; hold and think; the warm-up.
const LONG: [([u8; 3], [u8; 2], u32); 5] = [
    ([1, 1, 2], [0, 0], 0),
    ([7, 2, 8], [3, 10], 10_000),
    ([13, 3, 19], [0, 0], 50_000),
    ([32, 4, 64], [1, 4], 1_000),
    ([32, 16, 64], [0, 255], 0),
];

fn long_sites(random: &mut Random) -> Vec<(Vec<u8>, Vec<u8>)> {
    let site = |(sizes, [hold, think], warm): ([u8; 3], [u8; 2], u32)| {
        let [nodes, fan_out, threads] = sizes;
        let mut calls = Schedule::new(nodes, fan_out, threads);
        for thread in 0..threads {
            let read_lock = order::READ_LOCK + random.below(usize::from(nodes)) as u8;
            for order in [read_lock, 2, order::WRITE_LOCK, 4, 2, read_lock, 2, order::READ_LOCK, 3, 2] {
                calls.push(thread, order);
            }
        }
        let turns = (0..LONG_TURNS).map(|_| random.below(usize::from(threads)) as u8).collect();
        (SiteRows { calls, hold, think, warm }.file(), turns)
    };
    LONG.map(site).into_iter().collect()
}

impl Source for SiteCases {
    fn fixed(&mut self, random: &mut Random) -> Vec<Case> {
        let mut cases = Vec::new();
        for known in known_sites::all() {
            cases.push(self.case(KNOWN, (known.site, known.turns), LEAST_SHEET, random.next()));
        }
        for (_, file) in edge_files() {
            let turns = any_turns(random, 64, 300);
            for sheet in SHEETS {
                cases.push(self.case("edges", (file.clone(), turns.clone()), sheet, random.next()));
            }
        }
        for nodes in [1, 31, 32] {
            for before in ["", "0:64", "0:1", "0:64,3", "0:1,4"] {
                for order in 0..=255 {
                    let mut calls = Schedule::new(nodes, 2, 2).rows(before);
                    calls.push(0, order);
                    let site = SiteRows { calls: calls.rows("1:64,2"), hold: 1, think: 1, warm: 3 };
                    let turns = any_turns(random, 2, 60);
                    cases.push(self.case("every order", (site.file(), turns), LEAST_SHEET, random.next()));
                }
            }
        }
        for length in 0..=40 {
            for _ in 0..50 {
                let (mut file, turns) = SiteCases::legal(random);
                file.resize(length, random.byte());
                cases.push(self.case("every length from 0 to 40", (file, turns), LEAST_SHEET, random.next()));
                let turns = random.bytes(length);
                let file = random.bytes(length);
                cases.push(self.case("every length from 0 to 40", (file, turns), LEAST_SHEET, random.next()));
            }
        }
        for (file, turns) in long_sites(random) {
            for sheet in [LEAST_SHEET - 1, LEAST_SHEET] {
                cases.push(self.case("long runs", (file.clone(), turns.clone()), sheet, random.next()));
            }
        }
        cases
    }

    fn any(&mut self, random: &mut Random) -> Case {
        let (class, site) = match random.below(100) {
            0..=59 => ("sites whose calls suit", SiteCases::legal(random)),
            60..=74 => ("sites with a row that is refused", SiteCases::refused(random)),
            75..=89 => ("damaged sites", SiteCases::damaged(random)),
            _ => ("random bytes", SiteCases::random(random)),
        };
        let sheet = any_sheet(random);
        self.case(class, site, sheet, random.next())
    }
}

/// Asks, of so many sheets that an implementation gives, that they are what is counted from
/// the whole run.
pub fn claims(site: SiteSheet, count: u64, seed: u64) -> Result<(), String> {
    let mut random = Random::new(seed);
    for _ in 0..count {
        let (file, turns) =
            if random.chance(80) { SiteCases::legal(&mut random) } else { SiteCases::refused(&mut random) };
        let text = text_of(|page| site(&file, &turns, page));
        follow(&file, &turns, &text, &mut tally())
            .map_err(|broken| format!("{broken}\nsite {file:02x?}\nturns {turns:02x?}"))?;
    }
    Ok(())
}

/// Asks that a site that neither holds nor thinks makes the rows that are drawn of its calls
/// at the same turns, by an implementation's own functions: as many of them, with the
/// failures of the bench's sheet, and with its journal's entries on the root word and held up.
pub fn draws(
    site: SiteSheet,
    draw: DrawSheet,
    bench: BenchSheet,
    count: u64,
    seed: u64,
) -> Result<(), String> {
    let mut random = Random::new(seed);
    for _ in 0..count {
        let rows = random.pick(&[2, 8, 20, 60]);
        let rows = SiteRows { hold: 0, think: 0, ..SiteRows::any(&mut random, rows) };
        let Sizes { nodes, fan_out, threads } = rows.calls.sizes;
        let length = random.below(1_000);
        let turns = any_turns(&mut random, threads, length);

        // Each thread's calls again and again, at least as often as it has turns.
        let mut wanted = Schedule::new(nodes, fan_out, threads);
        for thread in 0..threads {
            let own = rows.calls.threads.iter().zip(&rows.calls.orders).filter(|row| *row.0 == thread);
            let turns = turns.iter().filter(|turn| **turn == thread).count();
            own.map(|row| *row.1).cycle().take(turns).for_each(|order| wanted.push(thread, order));
        }
        let mut schedule = vec![0; LEAST_SCHEDULE];
        text_of(|page| draw(&wanted.file(), &turns, &mut schedule, page));
        let made = rows_named(&schedule);
        schedule.truncate(5 + 2 * made);
        let mut journal = vec![0; 2 * made];
        let sheet = text_of(|page| bench(&schedule, &mut journal, page));
        let (kinds, words) = journal.split_at(made);
        let of = |bytes: &[u8], value| bytes.iter().filter(|byte| **byte == value).count();
        let (failed, held_up) = (of(kinds, kind::SWAP_FAILED), of(kinds, kind::HELD_UP));
        let expected = format!("rows {made} {failed} {} {held_up}", of(words, word::ROOT));

        let text = text_of(|page| site(&rows.file(), &turns, page));
        let last = |line: &str| line.rsplit(' ').next().map(str::to_string);
        let failures = |text: &str| -> Vec<_> {
            let lines = text.lines().filter(|line| line.starts_with("thread "));
            lines.take(usize::from(threads)).map(last).collect()
        };
        let answered = text.starts_with(&format!("answer 0 at {made}\n"));
        if !answered || !text.lines().any(|line| line == expected) || failures(&text) != failures(&sheet) {
            return Err(format!(
                "the rows are not those that are drawn: {expected}\n{text}bench:\n{sheet}\
                 site {:02x?}\nturns {turns:02x?}",
                rows.file()
            ));
        }
    }
    Ok(())
}

/// Asks that a turn too many is refused with 3, before a row with 5 is, and that all the
/// turns that there may be are not. No turn is read, so the list takes no memory.
pub fn turns_refused(site: SiteSheet) -> Result<(), String> {
    let calls = Schedule::new(1, 1, 1).rows("1:64");
    let file = SiteRows { calls, hold: 0, think: 0, warm: 0 }.file();
    let turns = vec![0; MOST_TURNS + 1];
    for (turns, sheet) in [(&turns[..], "answer 3 at 0\n"), (&turns[1..], "answer 5 at 0\n")] {
        let text = text_of(|page| site(&file, turns, page));
        if text != sheet {
            return Err(format!("{} turns: {text}", turns.len()));
        }
    }
    Ok(())
}

#[cfg(test)]
mod tests {
    use super::*;

    #[test]
    fn files_have_eleven_bytes_before_their_rows() {
        let calls = Schedule::new(2, 3, 4).rows("3:1,2");
        let file = SiteRows { calls, hold: 5, think: 6, warm: 0x0403_0201 }.file();
        assert_eq!(file, [2, 3, 4, 5, 6, 2, 0, 1, 2, 3, 4, 3, 3, 1, 2]);
    }

    /// A row with 5 is looked at where there are not too many turns.
    #[test]
    fn turns_are_counted_before_rows() {
        let calls = Schedule::new(1, 1, 1).rows("1:64");
        let file = SiteRows { calls, hold: 0, think: 0, warm: 0 }.file();
        let refused = |turns| site::parse(&file, turns).err();
        assert_eq!(refused(MOST_TURNS + 1), Some(refusal::LENGTH));
        assert_eq!(refused(MOST_TURNS), Some(refusal::THREAD));
    }

    /// However often the calls come again, none of them is refused.
    #[test]
    fn calls_of_long_runs_suit() {
        for (file, turns) in long_sites(&mut Random::new(5)) {
            let text = text_of(|page| site_sheet(&file, &turns, page));
            assert!(text.starts_with("answer 0 at "), "{text}");
        }
    }
}
