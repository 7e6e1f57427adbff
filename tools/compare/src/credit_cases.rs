//! The cases of the credit table, which bookings they reach, and the claims of
//! request Twelve on every state of their runs.

use crate::by_sheets::{lock_lines, printed_locks, Printed};
use crate::cases::{any_rows, any_sheet, damage_anyhow, orders_after, Reached, Source, KNOWN, SHEETS};
use crate::credit::{self, kind, Table, Till, BOOK, LAST_BOOK, MOST_ENTRIES, MOST_ROOMS};
use crate::differ::{Case, CreditSheet};
use crate::known_credit;
use crate::locking::{Standing, State};
use crate::machine::{self, order, Entry, Sizes, Which, LEAST_SHEET, MOST_ROWS};
use crate::random::Random;
use crate::schedule::{any_sizes, next_thread, rows_named, suiting_order, Manner, Schedule};
use crate::tally::{events, Tally};

events! {
    TopUp = "booked: a top-up",
    Songs = "booked: songs",
    Nothing = "booked: an amount of 0",
    ToZero = "booked: songs that leave 0",
    AfterDenial = "booked: denied before",
    Most = "booked: 32,767",
    Least = "booked: -32,768",
    Rich = "booked: a balance above 65,535",
    LastEntry = "booked: entry 31",
    LastRoom = "booked: room 31",
    WritesSecond = "booked: by a thread that writes the second lock too",
    ReadsSecond = "booked: by a thread that reads the second lock",
    SleepersWait = "booked: while another thread sleeps in the first lock",
    MutexTaken = "booked: while another thread has the first lock's mutex",
    Repeated = "repeated: a top-up",
    RepeatedSongs = "repeated: songs that would be denied",
    Denied = "denied: for the first time",
    DeniedAgain = "denied: again",
    DeniedPoor = "denied: at a balance above 0",

    RefusedThread = "refusal 5: a booking",
    RefusedEntry = "refusal 6: entry E or more, by a writer",
    RefusedEntryOther = "refusal 6: entry E or more, by another thread",
    RefusedSecondLock = "refusal 6: a booking with 128 added",
    Idle = "refusal 7: idle at the first lock",
    Reading = "refusal 7: reading the first lock",
    Calling = "refusal 7: in a call of the first lock",
    Asleep = "refusal 7: asleep in the first lock",
    CallingSecond = "refusal 7: writing the first lock, in a call of the second",
    AsleepSecond = "refusal 7: writing the first lock, asleep in the second",
}

/// A tally of bookings.
pub fn tally() -> Tally {
    Tally::new(Event::NAMES, Vec::new())
}

/// The rooms and entries of a till, each with its room and amount.
#[derive(Clone)]
pub struct TillEntries {
    pub rooms: u8,
    pub entries: Vec<(u8, i16)>,
}

impl TillEntries {
    pub fn new(rooms: u8, entries: &[(u8, i16)]) -> TillEntries {
        TillEntries { rooms, entries: entries.to_vec() }
    }

    /// "sizes first, then E room numbers and E amounts, signed 16-bit, low byte first"
    pub fn file(&self) -> Vec<u8> {
        let mut file = vec![self.rooms, self.entries.len() as u8];
        file.extend(self.entries.iter().map(|entry| entry.0));
        file.extend(self.entries.iter().flat_map(|entry| entry.1.to_le_bytes()));
        file
    }

    /// The entries of a till file that is good.
    fn read(file: &[u8]) -> TillEntries {
        let (numbers, amounts) = file[2..].split_at(usize::from(file[1]));
        let amounts = amounts.chunks(2).map(|bytes| i16::from_le_bytes([bytes[0], bytes[1]]));
        TillEntries { rooms: file[0], entries: numbers.iter().copied().zip(amounts).collect() }
    }

    /// Few rooms as a rule, so that entries meet.
    pub fn any(random: &mut Random) -> TillEntries {
        let rooms = random.pick(&[1, 1, 2, 3, 7, MOST_ROOMS]);
        let entries = match random.below(4) {
            0 => random.below(4),
            1 => MOST_ENTRIES,
            _ => random.between(1, MOST_ENTRIES),
        };
        let amount = |random: &mut Random| match random.below(8) {
            0 => i16::MAX,
            1 => i16::MIN,
            2 => random.next() as i16,
            3 => 0,
            _ => random.between(0, 40) as i16 - 20,
        };
        let entry = |random: &mut Random| (random.below(rooms) as u8, amount(random));
        TillEntries { rooms: rooms as u8, entries: (0..entries).map(|_| entry(random)).collect() }
    }
}

/// Request Twelve's claims on one run: "After every row the balances add up to the
/// amounts of the entries marked booked, room by room, and no balance is below 0."
/// And each entry is booked at most once, by a thread that writes the first lock
/// while nobody else holds it.
struct Ledger<'a> {
    till: &'a TillEntries,
    booked: Vec<bool>,
    denied: Vec<bool>,
    rows: usize,
}

impl Ledger<'_> {
    fn new(till: &TillEntries) -> Ledger<'_> {
        let none = vec![false; till.entries.len()];
        Ledger { till, booked: none.clone(), denied: none, rows: 0 }
    }

    /// The sum of the booked amounts of a room.
    fn sum(&self, room: u8) -> i32 {
        let booked = self.till.entries.iter().zip(&self.booked).filter(|(_, booked)| **booked);
        booked.filter(|(entry, _)| entry.0 == room).map(|(entry, _)| i32::from(entry.1)).sum()
    }

    /// Takes in a row that was taken, with its kind, the balances after it and the
    /// first lock.
    fn row(
        &mut self,
        thread: u8,
        order: u8,
        row_kind: u8,
        balances: &[i32],
        first: &impl State,
    ) -> Result<(), String> {
        self.rows += 1;
        let broken = |what: &str| Err(format!("after {} rows: {what}", self.rows));
        if let kind::BOOKED..=kind::DENIED = row_kind {
            let number = usize::from(order.wrapping_sub(BOOK));
            let Some(&(room, amount)) = self.till.entries.get(number) else {
                return broken("an entry is booked that the till does not have");
            };
            if !writes_alone(first, thread) {
                return broken("a booking by a thread that does not write the first lock alone");
            }
            let fits = self.sum(room) + i32::from(amount) >= 0;
            match (row_kind, self.booked[number]) {
                (kind::BOOKED, true) => return broken("an entry is booked twice"),
                (kind::BOOKED, false) if !fits => return broken("an entry is booked that would be denied"),
                (kind::DENIED, booked) if booked || fits => return broken("an entry is denied that is not"),
                (kind::REPEATED, false) => return broken("an entry is repeated that is not booked"),
                _ => {}
            }
            self.booked[number] |= row_kind == kind::BOOKED;
            self.denied[number] |= row_kind == kind::DENIED;
        }
        if balances.iter().any(|balance| *balance < 0) {
            return broken("a balance is below 0");
        }
        if balances.len() != usize::from(self.till.rooms)
            || (0..self.till.rooms).any(|room| balances[usize::from(room)] != self.sum(room))
        {
            return broken("the balances are not the sums of the booked amounts");
        }
        Ok(())
    }
}

/// Whether the thread writes the lock and nobody else holds it.
fn writes_alone(lock: &impl State, thread: u8) -> bool {
    let holds = |other: &u8| matches!(lock.standing(*other), Standing::Reading | Standing::Writing);
    lock.standing(thread) == Standing::Writing && (0..lock.threads()).filter(holds).count() == 1
}

/// The events of a booking with this kind; the ledger is the one before it.
fn booked_events(ledger: &Ledger, table: &Table, thread: u8, number: u8, row_kind: u8) -> Vec<Event> {
    let entry = usize::from(number);
    let (room, amount) = ledger.till.entries[entry];
    let before = ledger.sum(room);
    let after = before + i32::from(amount);
    let first = table.bench().lock(Which::First);
    match row_kind {
        kind::REPEATED if after < 0 => return vec![Event::RepeatedSongs],
        kind::REPEATED => return vec![Event::Repeated],
        kind::DENIED => {
            let again = if ledger.denied[entry] { Event::DeniedAgain } else { Event::Denied };
            let poor = (before > 0).then_some(Event::DeniedPoor);
            return [Some(again), poor].into_iter().flatten().collect();
        }
        _ => {}
    }
    let others = (0..first.threads()).filter(|other| *other != thread);
    let second = table.bench().lock(Which::Second).standing(thread);
    let also = [
        (amount < 0 && after == 0, Event::ToZero),
        (ledger.denied[entry], Event::AfterDenial),
        (amount == i16::MAX, Event::Most),
        (amount == i16::MIN, Event::Least),
        (after > 65_535, Event::Rich),
        (entry == MOST_ENTRIES - 1, Event::LastEntry),
        (usize::from(room) == MOST_ROOMS - 1, Event::LastRoom),
        (second == Standing::Writing, Event::WritesSecond),
        (second == Standing::Reading, Event::ReadsSecond),
        (others.clone().any(|other| first.standing(other) == Standing::Asleep), Event::SleepersWait),
        (others.clone().any(|other| first.mutex() == Some(other)), Event::MutexTaken),
    ];
    let sign = match amount {
        1.. => Event::TopUp,
        0 => Event::Nothing,
        _ => Event::Songs,
    };
    [sign].into_iter().chain(also.iter().filter(|event| event.0).map(|event| event.1)).collect()
}

/// The event of a booking that is refused.
fn refused_event(table: &Table, entries: usize, thread: u8, order: u8) -> Event {
    let (first, second) = (table.bench().lock(Which::First), table.bench().lock(Which::Second));
    if thread >= first.threads() {
        return Event::RefusedThread;
    }
    let writes = first.standing(thread) == Standing::Writing;
    match (Which::named(order), usize::from(order.wrapping_sub(BOOK)) >= entries) {
        (Which::Second, _) => Event::RefusedSecondLock,
        (Which::First, true) if writes && second.rests(usize::from(thread)) => Event::RefusedEntry,
        (Which::First, true) => Event::RefusedEntryOther,
        (Which::First, false) => match (first.standing(thread), second.standing(thread)) {
            (Standing::Idle, _) => Event::Idle,
            (Standing::Reading, _) => Event::Reading,
            (Standing::Calling, _) => Event::Calling,
            (Standing::Asleep, _) => Event::Asleep,
            (Standing::Writing, Standing::Asleep) => Event::AsleepSecond,
            (Standing::Writing, _) => Event::CallingSecond,
        },
    }
}

/// A manner with many writers of the first lock.
fn any_manner(random: &mut Random, sizes: Sizes) -> Manner {
    let writers = random.pick(&[20, 50, 80, 100]);
    let second = random.pick(&[0, 0, 20, 50]);
    let nesting = random.pick(&[0, 10, 30]);
    Manner { writers, second, nesting, ..Manner::any(random, sizes) }
}

/// Drives the credit table through `rows` legal rows from the fresh locks. Threads that
/// may book do so in `bookings` of a hundred rows. Returns the schedule and the state it
/// ends in, or the first claim that did not hold.
pub fn drive<'a>(
    random: &mut Random,
    sizes: Sizes,
    (till, entries): (Till<'a>, &TillEntries),
    rows: usize,
    (manner, bookings): (&Manner, usize),
    reached: &mut Tally,
) -> Result<(Schedule, Table<'a>), String> {
    let mut schedule = Schedule::new(sizes.nodes, sizes.fan_out, sizes.threads);
    let mut table = Table::fresh(sizes, till);
    let mut ledger = Ledger::new(entries);
    let mut thread = 0;
    for _ in 0..rows {
        thread = next_thread(random, table.bench(), manner, thread);
        let standings = Which::BOTH.map(|which| table.bench().lock(which).standing(thread));
        let order = any_order(random, sizes.nodes, (manner, bookings), standings, entries.entries.len());
        follow_row(&mut table, &mut ledger, thread, order, reached)?;
        schedule.push(thread, order);
    }
    Ok((schedule, table))
}

/// Runs a row that suits its thread, asks for the claims and counts a booking.
fn follow_row(
    table: &mut Table,
    ledger: &mut Ledger,
    thread: u8,
    order: u8,
    reached: &mut Tally,
) -> Result<(), String> {
    let Entry { kind, .. } = table.row(thread, order).expect("the row suits its thread");
    if (BOOK..=LAST_BOOK).contains(&order) {
        let events = booked_events(ledger, table, thread, order - BOOK, kind);
        events.iter().for_each(|event| reached.count(*event as usize));
    }
    ledger.row(thread, order, kind, table.balances(), table.bench().lock(Which::First))
}

/// Follows the rows of a schedule that are taken, if its files are good.
pub fn follow(file: &[u8], till: &[u8], reached: &mut Tally) -> Result<(), String> {
    let taken = credit::run(file, till, &mut [0; 2 * MOST_ROWS]).taken;
    let (Ok((sizes, threads, orders)), Some(parsed)) = (machine::parse(file), Till::new(till)) else {
        return Ok(());
    };
    let entries = TillEntries::read(till);
    let (mut table, mut ledger) = (Table::fresh(sizes, parsed), Ledger::new(&entries));
    let mut rows = threads.iter().zip(orders).take(taken);
    rows.try_for_each(|(thread, order)| follow_row(&mut table, &mut ledger, *thread, *order, reached))
}

/// An order that suits a thread of these standings, perhaps a booking.
fn any_order(
    random: &mut Random,
    nodes: u8,
    (manner, bookings): (&Manner, usize),
    standings: [Standing; 2],
    entries: usize,
) -> u8 {
    let [first, second] = standings;
    let rests = !matches!(second, Standing::Calling | Standing::Asleep);
    if first == Standing::Writing && rests && entries > 0 && random.chance(bookings) {
        return BOOK + random.below(entries) as u8;
    }
    suiting_order(random, nodes, manner, standings)
}

/// A booking that is refused with 5, 6 or 7 in this state.
fn bad_booking(random: &mut Random, table: &Table, entries: usize) -> (u8, u8) {
    let bench = table.bench();
    let threads = bench.sizes().threads;
    let any = random.below(usize::from(threads)) as u8;
    // A writer, who is alone, would be met seldom.
    let writing = |thread: &u8| bench.lock(Which::First).standing(*thread) == Standing::Writing;
    let writer = (0..threads).find(writing).filter(|_| random.chance(60));
    let thread = writer.unwrap_or(any);
    let may_book = writing(&thread) && bench.lock(Which::Second).rests(usize::from(thread));
    let number =
        |random: &mut Random, least: usize, most: usize| BOOK + random.between(least, most - 1) as u8;
    match random.below(8) {
        0 => (random.between(usize::from(threads), 255) as u8, number(random, 0, MOST_ENTRIES)),
        1 => (thread, Which::Second.order() + number(random, 0, MOST_ENTRIES)),
        2 if entries < MOST_ENTRIES => (thread, number(random, entries, MOST_ENTRIES)),
        _ if entries > 0 && !may_book => (thread, number(random, 0, entries)),
        _ => (thread, Which::Second.order() + number(random, 0, MOST_ENTRIES)),
    }
}

/// A schedule and a till on both sides of a limit.
pub type NamedPair = (&'static str, Vec<u8>, Vec<u8>);

/// Tills on both sides of every limit, with a schedule that books entries 0 and 31.
pub fn edge_tills() -> Vec<NamedPair> {
    let with = |file: &[u8], place: usize, value: u8| {
        let mut file = file.to_vec();
        file[place] = value;
        file
    };
    let full: Vec<(u8, i16)> = (0..32).map(|entry| (entry, 100 + i16::from(entry))).collect();
    let full = TillEntries::new(32, &full).file();
    let most = TillEntries::new(1, &[(0, 7); MOST_ENTRIES]).file();
    let too_many = TillEntries::new(1, &[(0, 7); MOST_ENTRIES + 1]).file();
    let none = TillEntries::new(1, &[]).file();
    let longer = [&full[..], &[0]].concat();
    let books = Schedule::new(1, 1, 1).rows("0:1,0,0,96,127").file();
    let tills = vec![
        ("till-r-0", with(&full, 0, 0)),
        ("till-r-31", with(&full, 0, 31)),
        ("till-r-32", full.clone()),
        ("till-r-33", with(&full, 0, 33)),
        ("till-r-0-no-entry", with(&none, 0, 0)),
        ("till-r-1-no-entry", none.clone()),
        ("till-r-32-no-entry", with(&none, 0, 32)),
        ("till-r-33-no-entry", with(&none, 0, 33)),
        ("till-e-31", with(&full, 1, 31)),
        ("till-e-32", most),
        ("till-e-33", too_many),
        ("till-e-255", with(&none, 1, 255)),
        ("till-room-31", with(&full, 2, 31)),
        ("till-room-32", with(&full, 2, 32)),
        ("till-room-32-last", with(&full, 33, 32)),
        ("till-room-255", with(&full, 2, 255)),
        ("till-shorter", full[..97].to_vec()),
        ("till-longer", longer),
        ("till-no-amounts", full[..34].to_vec()),
        ("till-empty", Vec::new()),
        ("till-one-byte", vec![1]),
    ];
    tills.into_iter().map(|(name, till)| (name, books.clone(), till)).collect()
}

/// Makes cases for the credit table and counts the bookings they reach.
pub struct CreditCases {
    reached: Tally,
    broken: Option<String>,
}

impl CreditCases {
    pub fn new() -> CreditCases {
        CreditCases { reached: tally(), broken: None }
    }

    /// A driven run of any manner, then a booking that is refused if one is asked for.
    /// Where a claim does not hold, it is noted, and the run has no rows.
    fn run(&mut self, random: &mut Random, rows: usize, refused: bool) -> (Schedule, Vec<u8>) {
        let (sizes, till) = (any_sizes(random), TillEntries::any(random));
        let (manner, bookings) = (any_manner(random, sizes), random.pick(&[20, 50, 80]));
        let bytes = till.file();
        let parsed = Till::new(&bytes).expect("the till is good");
        let driven = drive(random, sizes, (parsed, &till), rows, (&manner, bookings), &mut self.reached);
        let (mut schedule, mut table) = driven.unwrap_or_else(|broken| {
            self.broken.get_or_insert(broken);
            (Schedule::new(sizes.nodes, sizes.fan_out, sizes.threads), Table::fresh(sizes, parsed))
        });
        if refused {
            let (thread, order) = bad_booking(random, &table, till.entries.len());
            let event = refused_event(&table, till.entries.len(), thread, order);
            self.reached.count(event as usize);
            table.row(thread, order).expect_err("the row is bad");
            schedule.push(thread, order);
        }
        (schedule, bytes)
    }
}

impl Reached for CreditCases {
    fn name(&self) -> &'static str {
        "The credit table"
    }

    fn reached(&self) -> Vec<(&'static str, &Tally)> {
        vec![("Booking", &self.reached)]
    }

    fn broken(&self) -> Option<&str> {
        self.broken.as_deref()
    }
}

impl Source for CreditCases {
    fn fixed(&mut self, random: &mut Random) -> Vec<Case> {
        let mut cases = Vec::new();
        let mut add = |class, file: &[u8], till: &[u8], journal, sheet, fill| {
            cases.push(Case { class, file: file.to_vec(), till: till.to_vec(), journal, sheet, fill });
        };
        for known in known_credit::all() {
            add(KNOWN, &known.file, &known.till, known.journal, LEAST_SHEET, random.next());
        }
        // 3 goes before 10 and 10 before 4.
        for (_, file, till) in edge_tills() {
            for file in [&file[..], &file[..file.len() - 1], &file[..4], &[0; 5]] {
                let needed = 2 * rows_named(file);
                for journal in [0, needed.saturating_sub(1), needed, needed + 1] {
                    for sheet in SHEETS {
                        add("edges", file, &till, journal, sheet, random.next());
                    }
                }
            }
        }
        let runs = [
            "",
            "0:64,0,0",
            "0:1,0,0",
            "0:1,0,0 0:129,0,0",
            "0:1,0,0 0:192",
            "0:1,0,0 0:2",
            "1:1,0,0 0:64,0,0,0,0,0",
            "1:129,0,0 0:1,0,0 0:192,0,0,0,0,0",
        ];
        for entries in [0, 1, 31, 32] {
            let till = TillEntries::new(2, &vec![(1, 5); entries]).file();
            for file in orders_after(&runs) {
                add("every order", &file, &till, 2 * rows_named(&file), LEAST_SHEET, random.next());
            }
        }
        let books = Schedule::new(1, 1, 1).rows("0:1,0,0,96,97,127").file();
        for length in 0..=100 {
            let mut tills = vec![vec![0; length], vec![1; length], vec![0xff; length]];
            for _ in 0..20 {
                tills.push(random.bytes(length));
                let mut till = TillEntries::any(random).file();
                till.resize(length, random.byte());
                tills.push(till);
            }
            for till in tills {
                add("every length of the till", &books, &till, 12, LEAST_SHEET, random.next());
            }
        }
        cases
    }

    fn any(&mut self, random: &mut Random) -> Case {
        let rows = any_rows(random);
        let (class, file, till) = match random.below(100) {
            0..=44 => {
                let (schedule, till) = self.run(random, rows, false);
                ("legal runs", schedule.file(), till)
            }
            45..=69 => {
                let (mut schedule, till) = self.run(random, rows.min(MOST_ROWS - 20), true);
                let threads = usize::from(schedule.sizes.threads);
                for _ in 0..random.below(20) {
                    schedule.push(random.below(threads) as u8, random.pick(&[0, 0, 1, 2, 64, 96, 97]));
                }
                ("legal runs cut by a bad booking", schedule.file(), till)
            }
            70..=74 => {
                let (schedule, _) = self.run(random, rows, false);
                let length = random.below(100);
                ("random bytes as a till", schedule.file(), random.bytes(length))
            }
            75..=84 => {
                let (schedule, till) = self.run(random, rows, false);
                let mut file = schedule.file();
                damage_anyhow(random, &mut file);
                ("damaged files", file, till)
            }
            _ => {
                let (schedule, mut till) = self.run(random, rows, false);
                damage_anyhow(random, &mut till);
                ("damaged tills", schedule.file(), till)
            }
        };
        let needed = 2 * rows_named(&file);
        let journal = match random.below(20) {
            0 => random.below(needed + 1),
            1 => needed.saturating_sub(1),
            2 => needed + random.below(100),
            _ => needed,
        };
        Case { class, file, till, journal, sheet: any_sheet(random), fill: random.next() }
    }
}

/// The balances that a sheet shows.
fn printed_balances(sheet: &str) -> Option<Vec<i32>> {
    let rooms = sheet.lines().filter_map(|line| line.strip_prefix("room "));
    let balance = |(number, line): (usize, &str)| {
        let (room, balance) = line.split_once(' ')?;
        (room.parse() == Ok(number)).then_some(balance.parse().ok()?)
    };
    rooms.enumerate().map(balance).collect()
}

/// A sheet as the claims need it: both locks, the first one's lines, the balances and
/// the last row's kind.
struct Shown {
    locks: [Printed; 2],
    first_lines: String,
    balances: Vec<i32>,
    kind: u8,
}

/// The sheet after the rows of the schedule; none where not all are taken.
fn shown(credit: CreditSheet, schedule: &Schedule, till: &[u8]) -> Option<Result<Shown, String>> {
    let rows = schedule.threads.len();
    let (mut journal, mut page) = (vec![0; 2 * rows], [0; LEAST_SHEET]);
    let length = credit(&schedule.file(), till, &mut journal, &mut page);
    let text = String::from_utf8_lossy(page.get(..length)?).into_owned();
    let kind = rows.checked_sub(1).map_or(0, |last| journal[last]);
    let read = || {
        let locks = printed_locks(&text, schedule.sizes)?;
        let first_lines = lock_lines(&text)?[0].to_string();
        Some(Shown { locks, first_lines, balances: printed_balances(&text)?, kind })
    };
    text.starts_with("answer 0 ").then(|| read().ok_or_else(|| format!("no sheet:\n{text}")))
}

/// Checks the claims on an implementation's own sheets and journals, one of each after
/// every row of short random runs. Returns how many bookings there were, or the first
/// claim that does not hold. A row that is refused ends its run; the comparison finds
/// that.
pub fn check(credit: CreditSheet, count: u64, seed: u64) -> Result<u64, String> {
    let mut random = Random::new(seed);
    let mut booked = 0;
    for _ in 0..count {
        let mut sizes = any_sizes(&mut random);
        sizes.threads = sizes.threads.min(4);
        let (till, manner) = (TillEntries::any(&mut random), any_manner(&mut random, sizes));
        let file = till.file();
        let mut schedule = Schedule::new(sizes.nodes, sizes.fan_out, sizes.threads);
        let mut first = schedule.clone();
        let mut ledger = Ledger::new(&till);
        let Some(mut state) = shown(credit, &schedule, &file).transpose()? else { continue };
        let mut thread = 0;
        for _ in 0..random.between(10, 60) {
            let asleep = state.locks.iter().any(|lock| lock.standing(thread) == Standing::Asleep);
            if asleep || !random.chance(85) {
                thread = random.below(usize::from(sizes.threads)) as u8;
            }
            let standings = [0, 1].map(|lock: usize| state.locks[lock].standing(thread));
            let entries = till.entries.len();
            let order = any_order(&mut random, sizes.nodes, (&manner, 85), standings, entries);
            schedule.push(thread, order);
            let Some(after) = shown(credit, &schedule, &file).transpose()? else { break };
            // A booking "is a row of the first lock".
            let rests_at_second = !matches!(standings[1], Standing::Calling | Standing::Asleep);
            if order < Which::Second.order() && (order != order::GO_ON || rests_at_second) {
                first.push(thread, order);
            }
            let row = ledger.row(thread, order, after.kind, &after.balances, &after.locks[0]);
            if let Err(broken) = row {
                return Err(format!("{broken}\nfile {:02x?}\ntill {file:02x?}", schedule.file()));
            }
            booked += u64::from((kind::BOOKED..=kind::DENIED).contains(&after.kind));
            state = after;
        }
        // Request Ten: "take away every row that belongs to one lock".
        let alone = shown(credit, &first, &file).transpose()?;
        let same = |alone: Shown| alone.first_lines == state.first_lines && alone.balances == state.balances;
        if !alone.is_some_and(same) {
            let broken = "without the second lock's rows the first lock or a balance is another";
            return Err(format!("{broken}\nfile {:02x?}\ntill {file:02x?}", schedule.file()));
        }
    }
    Ok(booked)
}

#[cfg(test)]
mod tests {
    use super::*;
    use crate::credit::credit_sheet;

    #[test]
    fn claims_hold_on_the_sheets() {
        let booked = check(credit_sheet, 2_000, 9).unwrap();
        assert!(booked > 5_000, "{booked}");
    }

    /// A lock whose thread 0 writes, and another one perhaps holds.
    fn written(other: &str) -> Printed {
        let lines = format!("root 0 0 closed\nqueue free 0 0\nthread 0 writing - 0\nthread 1 {other} - 0\n");
        Printed::new(&lines).unwrap()
    }

    #[test]
    fn wrong_bookings_are_seen() {
        let till = TillEntries::new(2, &[(0, 5), (0, -6), (1, 0)]);
        let alone = written("idle");
        let book = |ledger: &mut Ledger, entry: u8, kind, balances: &[i32]| {
            ledger.row(0, BOOK + entry, kind, balances, &alone)
        };
        let mut ledger = Ledger::new(&till);
        assert!(book(&mut ledger, 0, kind::BOOKED, &[5, 0]).is_ok());
        assert!(book(&mut ledger, 1, kind::DENIED, &[5, 0]).is_ok());
        assert!(book(&mut ledger, 0, kind::REPEATED, &[5, 0]).is_ok());
        assert!(book(&mut ledger, 2, kind::BOOKED, &[5, 0]).is_ok());
        // Booked twice; denied and repeated though it is not; not the sum.
        assert!(book(&mut ledger, 0, kind::BOOKED, &[10, 0]).is_err());
        assert!(book(&mut ledger, 0, kind::DENIED, &[5, 0]).is_err());
        assert!(book(&mut ledger, 1, kind::REPEATED, &[5, 0]).is_err());
        assert!(book(&mut ledger, 0, kind::REPEATED, &[4, 0]).is_err());
        assert!(book(&mut ledger, 0, kind::REPEATED, &[0, 5]).is_err());
        assert!(book(&mut ledger, 0, kind::REPEATED, &[5]).is_err());
        assert!(book(&mut ledger, 3, kind::BOOKED, &[5, 0]).is_err());
        assert!(book(&mut ledger, 1, kind::BOOKED, &[-1, 0]).is_err());
    }

    #[test]
    fn bookings_of_others_are_seen() {
        let till = TillEntries::new(1, &[(0, 5)]);
        let book = |thread, lock: Printed| Ledger::new(&till).row(thread, BOOK, kind::BOOKED, &[5], &lock);
        assert!(book(0, written("idle")).is_ok() && book(0, written("asleep")).is_ok());
        assert!(book(0, written("reading")).is_err() && book(0, written("writing")).is_err());
        assert!(book(1, written("idle")).is_err() && book(1, written("calling")).is_err());
    }

    #[test]
    fn balances_are_read() {
        assert_eq!(printed_balances("answer 0 at 0\nroom 0 5\nroom 1 70000\n"), Some(vec![5, 70_000]));
        assert_eq!(printed_balances("room 0 -5\n"), Some(vec![-5]));
        assert_eq!(printed_balances("room 1 5\n"), None);
        assert_eq!(printed_balances("room 0 x\n"), None);
    }
}
