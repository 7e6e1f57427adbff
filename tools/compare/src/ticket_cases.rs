//! The files of the ticket lock's cases, which rows they reach, and the claims of
//! request Eleven on every state of their runs.

use std::collections::VecDeque;

use crate::cases::{Files, Named, Reached, Rows};
use crate::differ::TicketSheet;
use crate::known::Known;
use crate::known_tickets;
use crate::machine::{LEAST_SHEET, MOST_ROWS, MOST_THREADS};
use crate::random::Random;
use crate::schedule::rows_of;
use crate::tally::{events, Tally};
use crate::ticket::{order, Head, Standing, TicketLock};

events! {
    Taken = "ticket taken, the lock free",
    TakenBehind = "ticket taken, one other thread waiting or holding",
    TakenFar = "ticket taken, several others waiting or holding",
    TakenLast = "ticket taken by the last of 64 threads",
    TakenWrap = "ticket 65,535 taken, the next is 0",
    Held = "compared, holds",
    HeldWrap = "compared, holds with ticket 0 behind 65,535",
    VainNear = "compared in vain, near",
    VainFar = "compared in vain, far",
    Released = "released, nobody waits",
    ReleasedTo = "released, someone waits",
    ReleasedWrap = "released with grant 65,535, which is then 0",
    NearNext = "state with a waiter whose ticket is the grant",
    NearOne = "state with a waiter whose ticket is 1 past the grant",
    FarTwo = "state with a waiter whose ticket is 2 past the grant",
    FarWrap = "state with a waiter whose ticket is far past the grant round the wrap",
    Farthest = "state with a waiter whose ticket is 63 past the grant",

    RefusedThread = "refusal 5",
    RefusedOrder = "refusal 6",
    CompareIdle = "refusal 7: compare, idle",
    CompareHolding = "refusal 7: compare, holding",
    TakeWaiting = "refusal 7: take, waiting",
    TakeHolding = "refusal 7: take, holding",
    ReleaseIdle = "refusal 7: release, idle",
    ReleaseWaiting = "refusal 7: release, waiting",
}

/// A tally of the ticket lock's rows.
pub fn tally() -> Tally {
    Tally::new(Event::NAMES, Vec::new())
}

/// The rows of a file of the ticket lock.
#[derive(Clone)]
pub struct TicketRows {
    head: Head,
    numbers: Vec<u8>,
    orders: Vec<u8>,
}

impl TicketRows {
    pub fn new(head: Head) -> TicketRows {
        TicketRows { head, numbers: Vec::new(), orders: Vec::new() }
    }

    /// Adds rows in document 01's notation.
    pub fn rows(mut self, text: &str) -> TicketRows {
        rows_of(text).for_each(|(thread, order)| self.push(thread, order));
        self
    }
}

impl Rows for TicketRows {
    fn threads(&self) -> u8 {
        self.head.threads
    }

    fn push(&mut self, thread: u8, order: u8) {
        self.numbers.push(thread);
        self.orders.push(order);
    }

    /// "T, then S and a start number in two bytes each, low byte first, then thread
    /// numbers and orders"
    fn file(&self) -> Vec<u8> {
        let rows = u16::try_from(self.numbers.len()).expect("S has two bytes");
        let mut file = vec![self.head.threads];
        file.extend(rows.to_le_bytes());
        file.extend(self.head.start.to_le_bytes());
        file.extend(&self.numbers);
        file.extend(&self.orders);
        file
    }
}

/// What the claims speak of in a state, as the sheet shows it.
struct Shown {
    ticket: u16,
    grant: u16,
    /// Each thread's standing: none where it is idle, else whether it holds.
    holding: Vec<Option<bool>>,
}

/// Follows one run: "at most one thread holds", "threads come to hold in the order
/// in which they took tickets", and the tickets taken and not yet released are those
/// from the grant on.
struct Follower {
    /// Who has taken a ticket and not yet held, in the order of the tickets.
    waiting: VecDeque<u8>,
    rows: usize,
}

impl Follower {
    fn new() -> Follower {
        Follower { waiting: VecDeque::new(), rows: 0 }
    }

    /// Takes in a row that was taken and the state after it.
    fn row(&mut self, thread: u8, order: u8, state: &Shown) -> Result<(), String> {
        self.rows += 1;
        let broken = |what: &str| Err(format!("after {} rows: {what}", self.rows));
        let holders = state.holding.iter().filter(|holding| **holding == Some(true)).count();
        if holders > 1 {
            return broken("two threads hold");
        }
        let outstanding = state.holding.iter().flatten().count();
        if usize::from(state.ticket.wrapping_sub(state.grant)) != outstanding {
            return broken("the tickets from the grant on are not those of the threads that wait or hold");
        }
        let holds = state.holding[usize::from(thread)] == Some(true);
        match order {
            order::TAKE => self.waiting.push_back(thread),
            order::COMPARE if holds && self.waiting.pop_front() != Some(thread) => {
                return broken("a thread holds before one that took its ticket sooner");
            }
            _ => {}
        }
        Ok(())
    }
}

/// What a sheet of this lock's state shows.
fn shown(lock: &TicketLock) -> Shown {
    let holding = |thread| match lock.standing(thread) {
        Standing::Idle => None,
        standing => Some(standing == Standing::Holding),
    };
    Shown { ticket: lock.ticket(), grant: lock.grant(), holding: (0..lock.threads()).map(holding).collect() }
}

/// How far each ticket that was taken and not yet released is past the grant; the
/// holder's is the grant. The sheet does not show them.
fn distances(lock: &TicketLock) -> impl Iterator<Item = u16> + '_ {
    (0..lock.threads()).filter_map(|thread| match lock.standing(thread) {
        Standing::Idle => None,
        Standing::Waiting { ticket } => Some(lock.distance(ticket)),
        Standing::Holding => Some(0),
    })
}

/// Whether they are distinct and below 64.
fn distinct_and_near(mut distances: impl Iterator<Item = u16>) -> bool {
    let mut seen = [false; MOST_THREADS];
    distances.all(|distance| match seen.get_mut(usize::from(distance)) {
        Some(seen) => !std::mem::replace(seen, true),
        None => false,
    })
}

/// The events of a row that suits its thread and of the state after it.
fn taken_events(before: &TicketLock, after: &TicketLock, thread: u8, order: u8) -> Vec<Event> {
    let outstanding = before.ticket().wrapping_sub(before.grant());
    let mut events = Vec::new();
    match (order, before.standing(thread)) {
        (order::TAKE, _) => {
            events.push(match outstanding {
                0 => Event::Taken,
                1 => Event::TakenBehind,
                63 => Event::TakenLast,
                _ => Event::TakenFar,
            });
            events.extend((before.ticket() == u16::MAX).then_some(Event::TakenWrap));
        }
        (order::COMPARE, Standing::Waiting { ticket }) => {
            events.push(match before.distance(ticket) {
                0 => Event::Held,
                1 => Event::VainNear,
                _ => Event::VainFar,
            });
            let wrapped = after.standing(thread) == Standing::Holding && ticket == 0;
            events.extend(wrapped.then_some(Event::HeldWrap));
        }
        _ => {
            events.push(if outstanding > 1 { Event::ReleasedTo } else { Event::Released });
            events.extend((before.grant() == u16::MAX).then_some(Event::ReleasedWrap));
        }
    }
    for thread in 0..after.threads() {
        let Standing::Waiting { ticket } = after.standing(thread) else { continue };
        match after.distance(ticket) {
            0 => events.push(Event::NearNext),
            1 => events.push(Event::NearOne),
            2 => events.push(Event::FarTwo),
            63 => events.push(Event::Farthest),
            _ => {}
        }
        if after.distance(ticket) > 1 && ticket < after.grant() {
            events.push(Event::FarWrap);
        }
    }
    events
}

/// The event of a refused row.
fn refused_event(lock: &TicketLock, thread: u8, order: u8) -> Event {
    if thread >= lock.threads() {
        return Event::RefusedThread;
    }
    match (order, lock.standing(thread)) {
        (order::COMPARE, Standing::Idle) => Event::CompareIdle,
        (order::COMPARE, _) => Event::CompareHolding,
        (order::TAKE, Standing::Holding) => Event::TakeHolding,
        (order::TAKE, _) => Event::TakeWaiting,
        (order::RELEASE, Standing::Idle) => Event::ReleaseIdle,
        (order::RELEASE, _) => Event::ReleaseWaiting,
        _ => Event::RefusedOrder,
    }
}

/// Any number of threads and any start number, the limits more often.
fn any_head(random: &mut Random) -> Head {
    let threads = match random.below(4) {
        0 => random.between(1, 3),
        1 => MOST_THREADS,
        _ => random.between(1, MOST_THREADS),
    };
    let start = match random.below(4) {
        0 => random.next() as u16,
        1 => random.below(4) as u16,
        _ => u16::MAX - random.below(200) as u16,
    };
    Head { threads: threads as u8, start }
}

/// An order that suits a thread of this standing.
fn suiting_order(standing: Option<bool>) -> u8 {
    match standing {
        None => order::TAKE,
        Some(false) => order::COMPARE,
        Some(true) => order::RELEASE,
    }
}

/// How a driven run chooses its rows, in percent: rows that go to a thread with the
/// ticket of the grant, and rows of the holder that release.
pub struct Manner {
    pub granted: usize,
    pub releasing: usize,
}

impl Manner {
    fn any(random: &mut Random) -> Manner {
        Manner { granted: random.pick(&[0, 10, 40, 80]), releasing: random.pick(&[5, 30, 100]) }
    }

    /// The next thread to move.
    fn next(&self, random: &mut Random, lock: &TicketLock) -> u8 {
        let threads = lock.threads();
        let granted = |thread: &u8| match lock.standing(*thread) {
            Standing::Idle => false,
            Standing::Waiting { ticket } => ticket == lock.grant(),
            Standing::Holding => true,
        };
        let next = (0..threads).find(granted).filter(|_| random.chance(self.granted));
        let thread = next.unwrap_or_else(|| random.below(usize::from(threads)) as u8);
        // Others take tickets while one holds.
        let kept = lock.standing(thread) == Standing::Holding && !random.chance(self.releasing);
        match (0..threads).find(|other| lock.standing(*other) == Standing::Idle) {
            Some(other) if kept => other,
            _ => thread,
        }
    }
}

/// Drives the ticket lock through `rows` rows from the start number. Returns the
/// rows and the state they end in, or the first claim that did not hold.
pub fn drive(
    random: &mut Random,
    head: Head,
    rows: usize,
    manner: &Manner,
    reached: &mut Tally,
) -> Result<(TicketRows, TicketLock), String> {
    let mut run = TicketRows::new(head);
    let mut lock = TicketLock::fresh(head);
    let mut follower = Follower::new();
    for _ in 0..rows {
        let thread = manner.next(random, &lock);
        let order = suiting_order(shown(&lock).holding[usize::from(thread)]);
        let mut after = lock.clone();
        after.row(thread, order).expect("the order suits its thread");
        taken_events(&lock, &after, thread, order).iter().for_each(|event| reached.count(*event as usize));
        lock = after;
        run.push(thread, order);
        follower.row(thread, order, &shown(&lock))?;
        if !distinct_and_near(distances(&lock)) {
            return Err("two tickets are equal, or one is 64 or more past the grant".to_string());
        }
    }
    Ok((run, lock))
}

/// A row that is refused with 5, 6 or 7 in this state.
fn bad_row(random: &mut Random, lock: &TicketLock) -> (u8, u8) {
    let threads = usize::from(lock.threads());
    let thread = random.below(threads) as u8;
    match random.below(8) {
        0 => (random.between(threads, 255) as u8, random.byte()),
        1 => (thread, random.between(3, 255) as u8),
        _ => {
            let orders = match lock.standing(thread) {
                Standing::Idle => [order::COMPARE, order::RELEASE],
                Standing::Waiting { .. } => [order::TAKE, order::RELEASE],
                Standing::Holding => [order::COMPARE, order::TAKE],
            };
            (thread, random.pick(&orders))
        }
    }
}

/// The files on both sides of every limit.
pub fn edge_files(reached: &mut Tally) -> Vec<Named> {
    let mut random = Random::new(1);
    let manner = Manner { granted: 30, releasing: 50 };
    let mut run = |rows| {
        let head = Head { threads: 64, start: 65_500 };
        let (run, _) = drive(&mut random, head, rows, &manner, reached).expect("the claims hold");
        run.file()
    };
    let with = |file: &[u8], place: usize, value: u8| {
        let mut file = file.to_vec();
        file[place] = value;
        file
    };
    let (sized, largest, too_large) = (run(60), run(MOST_ROWS), run(MOST_ROWS + 1));
    let rows = |threads, start, text: &str| TicketRows::new(Head { threads, start }).rows(text).file();
    let takes: String = (0..64).map(|thread| format!("{thread}:1 ")).collect();
    vec![
        ("edge-t-0", with(&sized, 0, 0)),
        ("edge-t-1", rows(1, 7, "0:1,0,2,1,0,2")),
        ("edge-t-64", with(&sized, 0, 64)),
        ("edge-t-65", with(&sized, 0, 65)),
        ("edge-s-4096", largest),
        ("edge-s-4097", too_large),
        ("edge-start-0", rows(2, 0, "0:1 1:1 0:0,2")),
        ("edge-start-255", rows(2, 255, "0:1 1:1 0:0,2")),
        ("edge-start-256", rows(2, 256, "0:1 1:1 0:0,2")),
        ("edge-start-32767", rows(3, 32_767, "0:1 1:1 2:1 0:0,2")),
        ("edge-start-65535", rows(2, 65_535, "0:1 1:1 0:0,2")),
        ("edge-all-wait", rows(64, 0, &takes)),
        ("edge-all-wait-round-the-wrap", rows(64, 65_510, &takes)),
        ("edge-order-3", rows(1, 0, "0:3")),
        ("edge-order-255", rows(1, 0, "0:255")),
        ("edge-thread-63", rows(64, 0, "63:1")),
        ("edge-thread-64", rows(64, 0, "64:1")),
        ("edge-thread-before-order", rows(1, 0, "1:3")),
        ("edge-order-before-suiting", rows(1, 0, "0:1,3")),
    ]
}

/// Makes files for the ticket lock and counts the rows they reach.
pub struct TicketCases {
    reached: Tally,
    broken: Option<String>,
}

impl TicketCases {
    pub fn new() -> TicketCases {
        TicketCases { reached: tally(), broken: None }
    }

    /// A driven run of any manner. Where a claim does not hold, it is noted, and the
    /// run has no rows.
    fn run(&mut self, random: &mut Random, rows: usize) -> (TicketRows, TicketLock) {
        let (head, manner) = (any_head(random), Manner::any(random));
        drive(random, head, rows, &manner, &mut self.reached).unwrap_or_else(|broken| {
            self.broken.get_or_insert(broken);
            (TicketRows::new(head), TicketLock::fresh(head))
        })
    }
}

impl Reached for TicketCases {
    fn name(&self) -> &'static str {
        "The ticket lock"
    }

    fn reached(&self) -> Vec<(&'static str, &Tally)> {
        vec![("Row", &self.reached)]
    }

    fn broken(&self) -> Option<&str> {
        self.broken.as_deref()
    }
}

impl Files for TicketCases {
    type Run = TicketRows;

    fn known(&self) -> Vec<Known> {
        known_tickets::all()
    }

    fn edges(&mut self) -> Vec<Named> {
        edge_files(&mut self.reached)
    }

    fn every_order(&self) -> Vec<Vec<u8>> {
        let mut files = Vec::new();
        for run in ["", "0:1", "0:1,0", "1:1 0:1", "1:1 0:1 1:0"] {
            for order in 0..=255 {
                let mut rows = TicketRows::new(Head { threads: 2, start: 65_535 }).rows(run);
                rows.push(0, order);
                files.push(rows.rows("0:0 1:1").file());
            }
        }
        files
    }

    fn legal(&mut self, random: &mut Random, rows: usize) -> Vec<u8> {
        self.run(random, rows).0.file()
    }

    fn refused(&mut self, random: &mut Random, rows: usize) -> TicketRows {
        let (mut run, mut lock) = self.run(random, rows);
        let (thread, order) = bad_row(random, &lock);
        self.reached.count(refused_event(&lock, thread, order) as usize);
        lock.row(thread, order).expect_err("the row is bad");
        run.push(thread, order);
        run
    }

    fn empty(&self, random: &mut Random) -> TicketRows {
        TicketRows::new(any_head(random))
    }

    fn orders(&self) -> &'static [u8] {
        &[0, 0, 1, 1, 2]
    }

    fn enough_journal(&self, _: &[u8]) -> usize {
        0
    }

    fn journals(&self, _: &[u8]) -> Vec<usize> {
        vec![0]
    }

    fn any_journal(&self, _: &mut Random, _: &[u8]) -> usize {
        0
    }
}

/// The state that a sheet shows.
fn printed(sheet: &str, threads: u8) -> Option<Shown> {
    let field = |title: &str| sheet.lines().find_map(|line| line.strip_prefix(title));
    let standings = sheet.lines().filter_map(|line| line.strip_prefix("thread "));
    let holding = standings.map(|line| match line.split(' ').nth(1)? {
        "idle" => Some(None),
        "near" | "far" => Some(Some(false)),
        "holding" => Some(Some(true)),
        _ => None,
    });
    let shown = Shown {
        ticket: field("ticket ")?.parse().ok()?,
        grant: field("grant ")?.parse().ok()?,
        holding: holding.collect::<Option<_>>()?,
    };
    (shown.holding.len() == usize::from(threads)).then_some(shown)
}

/// What the sheet after these rows shows; none where not all are taken.
fn shown_by(ticket: TicketSheet, run: &TicketRows) -> Option<Result<Shown, String>> {
    let mut page = [0; LEAST_SHEET];
    let length = ticket(&run.file(), &mut page);
    let text = String::from_utf8_lossy(page.get(..length)?).into_owned();
    let read = || printed(&text, run.threads()).ok_or_else(|| format!("no sheet:\n{text}"));
    text.starts_with("answer 0 ").then(read)
}

/// Checks the claims on an implementation's own sheets, one after every row of short
/// random runs. Returns how many sheets were looked at, or the first claim that does
/// not hold. A row that is refused ends its run; the comparison finds that.
pub fn check(ticket: TicketSheet, count: u64, seed: u64) -> Result<u64, String> {
    let mut random = Random::new(seed);
    let mut looked = 0;
    for _ in 0..count {
        let Head { threads, start } = any_head(&mut random);
        let threads = threads.min(6);
        let start = if random.chance(70) { u16::MAX - random.below(6) as u16 } else { start };
        let mut run = TicketRows::new(Head { threads, start });
        let mut follower = Follower::new();
        let Some(mut state) = shown_by(ticket, &run).transpose()? else { continue };
        for _ in 0..random.between(10, 40) {
            let thread = random.below(usize::from(threads)) as u8;
            let order = suiting_order(state.holding[usize::from(thread)]);
            run.push(thread, order);
            let Some(after) = shown_by(ticket, &run).transpose()? else { break };
            state = after;
            looked += 1;
            if let Err(broken) = follower.row(thread, order, &state) {
                return Err(format!("{broken}\nfile {:02x?}", run.file()));
            }
        }
    }
    Ok(looked)
}

#[cfg(test)]
mod tests {
    use super::*;
    use crate::ticket::ticket_sheet;

    #[test]
    fn claims_hold_on_the_sheets() {
        assert!(check(ticket_sheet, 3_000, 9).unwrap() > 30_000);
    }

    /// Threads hold in the order of their tickets, round the wrap too.
    #[test]
    fn wrong_order_is_seen() {
        let state =
            |holding: [Option<bool>; 2]| Shown { ticket: 1, grant: 65_535, holding: holding.to_vec() };
        let mut follower = Follower::new();
        follower.waiting = VecDeque::from([1, 0]);
        assert!(follower.row(0, order::COMPARE, &state([Some(true), Some(false)])).is_err());
        let mut follower = Follower::new();
        follower.waiting = VecDeque::from([1, 0]);
        assert!(follower.row(1, order::COMPARE, &state([Some(false), Some(true)])).is_ok());
        assert!(follower.row(0, order::COMPARE, &state([Some(true), Some(true)])).is_err());
        assert!(follower.row(0, order::COMPARE, &state([None, Some(true)])).is_err());
    }

    #[test]
    fn equal_and_distant_tickets_are_seen() {
        let hold = |distances: &[u16]| distinct_and_near(distances.iter().copied());
        assert!(hold(&[]) && hold(&[2, 0, 63]));
        assert!(!hold(&[2, 0, 2]) && !hold(&[0, 64]) && !hold(&[65_535]));

        let mut lock = TicketLock::fresh(Head { threads: 3, start: 65_535 });
        for (thread, order) in [(2, 1), (1, 1), (2, 0), (0, 1)] {
            lock.row(thread, order).unwrap();
        }
        assert_eq!(distances(&lock).collect::<Vec<_>>(), [2, 1, 0]);
    }
}
