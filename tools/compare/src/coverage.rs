//! Counts which steps of documents 01 and 02 the generated schedules reach, for
//! each of the two locks.

use crate::locking::{Claims, Watch};
use crate::machine::{
    kind, order, Bench, Call, Departure, Entry, Leaver, Lock, Phase, Sizes, Waiters, Which, Word,
    MOST_THREADS,
};
use crate::tally::{events, Tally};
use crate::two_locks::{self, Pair};

events! {
    ReadLockBegun = "read-lock begun",
    WriteLockBegun = "write-lock begun",
    ReaderUnlockBegun = "reader's unlock begun",
    WriterUnlockBegun = "writer's unlock begun",
    SleeperHeldUp = "sleeper held up",

    LookOpenRoot = "look: open, straight to the root",
    LookOpenTree = "look: open, to the tree",
    LookClosed = "look: closed, to the queue",
    DirectDone = "direct swap of the root done",
    DirectFailedOpen = "direct swap of the root failed, found open",
    DirectFailedClosed = "direct swap of the root failed, found closed, to the queue",

    UpReadZero = "way up: node read as 0",
    UpReadAbove = "way up: node read above 0",
    UpDoneTicket = "way up: swap done at the ticket's node",
    UpDoneAbove = "way up: swap done above it",
    UpFailedZero = "way up: swap failed at a node, found 0, climbs on",
    UpFailedAbove = "way up: swap failed at a node, found above 0",
    RootReadOpen = "way up: root read, open",
    RootReadLate = "way up: root read, closed with a surplus",
    RootReadRefused = "way up: root read as (0, closed), to the queue",
    RootDoneOpen = "way up: root swap done, open",
    RootDoneLate = "way up: root swap done, closed (late arrival)",
    RootFailedOpen = "way up: root swap failed, found open",
    RootFailedLate = "way up: root swap failed, found closed with a surplus",
    RootFailedRefused = "way up: root swap failed, found (0, closed), to the queue",

    DownDoneTicket = "way down: first swap done at the ticket's node",
    DownDoneAbove = "way down: first swap done above it",
    DownFailed = "way down: first swap failed, found above 0",
    DownAgainZeroTicket = "way down: later swap done from 0 at the ticket's node",
    DownAgainZeroAbove = "way down: later swap done from 0 above it",
    DownAgainOwed = "way down: later swap done from above 0, departure owed",
    DownAgainFailedZero = "way down: later swap failed, found 0",
    DownAgainFailedAbove = "way down: later swap failed, found above 0",

    OwedReadNode = "owed departure: node read",
    OwedReadRoot = "owed departure: root read",
    OwedDoneTicket = "owed departure: swap done, call ended",
    OwedDoneAbove = "owed departure: swap done, goes on down",
    OwedFailedNode = "owed departure: swap failed at a node",
    OwedFailedRoot = "owed departure: swap failed at the root",
    OwedFromOne = "owed departure: swap done from 1 at a node",
    OwedLast = "owed departure: root left as (0, closed)",

    DepartReadNode = "departure: node read",
    DepartReadRoot = "departure: root read",
    DepartDoneNode = "departure: swap done at a node, ended",
    DepartFromOne = "departure: swap done from 1, on to the parent",
    DepartDoneRoot = "departure: root swap done, not the last",
    DepartLast = "departure: root swap done, the last",
    DepartFailedNode = "departure: swap failed at a node",
    DepartFailedOpen = "departure: swap failed at the root, found open",
    DepartFailedClosed = "departure: swap failed at the root, found closed",

    UpgradeBegunDirect = "upgrade begun with ticket 0",
    UpgradeBegunNode = "upgrade begun with a node's ticket",
    TradeReadOpen = "upgrade: root read to arrive directly, open",
    TradeReadClosed = "upgrade: root read to arrive directly, closed",
    TradeDoneOpen = "upgrade: arrived directly, open",
    TradeDoneClosed = "upgrade: arrived directly, closed",
    TradeFailed = "upgrade: direct arrival's swap failed",
    TradeDepartReadNode = "upgrade: departure, node read",
    TradeDepartReadRoot = "upgrade: departure, root read",
    TradeDepartDoneNode = "upgrade: departure, swap done at a node, ended",
    TradeDepartFromOne = "upgrade: departure, swap done from 1, on to the parent",
    TradeDepartDoneRoot = "upgrade: departure, root swap done",
    TradeDepartLast = "upgrade: departure, root left as (0, closed)",
    TradeDepartFailedNode = "upgrade: departure, swap failed at a node",
    TradeDepartFailedRoot = "upgrade: departure, swap failed at the root",
    UpgradeReadOpen = "upgrade: root read as (1, 0, open)",
    UpgradeReadClosed = "upgrade: root read as (1, 0, closed)",
    UpgradeDeniedDirect = "upgrade: denied, direct above 1, tree 0",
    UpgradeDeniedTree = "upgrade: denied, direct 1, tree above 0",
    UpgradeDeniedBoth = "upgrade: denied, direct above 1, tree above 0",
    UpgradeDoneOpen = "upgrade: granted at open",
    UpgradeDoneClosed = "upgrade: granted at closed, past a queued writer",
    UpgradeFailedDenied = "upgrade: swap failed, denied by the word found",
    UpgradeFailedGoesOn = "upgrade: swap failed, found (1, 0) in the other state",

    ReaderMutexTaken = "reader's queue: mutex taken",
    ReaderMutexHeldUp = "reader's queue: held up",
    ReaderFoundOpen = "reader's queue: root read, open",
    ReaderFoundClosed = "reader's queue: root read, closed",
    ReaderLooksAgain = "reader's queue: released, looks again",
    ReaderStartsGroup = "reader's queue: starts the group",
    ReaderStartsGroupBehind = "reader's queue: starts the group behind a writer",
    ReaderJoinsGroup = "reader's queue: joins the group",
    ReaderJoinsGroupBehind = "reader's queue: joins the group behind a writer who came after it began",
    Sleeps = "mutex released, sleep begun",

    WriterFoundFree = "write-lock: first read (0, open)",
    WriterFoundReaders = "write-lock: first read open with a surplus",
    WriterFoundClosed = "write-lock: first read closed",
    WriterSwapDone = "write-lock: first swap done",
    WriterSwapFailedReaders = "write-lock: first swap failed, found open with a surplus",
    WriterSwapFailedClosed = "write-lock: first swap failed, found closed",
    WriterMutexTaken = "write-lock: mutex taken",
    WriterMutexHeldUp = "write-lock: held up",
    WriterReadOpenFree = "write-lock: under the mutex (0, open)",
    WriterReadOpenReaders = "write-lock: under the mutex open with a surplus",
    WriterReadClosed = "write-lock: under the mutex closed",
    WriterClosedFree = "write-lock: closing swap done from 0",
    WriterClosedReaders = "write-lock: closing swap done, surplus kept",
    WriterCloseFailedFree = "write-lock: closing swap failed, found (0, open)",
    WriterCloseFailedReaders = "write-lock: closing swap failed, found open with a surplus",
    WriterCloseFailedClosed = "write-lock: closing swap failed, found closed",
    WriterHolds = "write-lock: released, holds",
    WriterJoins = "write-lock: joins the queue",

    LeaverMutexTaken = "writer's unlock: mutex taken",
    LeaverMutexHeldUp = "writer's unlock: held up",
    LeaverFoundNone = "writer's unlock: no group",
    LeaverTookReadersAlone = "writer's unlock: readers, no writer queued",
    LeaverTookReadersBefore = "writer's unlock: readers, writers queued behind them",
    LeaverPassedOverWriter = "writer's unlock: readers, a writer queued who came before them",
    LeaverTookWriter = "writer's unlock: the one writer",
    LeaverTookWriterOfSeveral = "writer's unlock: the longest-waiting of several writers",
    StoredOpen = "writer's unlock: (0, open) stored",
    ReleasedIdle = "writer's unlock: released, idle",
    LastMutexTaken = "last reader: mutex taken",
    LastMutexHeldUp = "last reader: held up",
    LastTookWriter = "last reader: the one writer, no reader queued",
    LastTookWriterOfSeveral = "last reader: the longest-waiting of several writers, no reader queued",
    LastTookWriterNotReaders = "last reader: the one writer, readers queued too",
    LastTookWriterOfSeveralNotReaders = "last reader: the longest-waiting of several writers, readers queued too",
    StoredReadersOpen = "hand-over: (size, open) stored",
    StoredReadersClosed = "hand-over: (size, closed) stored",
    ReleasedBeforeWake = "hand-over: released",
    WokeOneReader = "hand-over: one reader woken",
    WokeReaders = "hand-over: several readers woken",
    WokeWriter = "hand-over: a writer woken",

    DowngradeBegun = "downgrade begun",
    DowngradeMutexTaken = "downgrade: mutex taken",
    DowngradeMutexHeldUp = "downgrade: held up",
    DowngradeFoundNone = "downgrade: nobody queued",
    DowngradeFoundWriters = "downgrade: writers queued, no readers",
    DowngradeTookReaders = "downgrade: readers taken, no writer queued",
    DowngradeTookReadersBefore = "downgrade: readers taken, writers queued",
    DowngradeStoredAloneOpen = "downgrade: (1, open) stored",
    DowngradeStoredAloneClosed = "downgrade: (1, closed) stored",
    DowngradeStoredOpen = "downgrade: (1 + size, open) stored",
    DowngradeStoredClosed = "downgrade: (1 + size, closed) stored",
    DowngradeReads = "downgrade: released, reads",
    DowngradeReleased = "downgrade: released before it wakes",
    DowngradeWokeOne = "downgrade: one reader woken, reads",
    DowngradeWoke = "downgrade: several readers woken, reads",

    RefusedThread = "refusal 5",
    RefusedGoOn = "refusal 6: order 128 alone",
    RefusedOrderLow = "refusal 6: order 5 to 63",
    RefusedOrderNode = "refusal 6: node N or more",
    RefusedOrderHigh = "refusal 6: order 96 or more",
    GoOnIdle = "refusal 7: go on, idle",
    GoOnReading = "refusal 7: go on, reading",
    GoOnWriting = "refusal 7: go on, writing",
    WriteLockReading = "refusal 7: write-lock, reading",
    WriteLockWriting = "refusal 7: write-lock, writing",
    WriteLockAsleep = "refusal 7: write-lock, asleep",
    WriteLockCalling = "refusal 7: write-lock, calling",
    ReadLockReading = "refusal 7: read-lock, reading",
    ReadLockWriting = "refusal 7: read-lock, writing",
    ReadLockAsleep = "refusal 7: read-lock, asleep",
    ReadLockCalling = "refusal 7: read-lock, calling",
    UnlockIdle = "refusal 7: unlock, idle",
    UnlockAsleep = "refusal 7: unlock, asleep",
    UnlockCalling = "refusal 7: unlock, calling",
    UpgradeIdle = "refusal 7: upgrade, idle",
    UpgradeWriting = "refusal 7: upgrade, writing",
    UpgradeAsleep = "refusal 7: upgrade, asleep",
    UpgradeCalling = "refusal 7: upgrade, calling",
    DowngradeIdle = "refusal 7: downgrade, idle",
    DowngradeReading = "refusal 7: downgrade, reading",
    DowngradeAsleep = "refusal 7: downgrade, asleep",
    DowngradeCalling = "refusal 7: downgrade, calling",
    OrderBeforeBarred = "refusal 6: none of the orders, in a call of the other lock or asleep there",
    BarredCalling = "refusal 7: a new call, in a call of the other lock",
    BarredAsleep = "refusal 7: a new call, asleep in the other lock",
}

/// Events that no run from the fresh lock reaches:
/// - a departure is owed for a node that another thread has raised too; what
///   that one keeps above stays behind, so the owed departure neither takes a
///   node from 1 nor leaves the root as (0, closed);
/// - an upgrade has arrived directly before it departs from its node.
const UNREACHED: &[Event] = &[Event::OwedFromOne, Event::OwedLast, Event::TradeDepartLast];

const KIND_NAMES: &[&str] = &[
    "0 call begun",
    "1 word read",
    "2 swap done",
    "3 swap failed",
    "4 held up",
    "5 plain store",
    "6 mutex taken",
    "7 mutex released",
    "8 queue changed or found empty",
    "9 sleepers woken",
    "10 upgrade denied",
];

/// How often each journal kind and each event was reached at one lock, and the
/// claims that every state of a followed run is checked for.
struct Reached {
    kinds: Tally,
    events: Tally,
    claims: Claims,
}

impl Reached {
    fn new(which: Which) -> Reached {
        let mut unreached: Vec<_> = UNREACHED.iter().map(|event| *event as usize).collect();
        // At the first lock nothing is added, and order 0 goes on.
        if which == Which::First {
            unreached.push(Event::RefusedGoOn as usize);
        }
        Reached {
            kinds: Tally::new(KIND_NAMES, Vec::new()),
            events: Tally::new(Event::NAMES, unreached),
            claims: Claims::new(which),
        }
    }
}

/// What the followed runs reached at both locks.
pub struct Coverage {
    locks: [Reached; 2],
    pairs: Tally,
}

impl Coverage {
    pub fn new() -> Coverage {
        Coverage { locks: Which::BOTH.map(Reached::new), pairs: two_locks::tally() }
    }

    /// Starts to follow one run.
    pub fn trace(&mut self, sizes: Sizes) -> Trace<'_> {
        Trace { coverage: self, follows: [Follow::new(), Follow::new()], pair: Pair::new(sizes) }
    }

    /// Counts a refused row.
    pub fn refused(&mut self, bench: &Bench, thread: u8, order: u8) {
        let known = thread < bench.sizes().threads;
        let which = if known { bench.lock_of(thread, order) } else { Which::named(order) };
        let event = refused_event(bench, which, thread, order);
        self.locks[which as usize].events.count(event as usize);
    }

    /// The tables of one lock, each with its title.
    pub fn tables_of(&self, which: Which) -> Vec<(&'static str, &Tally)> {
        let Reached { kinds, events, claims } = &self.locks[which as usize];
        match which {
            Which::First => vec![("Kind", kinds), ("Step", events), ("Claim", claims.met())],
            Which::Second => vec![
                ("Kind at the second lock", kinds),
                ("Step at the second lock", events),
                ("Claim on the second lock", claims.met()),
            ],
        }
    }

    /// All tables, each with its title.
    pub fn tables(&self) -> Vec<(&'static str, &Tally)> {
        let mut tables = self.tables_of(Which::First);
        tables.extend(self.tables_of(Which::Second));
        tables.push(("Both locks", &self.pairs));
        tables
    }

    /// The first claim that did not hold.
    pub fn broken(&self) -> Option<&str> {
        self.locks.iter().find_map(|lock| lock.claims.broken())
    }
}

/// Follows the rows of one lock.
struct Follow {
    watch: Watch,
    /// The node of the thread's latest step, where that was a failed swap.
    failed: [Option<u8>; MOST_THREADS],
    /// The number of the row in which each thread joined the queue.
    joined: [usize; MOST_THREADS],
    rows: usize,
}

impl Follow {
    fn new() -> Follow {
        Follow { watch: Watch::new(), failed: [None; MOST_THREADS], joined: [0; MOST_THREADS], rows: 0 }
    }

    fn waiting(&self, lock: &Lock) -> Waiting {
        let joined = |thread: u8| self.joined[usize::from(thread)];
        let readers = (0..lock.sizes().threads).filter(|thread| lock.queue().readers() >> thread & 1 == 1);
        let first_reader = readers.map(joined).min();
        let first_writer = lock.queue().writers().next().map(joined);
        let last_writer = lock.queue().writers().next_back().map(joined);
        Waiting {
            readers: first_reader.is_some(),
            writers: lock.queue().writers().count(),
            writer_before: first_reader.zip(first_writer).is_some_and(|(reader, writer)| writer < reader),
            writer_after: first_reader.zip(last_writer).is_some_and(|(reader, writer)| writer > reader),
        }
    }
}

/// Follows one run and counts its rows.
pub struct Trace<'a> {
    coverage: &'a mut Coverage,
    follows: [Follow; 2],
    pair: Pair,
}

impl Trace<'_> {
    /// Runs a row that suits its thread and counts it.
    pub fn row(&mut self, bench: &mut Bench, thread: u8, order: u8) -> Entry {
        let which = bench.lock_of(thread, order);
        let Reached { kinds, events, claims } = &mut self.coverage.locks[which as usize];
        let follow = &mut self.follows[which as usize];
        let lock = bench.lock(which);
        let (before, root, waiting) = (lock.phase(thread), lock.root(), follow.waiting(lock));
        follow.watch.never_refused(claims, lock, thread);

        let entry = bench.row(thread, order).expect("the row suits its thread");
        let lock = bench.lock(which);
        let own = Entry { kind: entry.kind, word: entry.word - which.word() };
        let failed = &mut follow.failed[usize::from(thread)];
        let row = Row {
            before,
            root,
            entry: own,
            after: lock.phase(thread),
            waiting,
            again: *failed == Some(own.word),
        };
        *failed = (own.kind == kind::SWAP_FAILED).then_some(own.word);
        if matches!(before, Phase::ReaderJoin | Phase::WriterJoin) {
            follow.joined[usize::from(thread)] = follow.rows;
        }
        follow.rows += 1;

        follow.watch.row(claims, thread, order.saturating_sub(which.order()), own, lock);
        kinds.count(usize::from(own.kind));
        events.count(taken_event(&row) as usize);
        self.pair.row(&mut self.coverage.pairs, bench, which, thread, order);
        for which in Which::BOTH {
            let claims = &mut self.coverage.locks[which as usize].claims;
            if self.pair.both_have_rows() {
                claims.separated(self.pair.separate(bench, which), &self.follows[which as usize].watch);
            }
        }
        entry
    }
}

/// Who is queued.
#[derive(Clone, Copy)]
struct Waiting {
    readers: bool,
    writers: usize,
    /// A writer came before the first of the readers queued.
    writer_before: bool,
    /// A writer came after the first of the readers queued.
    writer_after: bool,
}

/// One row taken.
struct Row {
    before: Phase,
    /// The root's word before the row.
    root: Word,
    entry: Entry,
    after: Phase,
    /// The queue before the row.
    waiting: Waiting,
    /// The thread's row before this one was a failed swap of the same word.
    again: bool,
}

/// The event of a row taken.
fn taken_event(row: &Row) -> Event {
    let Row { before, root, entry, after, waiting, again } = *row;
    let done = entry.kind == kind::SWAP_DONE;
    let held_up = entry.kind == kind::HELD_UP;
    let ended = matches!(after, Phase::Reading { .. });
    match before {
        Phase::Idle if after == Phase::WriterLook => Event::WriteLockBegun,
        Phase::Idle => Event::ReadLockBegun,
        Phase::Reading { .. } => match after {
            Phase::UpgradeRead => Event::UpgradeBegunDirect,
            Phase::TradeRead { .. } => Event::UpgradeBegunNode,
            _ => Event::ReaderUnlockBegun,
        },
        Phase::Writing if after == (Phase::LeaverTakeMutex { leaver: Leaver::Downgrader }) => {
            Event::DowngradeBegun
        }
        Phase::Writing => Event::WriterUnlockBegun,
        Phase::Asleep => Event::SleeperHeldUp,

        Phase::Look { .. } => match after {
            Phase::RaiseRoot { .. } => Event::LookOpenRoot,
            Phase::ReadUp { .. } => Event::LookOpenTree,
            _ => Event::LookClosed,
        },
        Phase::RaiseRoot { .. } if done => Event::DirectDone,
        Phase::RaiseRoot { .. } if root.closed() => Event::DirectFailedClosed,
        Phase::RaiseRoot { .. } => Event::DirectFailedOpen,

        Phase::ReadUp { node: 0, .. } => match after {
            Phase::RaiseUp { seen, .. } if seen.closed() => Event::RootReadLate,
            Phase::RaiseUp { .. } => Event::RootReadOpen,
            _ => Event::RootReadRefused,
        },
        Phase::ReadUp { .. } => match after {
            Phase::RaiseUp { .. } => Event::UpReadAbove,
            _ => Event::UpReadZero,
        },
        Phase::RaiseUp { node: 0, .. } if !done => match after {
            Phase::RaiseUp { seen, .. } if seen.closed() => Event::RootFailedLate,
            Phase::RaiseUp { .. } => Event::RootFailedOpen,
            _ => Event::RootFailedRefused,
        },
        Phase::RaiseUp { node: 0, seen, .. } if seen.closed() => Event::RootDoneLate,
        Phase::RaiseUp { node: 0, .. } => Event::RootDoneOpen,
        Phase::RaiseUp { .. } if !done => match after {
            Phase::RaiseUp { .. } => Event::UpFailedAbove,
            _ => Event::UpFailedZero,
        },
        Phase::RaiseUp { .. } if ended => Event::UpDoneTicket,
        Phase::RaiseUp { .. } => Event::UpDoneAbove,

        Phase::RaiseDown { .. } if !done => match after {
            _ if !again => Event::DownFailed,
            Phase::RaiseDown { seen, .. } if seen.count() == 0 => Event::DownAgainFailedZero,
            _ => Event::DownAgainFailedAbove,
        },
        Phase::RaiseDown { seen, .. } if seen.count() > 0 => Event::DownAgainOwed,
        Phase::RaiseDown { .. } => match (again, ended) {
            (false, true) => Event::DownDoneTicket,
            (false, false) => Event::DownDoneAbove,
            (true, true) => Event::DownAgainZeroTicket,
            (true, false) => Event::DownAgainZeroAbove,
        },

        Phase::DepartRead { node, made } => match (made, node) {
            (Departure::Owed { .. }, 0) => Event::OwedReadRoot,
            (Departure::Owed { .. }, _) => Event::OwedReadNode,
            (Departure::Upgrade, 0) => Event::TradeDepartReadRoot,
            (Departure::Upgrade, _) => Event::TradeDepartReadNode,
            (Departure::Unlock { .. }, 0) => Event::DepartReadRoot,
            (Departure::Unlock { .. }, _) => Event::DepartReadNode,
        },
        Phase::DepartSwap { node, made, .. } if !done => match (made, node) {
            (Departure::Owed { .. }, 0) => Event::OwedFailedRoot,
            (Departure::Owed { .. }, _) => Event::OwedFailedNode,
            (Departure::Upgrade, 0) => Event::TradeDepartFailedRoot,
            (Departure::Upgrade, _) => Event::TradeDepartFailedNode,
            (Departure::Unlock { .. }, 0) if root.closed() => Event::DepartFailedClosed,
            (Departure::Unlock { .. }, 0) => Event::DepartFailedOpen,
            (Departure::Unlock { .. }, _) => Event::DepartFailedNode,
        },
        Phase::DepartSwap { node: 0, seen, made } if seen.closed() && seen.count() == 1 => match made {
            Departure::Owed { .. } => Event::OwedLast,
            Departure::Upgrade => Event::TradeDepartLast,
            Departure::Unlock { .. } => Event::DepartLast,
        },
        Phase::DepartSwap { node: 1.., seen, made } if seen.count() == 1 => match made {
            Departure::Owed { .. } => Event::OwedFromOne,
            Departure::Upgrade => Event::TradeDepartFromOne,
            Departure::Unlock { .. } => Event::DepartFromOne,
        },
        Phase::DepartSwap { node, made, .. } => match (made, node) {
            (Departure::Owed { .. }, _) if ended => Event::OwedDoneTicket,
            (Departure::Owed { .. }, _) => Event::OwedDoneAbove,
            (Departure::Upgrade, 0) => Event::TradeDepartDoneRoot,
            (Departure::Upgrade, _) => Event::TradeDepartDoneNode,
            (Departure::Unlock { .. }, 0) => Event::DepartDoneRoot,
            (Departure::Unlock { .. }, _) => Event::DepartDoneNode,
        },

        Phase::TradeRead { .. } if root.closed() => Event::TradeReadClosed,
        Phase::TradeRead { .. } => Event::TradeReadOpen,
        Phase::TradeSwap { .. } if !done => Event::TradeFailed,
        Phase::TradeSwap { .. } if root.closed() => Event::TradeDoneClosed,
        Phase::TradeSwap { .. } => Event::TradeDoneOpen,
        Phase::UpgradeRead => match (ended, root.direct() > 1, root.tree() > 0) {
            (false, _, _) if root.closed() => Event::UpgradeReadClosed,
            (false, _, _) => Event::UpgradeReadOpen,
            (true, true, true) => Event::UpgradeDeniedBoth,
            (true, true, false) => Event::UpgradeDeniedDirect,
            (true, false, _) => Event::UpgradeDeniedTree,
        },
        Phase::UpgradeSwap { .. } if !done && ended => Event::UpgradeFailedDenied,
        Phase::UpgradeSwap { .. } if !done => Event::UpgradeFailedGoesOn,
        Phase::UpgradeSwap { .. } if root.closed() => Event::UpgradeDoneClosed,
        Phase::UpgradeSwap { .. } => Event::UpgradeDoneOpen,

        Phase::ReaderTakeMutex { .. } if held_up => Event::ReaderMutexHeldUp,
        Phase::ReaderTakeMutex { .. } => Event::ReaderMutexTaken,
        Phase::ReaderReadRoot { .. } if after == Phase::ReaderJoin => Event::ReaderFoundClosed,
        Phase::ReaderReadRoot { .. } => Event::ReaderFoundOpen,
        Phase::ReleaseToLook { .. } => Event::ReaderLooksAgain,
        Phase::ReaderJoin if waiting.readers && waiting.writer_after => Event::ReaderJoinsGroupBehind,
        Phase::ReaderJoin if waiting.readers => Event::ReaderJoinsGroup,
        Phase::ReaderJoin if waiting.writers > 0 => Event::ReaderStartsGroupBehind,
        Phase::ReaderJoin => Event::ReaderStartsGroup,
        Phase::ReleaseToSleep => Event::Sleeps,

        Phase::WriterLook if root.closed() => Event::WriterFoundClosed,
        Phase::WriterLook if root.count() > 0 => Event::WriterFoundReaders,
        Phase::WriterLook => Event::WriterFoundFree,
        Phase::WriterSwap if done => Event::WriterSwapDone,
        Phase::WriterSwap if root.closed() => Event::WriterSwapFailedClosed,
        Phase::WriterSwap => Event::WriterSwapFailedReaders,
        Phase::WriterTakeMutex if held_up => Event::WriterMutexHeldUp,
        Phase::WriterTakeMutex => Event::WriterMutexTaken,
        Phase::WriterReadRoot => match after {
            Phase::WriterClose { seen } if seen.count() == 0 => Event::WriterReadOpenFree,
            Phase::WriterClose { .. } => Event::WriterReadOpenReaders,
            _ => Event::WriterReadClosed,
        },
        Phase::WriterClose { .. } if !done => match after {
            Phase::WriterClose { seen } if seen.count() == 0 => Event::WriterCloseFailedFree,
            Phase::WriterClose { .. } => Event::WriterCloseFailedReaders,
            _ => Event::WriterCloseFailedClosed,
        },
        Phase::WriterClose { seen } if seen.count() == 0 => Event::WriterClosedFree,
        Phase::WriterClose { .. } => Event::WriterClosedReaders,
        Phase::ReleaseToWrite => Event::WriterHolds,
        Phase::WriterJoin => Event::WriterJoins,

        Phase::LeaverTakeMutex { leaver: Leaver::Writer } if held_up => Event::LeaverMutexHeldUp,
        Phase::LeaverTakeMutex { leaver: Leaver::Writer } => Event::LeaverMutexTaken,
        Phase::LeaverTakeMutex { leaver: Leaver::LastReader } if held_up => Event::LastMutexHeldUp,
        Phase::LeaverTakeMutex { leaver: Leaver::LastReader } => Event::LastMutexTaken,
        Phase::TakeGroup { leaver: Leaver::Writer } => match after {
            Phase::StoreOpen => Event::LeaverFoundNone,
            Phase::StoreReaders { .. } if waiting.writer_before => Event::LeaverPassedOverWriter,
            Phase::StoreReaders { closed: true, .. } => Event::LeaverTookReadersBefore,
            Phase::StoreReaders { .. } => Event::LeaverTookReadersAlone,
            _ if waiting.writers > 1 => Event::LeaverTookWriterOfSeveral,
            _ => Event::LeaverTookWriter,
        },
        Phase::TakeGroup { leaver: Leaver::LastReader } => match (waiting.readers, waiting.writers > 1) {
            (false, false) => Event::LastTookWriter,
            (false, true) => Event::LastTookWriterOfSeveral,
            (true, false) => Event::LastTookWriterNotReaders,
            (true, true) => Event::LastTookWriterOfSeveralNotReaders,
        },
        Phase::LeaverTakeMutex { leaver: Leaver::Downgrader } if held_up => Event::DowngradeMutexHeldUp,
        Phase::LeaverTakeMutex { leaver: Leaver::Downgrader } => Event::DowngradeMutexTaken,
        Phase::TakeGroup { leaver: Leaver::Downgrader } => match (waiting.readers, waiting.writers > 0) {
            (false, false) => Event::DowngradeFoundNone,
            (false, true) => Event::DowngradeFoundWriters,
            (true, false) => Event::DowngradeTookReaders,
            (true, true) => Event::DowngradeTookReadersBefore,
        },
        Phase::StoreReaders { leaver: Leaver::Downgrader, members, closed } => match (members, closed) {
            (0, false) => Event::DowngradeStoredAloneOpen,
            (0, true) => Event::DowngradeStoredAloneClosed,
            (_, false) => Event::DowngradeStoredOpen,
            (_, true) => Event::DowngradeStoredClosed,
        },
        Phase::ReleaseToRead => Event::DowngradeReads,
        Phase::ReleaseToWake { leaver: Leaver::Downgrader, .. } => Event::DowngradeReleased,
        Phase::Wake { leaver: Leaver::Downgrader, members, .. } if members.count_ones() == 1 => {
            Event::DowngradeWokeOne
        }
        Phase::Wake { leaver: Leaver::Downgrader, .. } => Event::DowngradeWoke,

        Phase::StoreOpen => Event::StoredOpen,
        Phase::ReleaseToIdle => Event::ReleasedIdle,
        Phase::StoreReaders { closed: false, .. } => Event::StoredReadersOpen,
        Phase::StoreReaders { closed: true, .. } => Event::StoredReadersClosed,
        Phase::ReleaseToWake { .. } => Event::ReleasedBeforeWake,
        Phase::Wake { waiters: Waiters::Writer, .. } => Event::WokeWriter,
        Phase::Wake { waiters: Waiters::Readers, members, .. } if members.count_ones() == 1 => {
            Event::WokeOneReader
        }
        Phase::Wake { waiters: Waiters::Readers, .. } => Event::WokeReaders,
    }
}

/// The event of a refused row, which would belong to this lock.
fn refused_event(bench: &Bench, which: Which, thread: u8, order: u8) -> Event {
    let sizes = bench.sizes();
    if thread >= sizes.threads {
        return Event::RefusedThread;
    }
    let other = bench.lock(which.other());
    let barred = !other.rests(usize::from(thread));
    let phase = bench.lock(which).phase(thread);
    match order.saturating_sub(which.order()) {
        order if barred && order != order::GO_ON => match Call::named(order, sizes.nodes) {
            None => Event::OrderBeforeBarred,
            Some(_) if other.phase(thread) == Phase::Asleep => Event::BarredAsleep,
            Some(_) => Event::BarredCalling,
        },
        order::GO_ON if order == order::SECOND_LOCK => Event::RefusedGoOn,
        order::GO_ON => match phase {
            Phase::Idle => Event::GoOnIdle,
            Phase::Reading { .. } => Event::GoOnReading,
            Phase::Writing => Event::GoOnWriting,
            _ => unreachable!("a call under way goes on"),
        },
        order::WRITE_LOCK => match phase {
            Phase::Reading { .. } => Event::WriteLockReading,
            Phase::Writing => Event::WriteLockWriting,
            Phase::Asleep => Event::WriteLockAsleep,
            _ => Event::WriteLockCalling,
        },
        order::UNLOCK => match phase {
            Phase::Idle => Event::UnlockIdle,
            Phase::Asleep => Event::UnlockAsleep,
            _ => Event::UnlockCalling,
        },
        order::UPGRADE => match phase {
            Phase::Idle => Event::UpgradeIdle,
            Phase::Writing => Event::UpgradeWriting,
            Phase::Asleep => Event::UpgradeAsleep,
            _ => Event::UpgradeCalling,
        },
        order::DOWNGRADE => match phase {
            Phase::Idle => Event::DowngradeIdle,
            Phase::Reading { .. } => Event::DowngradeReading,
            Phase::Asleep => Event::DowngradeAsleep,
            _ => Event::DowngradeCalling,
        },
        order @ order::READ_LOCK..=order::LAST_READ_LOCK if order - order::READ_LOCK < sizes.nodes => {
            match phase {
                Phase::Reading { .. } => Event::ReadLockReading,
                Phase::Writing => Event::ReadLockWriting,
                Phase::Asleep => Event::ReadLockAsleep,
                _ => Event::ReadLockCalling,
            }
        }
        order::READ_LOCK..=order::LAST_READ_LOCK => Event::RefusedOrderNode,
        5..=63 => Event::RefusedOrderLow,
        _ => Event::RefusedOrderHigh,
    }
}
