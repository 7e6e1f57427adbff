//! The lock bench of document 01, with requests One, Two, Five to Eight and Ten
//! of document 02, in plain Rust.
//!
//! Comments in quotation marks are document 01's own words, or document 02's
//! where they name it. One row of a schedule is one call of [`Bench::row`], which
//! is a row of one of the two [`Lock`]s; what a thread does next there is its
//! [`Phase`], the program counter of the call it is in.

/// "nodes N, 1 to 32; node 0 is the root"
pub const MOST_NODES: usize = 32;
/// "fan-out F, 1 to 16"
pub const MOST_FAN_OUT: usize = 16;
/// "threads T, 1 to 64, numbered from 0"
pub const MOST_THREADS: usize = 64;
/// "rows S, 0 to 4,096"
pub const MOST_ROWS: usize = 4096;
/// Document 02: "Refusal 9 now asks for 8,192 bytes for every sheet".
pub const LEAST_SHEET: usize = 8192;

/// The numbers of the table "What is refused, and on what". Document 02: refusal
/// 8 "never occurs and leaves the table, its number unused".
pub mod refusal {
    pub const NONE: u8 = 0;
    pub const SHORT_FILE: u8 = 1;
    pub const SIZE: u8 = 2;
    pub const LENGTH: u8 = 3;
    pub const JOURNAL: u8 = 4;
    pub const THREAD: u8 = 5;
    pub const ORDER: u8 = 6;
    pub const UNSUITED: u8 = 7;
}

/// "Orders: 0 go on; 1 write-lock; 2 unlock; 64 + n read-lock by node n". Document
/// 02: "Add order 3, upgrade", "Add order 4, downgrade".
pub mod order {
    pub const GO_ON: u8 = 0;
    pub const WRITE_LOCK: u8 = 1;
    pub const UNLOCK: u8 = 2;
    pub const UPGRADE: u8 = 3;
    pub const DOWNGRADE: u8 = 4;
    pub const READ_LOCK: u8 = 64;
    pub const LAST_READ_LOCK: u8 = 95;
    /// Document 02: "Orders with 128 added are for the second lock".
    pub const SECOND_LOCK: u8 = 128;
}

/// The journal kinds.
pub mod kind {
    pub const CALL_BEGUN: u8 = 0;
    pub const WORD_READ: u8 = 1;
    pub const SWAP_DONE: u8 = 2;
    pub const SWAP_FAILED: u8 = 3;
    pub const HELD_UP: u8 = 4;
    pub const PLAIN_STORE: u8 = 5;
    pub const MUTEX_TAKEN: u8 = 6;
    pub const MUTEX_RELEASED: u8 = 7;
    pub const QUEUE_CHANGED: u8 = 8;
    pub const SLEEPERS_WOKEN: u8 = 9;
    /// Document 02: "otherwise that read denies it, is journalled as kind 10"
    pub const UPGRADE_DENIED: u8 = 10;
}

/// "Words: 0 the root, n node n, 32 the mutex and queue, 33 none"
pub mod word {
    pub const ROOT: u8 = 0;
    pub const QUEUE: u8 = 32;
    pub const NONE: u8 = 33;
    /// Document 02: "words in the second lock's journal entries have 64 added, 33
    /// included".
    pub const SECOND_LOCK: u8 = 64;
}

/// One of the two locks.
#[derive(Clone, Copy, Debug, PartialEq, Eq)]
pub enum Which {
    First,
    Second,
}

impl Which {
    pub const BOTH: [Which; 2] = [Which::First, Which::Second];

    /// The lock that an order other than 0 names.
    pub fn named(order: u8) -> Which {
        if order < order::SECOND_LOCK {
            Which::First
        } else {
            Which::Second
        }
    }

    pub fn other(self) -> Which {
        match self {
            Which::First => Which::Second,
            Which::Second => Which::First,
        }
    }

    /// What this lock's orders have added.
    pub fn order(self) -> u8 {
        match self {
            Which::First => 0,
            Which::Second => order::SECOND_LOCK,
        }
    }

    /// What the words of this lock's entries have added.
    pub fn word(self) -> u8 {
        match self {
            Which::First => 0,
            Which::Second => word::SECOND_LOCK,
        }
    }
}

/// What one row did: its byte in each of the journal's two arrays.
#[derive(Clone, Copy, Debug, PartialEq, Eq)]
pub struct Entry {
    pub kind: u8,
    pub word: u8,
}

impl Entry {
    /// The entry of a row of this lock.
    fn at(self, which: Which) -> Entry {
        Entry { kind: self.kind, word: self.word + which.word() }
    }
}

const HELD_UP: Entry = Entry { kind: kind::HELD_UP, word: word::QUEUE };

/// A call, as its order names it.
#[derive(Clone, Copy, Debug, PartialEq, Eq)]
pub enum Call {
    WriteLock,
    Unlock,
    Upgrade,
    Downgrade,
    ReadLock { route: u8 },
}

impl Call {
    /// "64 + n read-lock by node n, n below N"; none for an order that is no call,
    /// 0 among them.
    pub fn named(order: u8, nodes: u8) -> Option<Call> {
        match order {
            order::WRITE_LOCK => Some(Call::WriteLock),
            order::UNLOCK => Some(Call::Unlock),
            order::UPGRADE => Some(Call::Upgrade),
            order::DOWNGRADE => Some(Call::Downgrade),
            order::READ_LOCK..=order::LAST_READ_LOCK if order - order::READ_LOCK < nodes => {
                Some(Call::ReadLock { route: order - order::READ_LOCK })
            }
            _ => None,
        }
    }
}

/// The sizes at the head of a schedule file, each in its range.
#[derive(Clone, Copy, Debug)]
pub struct Sizes {
    pub nodes: u8,
    pub fan_out: u8,
    pub threads: u8,
}

impl Sizes {
    /// None where one is outside its range.
    pub fn new(nodes: u8, fan_out: u8, threads: u8) -> Option<Sizes> {
        let good = (1..=MOST_NODES).contains(&usize::from(nodes))
            && (1..=MOST_FAN_OUT).contains(&usize::from(fan_out))
            && (1..=MOST_THREADS).contains(&usize::from(threads));
        good.then_some(Sizes { nodes, fan_out, threads })
    }
}

/// The root or a node, in one word as a processor swaps it. Document 02: "The
/// root's count becomes two, direct arrivals and arrivals from nodes, in one
/// word". A node has one count, kept where the root has its direct arrivals, and
/// is never closed.
#[derive(Clone, Copy, Debug, PartialEq, Eq, Hash)]
pub struct Word(u32);

const EMPTY_OPEN: Word = Word::new(0, 0, false);
const EMPTY_CLOSED: Word = Word::new(0, 0, true);

/// One of the root's two counts.
#[derive(Clone, Copy, Debug, PartialEq, Eq)]
pub enum Part {
    Direct,
    Tree,
}

impl Word {
    const TREE: u32 = 1 << 16;
    const CLOSED: u32 = 1 << 31;

    /// Each count stays far below the next field, however many rows there are: it
    /// counts arrivals of threads, of each two at most, and nodes below that are not
    /// at 0, and a store makes it 64 at most.
    pub const fn new(direct: u16, tree: u16, closed: bool) -> Word {
        let counts = direct as u32 + tree as u32 * Word::TREE;
        Word(if closed { counts | Word::CLOSED } else { counts })
    }

    pub fn direct(self) -> u16 {
        self.0 as u16
    }

    pub fn tree(self) -> u16 {
        ((self.0 & !Word::CLOSED) / Word::TREE) as u16
    }

    /// The sum: "Decisions on '0' now mean both are 0" (document 02).
    pub fn count(self) -> u16 {
        self.direct() + self.tree()
    }

    pub fn closed(self) -> bool {
        self.0 & Word::CLOSED != 0
    }

    fn raised(self, part: Part) -> Word {
        match part {
            Part::Direct => Word(self.0 + 1),
            Part::Tree => Word(self.0 + Word::TREE),
        }
    }

    /// A departure finds a count above 0; that none finds 0 is among the claims
    /// that every run is checked for.
    fn lowered(self, part: Part) -> Word {
        let (direct, tree) = (self.direct(), self.tree());
        match part {
            Part::Direct => Word::new(direct.saturating_sub(1), tree, self.closed()),
            Part::Tree => Word::new(direct, tree.saturating_sub(1), self.closed()),
        }
    }
}

/// Whom a group consists of.
#[derive(Clone, Copy, Debug, PartialEq, Eq, Hash)]
pub enum Waiters {
    Readers,
    Writer,
}

/// The queue. Writers stand in a ring in the order of their arrival; 64 places
/// are enough, as a thread is queued once at most.
#[derive(Clone)]
pub struct Queue {
    /// Document 02: "All queued readers form one group". "A group is a set of
    /// thread numbers, one bit each in a 64-bit word."
    readers: u64,
    writers: [u8; MOST_THREADS],
    /// The place of the writer who has waited longest.
    first: usize,
    /// How many places of the ring are taken.
    length: usize,
    /// Document 02: "Store that number in the queue." The number of waiting
    /// writers, which a hand-over reads; the ring is not asked for it.
    number: u8,
}

impl Queue {
    pub fn empty() -> Queue {
        Queue { readers: 0, writers: [0; MOST_THREADS], first: 0, length: 0, number: 0 }
    }

    /// Where the writer stands who has `ahead` writers before it.
    fn place(&self, ahead: usize) -> usize {
        (self.first + ahead) % MOST_THREADS
    }

    /// Document 02: "one group, which a reader joins even behind a writer".
    pub fn join_reader(&mut self, thread: usize) {
        self.readers |= 1 << thread;
    }

    pub fn join_writer(&mut self, thread: usize) {
        let place = self.place(self.length);
        self.writers[place] = thread as u8;
        self.length += 1;
        self.number += 1;
    }

    pub fn take_readers(&mut self) -> Option<u64> {
        if self.readers == 0 {
            return None;
        }
        let members = self.readers;
        self.readers = 0;
        Some(members)
    }

    /// Document 02: "the writer who has waited longest". "a writer is a group
    /// alone"
    pub fn take_writer(&mut self) -> Option<u64> {
        if self.length == 0 {
            return None;
        }
        let writer = self.writers[self.first];
        self.first = self.place(1);
        self.length -= 1;
        self.number -= 1;
        Some(1 << writer)
    }

    /// The stored number of waiting writers.
    pub fn number(&self) -> u8 {
        self.number
    }

    /// Source document 004, figure 3: "lock->queue.numWriters != 0"
    pub fn has_writer(&self) -> bool {
        self.number > 0
    }

    /// The number of groups: every writer's and the readers'.
    pub fn groups(&self) -> usize {
        self.length + usize::from(self.readers != 0)
    }

    /// The readers, as a set.
    pub fn readers(&self) -> u64 {
        self.readers
    }

    /// The writers, the one who has waited longest first.
    pub fn writers(&self) -> impl DoubleEndedIterator<Item = u8> + '_ {
        (0..self.length).map(|ahead| self.writers[self.place(ahead)])
    }
}

/// For whom a departure is made.
#[derive(Clone, Copy, Debug, PartialEq, Eq, Hash)]
pub enum Departure {
    /// For a reader's unlock.
    Unlock { ticket: u8 },
    /// For an upgrade, from the node of its ticket.
    Upgrade,
    /// Inside an arrival by `route` that raised `node` from a count above 0.
    Owed { route: u8, node: u8 },
}

/// Who hands the lock over.
#[derive(Clone, Copy, Debug, PartialEq, Eq, Hash)]
pub enum Leaver {
    Writer,
    LastReader,
    /// A writer that goes on as a reader.
    Downgrader,
}

/// What a thread's next row does. `route` is the n of "read-lock by n", `node`
/// the c of "arrive at c" and "depart from c", `seen` the word remembered.
#[derive(Clone, Copy, Debug, PartialEq, Eq, Hash)]
pub enum Phase {
    // No call under way, or asleep inside one.
    Idle,
    Reading { ticket: u8 },
    Writing,
    Asleep,

    // Read-lock.
    Look { route: u8 },
    RaiseRoot { seen: Word },
    ReadUp { route: u8, node: u8 },
    RaiseUp { route: u8, node: u8, seen: Word },
    RaiseDown { route: u8, node: u8, seen: Word },

    // Departure.
    DepartRead { node: u8, made: Departure },
    DepartSwap { node: u8, seen: Word, made: Departure },

    // Upgrade; source document 004: "trades" its arrival at the tree for a direct
    // one.
    TradeRead { ticket: u8 },
    TradeSwap { ticket: u8, seen: Word },
    UpgradeRead,
    UpgradeSwap { seen: Word },

    // Queue, for a reader.
    ReaderTakeMutex { route: u8 },
    ReaderReadRoot { route: u8 },
    ReleaseToLook { route: u8 },
    ReaderJoin,

    // Write-lock.
    WriterLook,
    WriterSwap,
    WriterTakeMutex,
    WriterReadRoot,
    WriterClose { seen: Word },
    ReleaseToWrite,
    WriterJoin,

    // The release that begins a sleep, a reader's or a writer's.
    ReleaseToSleep,

    // Unlock by a writer or by the last reader, and downgrade.
    LeaverTakeMutex { leaver: Leaver },
    TakeGroup { leaver: Leaver },
    StoreOpen,
    ReleaseToIdle,
    StoreReaders { leaver: Leaver, members: u64, closed: bool },
    ReleaseToRead,
    ReleaseToWake { leaver: Leaver, waiters: Waiters, members: u64 },
    Wake { leaver: Leaver, waiters: Waiters, members: u64 },
}

#[derive(Clone, Copy)]
struct Thread {
    phase: Phase,
    failures: u32,
}

/// One lock, with a standing and failures for each thread.
#[derive(Clone)]
pub struct Lock {
    sizes: Sizes,
    words: [Word; MOST_NODES],
    mutex: Option<u8>,
    queue: Queue,
    threads: [Thread; MOST_THREADS],
}

impl Lock {
    /// "Root (count 0, open), all nodes 0, mutex free, queue empty, every
    /// thread idle without failures."
    pub fn fresh(sizes: Sizes) -> Lock {
        Lock {
            sizes,
            words: [EMPTY_OPEN; MOST_NODES],
            mutex: None,
            queue: Queue::empty(),
            threads: [Thread { phase: Phase::Idle, failures: 0 }; MOST_THREADS],
        }
    }

    pub fn sizes(&self) -> Sizes {
        self.sizes
    }

    pub fn root(&self) -> Word {
        self.words[0]
    }

    pub fn phase(&self, thread: u8) -> Phase {
        self.threads[usize::from(thread)].phase
    }

    /// The thread that has the mutex.
    pub fn mutex(&self) -> Option<u8> {
        self.mutex
    }

    pub fn queue(&self) -> &Queue {
        &self.queue
    }

    /// How many swaps of the thread failed at this lock.
    pub fn failures(&self, thread: u8) -> u32 {
        self.threads[usize::from(thread)].failures
    }

    /// The word of the root or of a node.
    pub fn word(&self, node: u8) -> Word {
        self.words[usize::from(node)]
    }

    /// The words of the root and of every node.
    pub fn words(&self) -> &[Word] {
        &self.words[..usize::from(self.sizes.nodes)]
    }

    /// Whether the thread is in no call of this lock: it is idle or holds, and is
    /// not asleep either.
    pub fn rests(&self, thread: usize) -> bool {
        matches!(self.threads[thread].phase, Phase::Idle | Phase::Reading { .. } | Phase::Writing)
    }

    /// Begins a call. "A beginning (orders 1, 2, 64 + n) touches no word." Nor does
    /// one of the orders that document 02 adds.
    fn begin(&mut self, thread: usize, call: Call) -> Result<Entry, u8> {
        let leaves = |leaver| Phase::LeaverTakeMutex { leaver };
        let first = match (call, self.threads[thread].phase) {
            (Call::WriteLock, Phase::Idle) => Phase::WriterLook,
            (Call::ReadLock { route }, Phase::Idle) => Phase::Look { route },
            // "Depart from the ticket's node."
            (Call::Unlock, Phase::Reading { ticket }) => {
                Phase::DepartRead { node: ticket, made: Departure::Unlock { ticket } }
            }
            (Call::Unlock, Phase::Writing) => leaves(Leaver::Writer),
            (Call::Upgrade, Phase::Reading { ticket: 0 }) => Phase::UpgradeRead,
            // Document 02: "With another ticket it first arrives directly at the
            // root"
            (Call::Upgrade, Phase::Reading { ticket }) => Phase::TradeRead { ticket },
            (Call::Downgrade, Phase::Writing) => leaves(Leaver::Downgrader),
            // "order does not suit the thread: [...] 1 or 64 + n while not idle, 2
            // while not holding". Document 02: "It refuses order 3 to a thread not
            // reading, with 7", "order 4 to a thread not writing, with 7".
            _ => return Err(refusal::UNSUITED),
        };
        self.threads[thread].phase = first;
        Ok(Entry { kind: kind::CALL_BEGUN, word: word::NONE })
    }

    /// One step of the call that the thread is in.
    #[inline(always)]
    fn step(&mut self, thread: usize) -> Result<Entry, u8> {
        let entry = match self.threads[thread].phase {
            // "0 while idle or holding"
            Phase::Idle | Phase::Reading { .. } | Phase::Writing => return Err(refusal::UNSUITED),

            // "A step [...] by a sleeper, is held up"
            Phase::Asleep => HELD_UP,

            Phase::Look { route } => self.read(thread, 0, Lock::looked(route, self.words[0])),
            // "swap count + 1, ticket 0, done"
            Phase::RaiseRoot { seen } => {
                let done = Phase::Reading { ticket: 0 };
                let new = seen.raised(Part::Direct);
                self.swap(thread, 0, seen, new, done, |_, found| Lock::looked(0, found))
            }

            Phase::ReadUp { route, node } => {
                let found = self.words[usize::from(node)];
                self.read(thread, node, self.climbed(route, node, found))
            }
            // "swap + 1, which is success for the node below"
            Phase::RaiseUp { route, node, seen } => {
                let done = self.arrived(route, node);
                let again = |lock: &Lock, found| lock.climbed(route, node, found);
                let part = if node == 0 { Part::Tree } else { Part::Direct };
                self.swap(thread, node, seen, seen.raised(part), done, again)
            }

            // "after a failure, read and swap + 1, even from 0. If the value
            // swapped from on this way down was not 0, depart from the parent";
            // the failed swap is this read.
            Phase::RaiseDown { route, node, seen } => {
                let done = if seen.count() == 0 {
                    self.arrived(route, node)
                } else {
                    Phase::DepartRead { node: self.parent(node), made: Departure::Owed { route, node } }
                };
                let again = |_: &Lock, found| Phase::RaiseDown { route, node, seen: found };
                self.swap(thread, node, seen, seen.raised(Part::Direct), done, again)
            }

            // "Depart from c. Read, swap − 1"
            Phase::DepartRead { node, made } => {
                let seen = self.words[usize::from(node)];
                self.read(thread, node, Phase::DepartSwap { node, seen, made })
            }
            Phase::DepartSwap { node, seen, made } => {
                let new = seen.lowered(Lock::part_left(node, made));
                let done = self.departed(node, new, made);
                let again = |_: &Lock, found| Phase::DepartSwap { node, seen: found, made };
                self.swap(thread, node, seen, new, done, again)
            }

            // Document 02: "it first arrives directly at the root, state kept,
            // departs from its node, and then does the same with ticket 0"
            Phase::TradeRead { ticket } => {
                let seen = self.words[0];
                self.read(thread, 0, Phase::TradeSwap { ticket, seen })
            }
            Phase::TradeSwap { ticket, seen } => {
                let done = Phase::DepartRead { node: ticket, made: Departure::Upgrade };
                let again = |_: &Lock, found| Phase::TradeSwap { ticket, seen: found };
                self.swap(thread, 0, seen, seen.raised(Part::Direct), done, again)
            }
            // Document 02: "otherwise that read denies it, is journalled as kind
            // 10, and the thread goes on reading"
            Phase::UpgradeRead => {
                let next = Lock::upgrading(self.words[0]);
                let read = self.read(thread, 0, next);
                match next {
                    Phase::UpgradeSwap { .. } => read,
                    _ => Entry { kind: kind::UPGRADE_DENIED, word: word::ROOT },
                }
            }
            // Document 02: "A failed swap that finds otherwise denies it too,
            // still as kind 3."
            Phase::UpgradeSwap { seen } => {
                let again = |_: &Lock, found| Lock::upgrading(found);
                self.swap(thread, 0, seen, EMPTY_CLOSED, Phase::Writing, again)
            }

            // "Queue, for a reader. Take the mutex; read the root; if open,
            // release and look again. If closed, join, release"
            Phase::ReaderTakeMutex { route } => self.take_mutex(thread, Phase::ReaderReadRoot { route }),
            Phase::ReaderReadRoot { route } => {
                let next =
                    if self.words[0].closed() { Phase::ReaderJoin } else { Phase::ReleaseToLook { route } };
                self.read(thread, 0, next)
            }
            Phase::ReleaseToLook { route } => self.release_mutex(thread, Phase::Look { route }),
            Phase::ReaderJoin => {
                self.queue.join_reader(thread);
                self.change_queue(thread, Phase::ReleaseToSleep)
            }

            // "Write-lock. Read the root; if (0, open), swap to (0, closed),
            // done."
            Phase::WriterLook => self.read(thread, 0, Lock::writer_looked(self.words[0])),
            Phase::WriterSwap => {
                let again = |_: &Lock, found| Lock::writer_looked(found);
                self.swap(thread, 0, EMPTY_OPEN, EMPTY_CLOSED, Phase::Writing, again)
            }
            Phase::WriterTakeMutex => self.take_mutex(thread, Phase::WriterReadRoot),
            Phase::WriterReadRoot => self.read(thread, 0, Lock::writer_found(self.words[0])),
            // "swap to closed with the count kept, then with count 0 release and
            // hold, else join, release, sleep"
            Phase::WriterClose { seen } => {
                let new = Word::new(seen.direct(), seen.tree(), true);
                let done = if seen.count() == 0 { Phase::ReleaseToWrite } else { Phase::WriterJoin };
                self.swap(thread, 0, seen, new, done, |_, found| Lock::writer_found(found))
            }
            Phase::ReleaseToWrite => self.release_mutex(thread, Phase::Writing),
            Phase::WriterJoin => {
                self.queue.join_writer(thread);
                self.change_queue(thread, Phase::ReleaseToSleep)
            }

            // "the release row begins the sleep"
            Phase::ReleaseToSleep => self.release_mutex(thread, Phase::Asleep),

            // "Take the mutex, take the next group."
            Phase::LeaverTakeMutex { leaver } => self.take_mutex(thread, Phase::TakeGroup { leaver }),
            // Document 02: "A leaving writer takes that group if there is one,
            // else the writer who has waited longest."
            Phase::TakeGroup { leaver: leaver @ Leaver::Writer } => {
                let next = if let Some(members) = self.queue.take_readers() {
                    // "closed if a writer is still queued, else open"
                    Phase::StoreReaders { leaver, members, closed: self.queue.has_writer() }
                } else if let Some(members) = self.queue.take_writer() {
                    Phase::ReleaseToWake { leaver, waiters: Waiters::Writer, members }
                } else {
                    Phase::StoreOpen
                };
                self.change_queue(thread, next)
            }
            // Document 02: "The last reader to leave takes that writer." That
            // there is one is among the claims too.
            Phase::TakeGroup { leaver: leaver @ Leaver::LastReader } => {
                let members = self.queue.take_writer().unwrap_or_default();
                self.change_queue(thread, Phase::ReleaseToWake { leaver, waiters: Waiters::Writer, members })
            }
            // Document 02: "takes the sleeping readers if there are any (one row,
            // kind 8 also where it finds none)"
            Phase::TakeGroup { leaver: leaver @ Leaver::Downgrader } => {
                let members = self.queue.take_readers().unwrap_or_default();
                let closed = self.queue.has_writer();
                self.change_queue(thread, Phase::StoreReaders { leaver, members, closed })
            }
            // "None: store (0, open), release."
            Phase::StoreOpen => self.store_root(thread, EMPTY_OPEN, Phase::ReleaseToIdle),
            Phase::ReleaseToIdle => self.release_mutex(thread, Phase::Idle),
            // "Its size is the count of its ones." They hold with ticket 0, so
            // these are direct arrivals.
            // Document 02, of a downgrade: "stores direct count 1 plus the size of
            // that group [...] releases, wakes them if any, and reads with ticket
            // 0"
            Phase::StoreReaders { leaver, members, closed } => {
                let own = u16::from(leaver == Leaver::Downgrader);
                let new = Word::new(own + members.count_ones() as u16, 0, closed);
                let next = if members == 0 {
                    Phase::ReleaseToRead
                } else {
                    Phase::ReleaseToWake { leaver, waiters: Waiters::Readers, members }
                };
                self.store_root(thread, new, next)
            }
            Phase::ReleaseToRead => self.release_mutex(thread, Phase::Reading { ticket: 0 }),
            Phase::ReleaseToWake { leaver, waiters, members } => {
                self.release_mutex(thread, Phase::Wake { leaver, waiters, members })
            }
            // "Waking is one step: all threads of the group hold, readers with
            // ticket 0."
            Phase::Wake { leaver, waiters, members } => {
                let holding = match waiters {
                    Waiters::Readers => Phase::Reading { ticket: 0 },
                    Waiters::Writer => Phase::Writing,
                };
                let mut asleep = members;
                while asleep != 0 {
                    self.threads[asleep.trailing_zeros() as usize].phase = holding;
                    asleep &= asleep - 1;
                }
                self.threads[thread].phase = match leaver {
                    Leaver::Writer | Leaver::LastReader => Phase::Idle,
                    Leaver::Downgrader => Phase::Reading { ticket: 0 },
                };
                Entry { kind: kind::SLEEPERS_WOKEN, word: word::QUEUE }
            }
        };
        Ok(entry)
    }

    /// A read of a word; what it found is in `next`.
    fn read(&mut self, thread: usize, node: u8, next: Phase) -> Entry {
        self.threads[thread].phase = next;
        Entry { kind: kind::WORD_READ, word: node }
    }

    /// "'swap' writes only if the word equals what was remembered". Document
    /// 02: "a failed swap on any word is also the next read, and the thread's
    /// next row is what follows that read"; `again` is what follows it.
    #[inline(always)]
    fn swap(
        &mut self,
        thread: usize,
        node: u8,
        seen: Word,
        new: Word,
        done: Phase,
        again: impl FnOnce(&Lock, Word) -> Phase,
    ) -> Entry {
        let found = self.words[usize::from(node)];
        if found == seen {
            self.words[usize::from(node)] = new;
            self.threads[thread].phase = done;
            Entry { kind: kind::SWAP_DONE, word: node }
        } else {
            self.threads[thread].phase = again(self, found);
            self.threads[thread].failures += 1;
            Entry { kind: kind::SWAP_FAILED, word: node }
        }
    }

    fn store_root(&mut self, thread: usize, new: Word, next: Phase) -> Entry {
        self.words[0] = new;
        self.threads[thread].phase = next;
        Entry { kind: kind::PLAIN_STORE, word: word::ROOT }
    }

    /// "A step at a taken mutex [...] is held up and changes nothing but the
    /// journal."
    fn take_mutex(&mut self, thread: usize, next: Phase) -> Entry {
        if self.mutex.is_some() {
            return HELD_UP;
        }
        self.mutex = Some(thread as u8);
        self.threads[thread].phase = next;
        Entry { kind: kind::MUTEX_TAKEN, word: word::QUEUE }
    }

    fn release_mutex(&mut self, thread: usize, next: Phase) -> Entry {
        self.mutex = None;
        self.threads[thread].phase = next;
        Entry { kind: kind::MUTEX_RELEASED, word: word::QUEUE }
    }

    fn change_queue(&mut self, thread: usize, next: Phase) -> Entry {
        self.threads[thread].phase = next;
        Entry { kind: kind::QUEUE_CHANGED, word: word::QUEUE }
    }

    /// "the parent of node n above 0 is (n − 1) / F, rounded down"
    fn parent(&self, node: u8) -> u8 {
        (node - 1) / self.sizes.fan_out
    }

    /// "Look: read the root; closed leads to the queue. Open and n = 0: swap
    /// count + 1 [...]. Open and n above 0: arrive at n."
    fn looked(route: u8, found: Word) -> Phase {
        if found.closed() {
            Phase::ReaderTakeMutex { route }
        } else if route == 0 {
            Phase::RaiseRoot { seen: found }
        } else {
            Phase::ReadUp { route, node: route }
        }
    }

    /// "Read c. If 0, go on to the parent without writing c; otherwise swap + 1
    /// [...]. At the root: read; (0, closed) fails the whole arrival, which leads
    /// to the queue; else swap count + 1 with the state kept"
    fn climbed(&self, route: u8, node: u8, found: Word) -> Phase {
        if node == 0 && found == EMPTY_CLOSED {
            Phase::ReaderTakeMutex { route }
        } else if node > 0 && found.count() == 0 {
            Phase::ReadUp { route, node: self.parent(node) }
        } else {
            Phase::RaiseUp { route, node, seen: found }
        }
    }

    /// Document 02: "at direct 1 and tree 0 it swaps to (0, 0, closed) and writes";
    /// the state may be open or closed.
    fn upgrading(found: Word) -> Phase {
        if found.direct() == 1 && found.tree() == 0 {
            Phase::UpgradeSwap { seen: found }
        } else {
            Phase::Reading { ticket: 0 }
        }
    }

    /// "if (0, open), swap [...]. Otherwise take the mutex"
    fn writer_looked(found: Word) -> Phase {
        if found == EMPTY_OPEN {
            Phase::WriterSwap
        } else {
            Phase::WriterTakeMutex
        }
    }

    /// Under the mutex: "if closed, join, release, sleep; if open, swap to closed
    /// with the count kept"
    fn writer_found(found: Word) -> Phase {
        if found.closed() {
            Phase::WriterJoin
        } else {
            Phase::WriterClose { seen: found }
        }
    }

    /// After an arrival at `node`: "At n itself either swap, with its departure
    /// if owed, ends the call with ticket n"; above it, "come down the path node
    /// by node: swap to 1 from the 0 read on the way up, with no new read".
    fn arrived(&self, route: u8, node: u8) -> Phase {
        if node == route {
            return Phase::Reading { ticket: route };
        }
        let mut below = route;
        loop {
            let parent = self.parent(below);
            if parent == node {
                return Phase::RaiseDown { route, node: below, seen: EMPTY_OPEN };
            }
            below = parent;
        }
    }

    /// Which count a departure lowers: the root's direct one with ticket 0, that
    /// of arrivals from nodes where it came up from a node.
    fn part_left(node: u8, made: Departure) -> Part {
        match made {
            Departure::Unlock { ticket: 0 } => Part::Direct,
            _ if node == 0 => Part::Tree,
            _ => Part::Direct,
        }
    }

    /// The count that a departure is about to lower.
    pub fn surplus(&self, node: u8, made: Departure) -> u16 {
        let word = self.words[usize::from(node)];
        match Lock::part_left(node, made) {
            Part::Direct => word.direct(),
            Part::Tree => word.tree(),
        }
    }

    /// After a departure that left `new` at `node`: "from 1, depart from the
    /// parent too. At the root the departure is the last exactly if the new word
    /// is (0, closed). The answer of a departure inside an arrival is ignored."
    fn departed(&self, node: u8, new: Word, made: Departure) -> Phase {
        if node > 0 && new.count() == 0 {
            return Phase::DepartRead { node: self.parent(node), made };
        }
        match made {
            Departure::Owed { route, node } => self.arrived(route, node),
            Departure::Upgrade => Phase::UpgradeRead,
            Departure::Unlock { .. } if new == EMPTY_CLOSED => {
                Phase::LeaverTakeMutex { leaver: Leaver::LastReader }
            }
            Departure::Unlock { .. } => Phase::Idle,
        }
    }

    /// The lock's lines of the sheet.
    fn write(&self, pen: &mut Pen) {
        // Document 02: "the root line shows direct, tree, state"
        pen.text(b"root ");
        pen.number(usize::from(self.words[0].direct()));
        pen.text(b" ");
        pen.number(usize::from(self.words[0].tree()));
        pen.text(if self.words[0].closed() { b" closed\n" } else { b" open\n" });

        let nodes = usize::from(self.sizes.nodes);
        for (node, word) in self.words.iter().enumerate().take(nodes).skip(1) {
            pen.text(b"node ");
            pen.number(node);
            pen.text(b" ");
            pen.number(usize::from(word.count()));
            pen.text(b"\n");
        }

        pen.text(b"queue ");
        match self.mutex {
            None => pen.text(b"free"),
            Some(thread) => pen.number(usize::from(thread)),
        }
        pen.text(b" ");
        pen.number(self.queue.groups());
        // Document 02: "The sheet's queue line gains it as a last field"
        pen.text(b" ");
        pen.number(usize::from(self.queue.number()));
        pen.text(b"\n");

        let threads = usize::from(self.sizes.threads);
        for (number, thread) in self.threads.iter().enumerate().take(threads) {
            pen.text(b"thread ");
            pen.number(number);
            match thread.phase {
                Phase::Idle => pen.text(b" idle - "),
                Phase::Reading { ticket } => {
                    pen.text(b" reading ");
                    pen.number(usize::from(ticket));
                    pen.text(b" ");
                }
                Phase::Writing => pen.text(b" writing - "),
                Phase::Asleep => pen.text(b" asleep - "),
                _ => pen.text(b" calling - "),
            }
            pen.large_number(thread.failures as usize);
            pen.text(b"\n");
        }
    }
}

/// Document 02: "Two locks over one set of threads", the second "of the same N and
/// F". "A thread is in one call at a time, may hold both locks, and has a standing
/// and failures for each."
#[derive(Clone)]
pub struct Bench {
    sizes: Sizes,
    locks: [Lock; 2],
    /// The threads whose latest call is one of the second lock, one bit each.
    at_second: u64,
}

impl Bench {
    pub fn fresh(sizes: Sizes) -> Bench {
        Bench { sizes, locks: [Lock::fresh(sizes), Lock::fresh(sizes)], at_second: 0 }
    }

    pub fn sizes(&self) -> Sizes {
        self.sizes
    }

    pub fn lock(&self, which: Which) -> &Lock {
        &self.locks[which as usize]
    }

    /// The lock of the thread's latest call.
    fn latest(&self, thread: usize) -> Which {
        if self.at_second >> thread & 1 == 1 {
            Which::Second
        } else {
            Which::First
        }
    }

    /// The lock that a row belongs to: document 02, "0 goes on with the call under
    /// way", in whichever lock that is.
    pub fn lock_of(&self, thread: u8, order: u8) -> Which {
        match order {
            order::GO_ON => self.latest(usize::from(thread)),
            _ => Which::named(order),
        }
    }

    /// Runs one row. A refused row changes nothing.
    #[inline(always)]
    pub fn row(&mut self, thread: u8, order: u8) -> Result<Entry, u8> {
        if thread >= self.sizes.threads {
            return Err(refusal::THREAD);
        }
        let which = self.lock_of(thread, order);
        let thread = usize::from(thread);
        if order != order::GO_ON {
            return self.begin(thread, which, order - which.order());
        }
        // Each lock's steps are compiled on their own, so that a row costs what it
        // did with one lock.
        match which {
            Which::First => self.locks[Which::First as usize].step(thread),
            Which::Second => {
                self.locks[Which::Second as usize].step(thread).map(|entry| entry.at(Which::Second))
            }
        }
    }

    /// Begins a call of one lock; `order` is without what that lock's have added.
    /// Document 02: "(128 alone is a 6)", as 0 is no call.
    fn begin(&mut self, thread: usize, which: Which, order: u8) -> Result<Entry, u8> {
        let call = Call::named(order, self.sizes.nodes).ok_or(refusal::ORDER)?;
        // Document 02: "It refuses a new call under 7 while the thread is in a call
        // of either lock or asleep".
        if !self.lock(which.other()).rests(thread) {
            return Err(refusal::UNSUITED);
        }
        let entry = self.locks[which as usize].begin(thread, call)?;
        self.at_second = self.at_second & !(1 << thread) | (which as u64) << thread;
        Ok(entry.at(which))
    }

    /// The sheet's lines after the first. Document 02: "The sheet prints the second
    /// lock's lines after the first's, without an answer line."
    pub fn write(&self, pen: &mut Pen) {
        for lock in &self.locks {
            lock.write(pen);
        }
    }
}

/// Writes text from the start of a buffer on.
pub struct Pen<'a> {
    page: &'a mut [u8],
    at: usize,
}

impl Pen<'_> {
    pub fn new(page: &mut [u8]) -> Pen<'_> {
        Pen { page, at: 0 }
    }

    /// How many bytes were written.
    pub fn written(&self) -> usize {
        self.at
    }

    /// A sheet's first line: "refusal number and rows taken".
    pub fn answer(&mut self, answer: u8, taken: usize) {
        self.text(b"answer ");
        self.number(usize::from(answer));
        self.text(b" at ");
        self.large_number(taken);
        self.text(b"\n");
    }

    #[inline]
    pub fn text(&mut self, text: &[u8]) {
        self.page[self.at..self.at + text.len()].copy_from_slice(text);
        self.at += text.len();
    }

    /// Writes a number of any size; of a sheet's most are small.
    #[inline]
    pub fn large_number(&mut self, number: usize) {
        if number < 10_000 {
            self.number(number);
        } else {
            self.many_digits(number);
        }
    }

    /// Writes a number from 10,000 on.
    fn many_digits(&mut self, number: usize) {
        self.large_number(number / 10_000);
        for unit in [1000, 100, 10, 1] {
            self.digit(number / unit % 10);
        }
    }

    /// Writes a number below 10,000.
    #[inline]
    pub fn number(&mut self, number: usize) {
        if number >= 1000 {
            self.digit(number / 1000);
        }
        if number >= 100 {
            self.digit(number / 100 % 10);
        }
        if number >= 10 {
            self.digit(number / 10 % 10);
        }
        self.digit(number % 10);
    }

    #[inline]
    fn digit(&mut self, digit: usize) {
        self.page[self.at] = b'0' + digit as u8;
        self.at += 1;
    }
}

/// What a run came to: 0 or the refusal's number, the rows taken and, except
/// after refusals 1 to 4, the state that those rows left.
pub struct Outcome {
    pub answer: u8,
    pub taken: usize,
    pub state: Option<Bench>,
}

/// The sizes, thread numbers and orders of a schedule file, or the number of
/// the refusal (1 to 3) that it meets.
pub fn parse(file: &[u8]) -> Result<(Sizes, &[u8], &[u8]), u8> {
    let &[nodes, fan_out, threads, low, high, ref arrays @ ..] = file else {
        return Err(refusal::SHORT_FILE);
    };
    let rows = usize::from(u16::from_le_bytes([low, high]));
    let sizes = Sizes::new(nodes, fan_out, threads).filter(|_| rows <= MOST_ROWS).ok_or(refusal::SIZE)?;
    if arrays.len() != 2 * rows {
        return Err(refusal::LENGTH);
    }
    let (numbers, orders) = arrays.split_at(rows);
    Ok((sizes, numbers, orders))
}

/// Runs a schedule file from the fresh lock and journals every row taken.
pub fn run(file: &[u8], journal: &mut [u8]) -> Outcome {
    let (sizes, numbers, orders) = match parse(file) {
        Ok(schedule) => schedule,
        Err(answer) => return Outcome { answer, taken: 0, state: None },
    };
    if journal.len() < 2 * numbers.len() {
        return Outcome { answer: refusal::JOURNAL, taken: 0, state: None };
    }
    let mut bench = Bench::fresh(sizes);
    let (answer, taken) = run_rows(numbers, orders, journal, |thread, order| bench.row(thread, order));
    Outcome { answer, taken, state: Some(bench) }
}

/// Runs rows until one is refused and journals those taken. Returns 0 or the
/// refusal's number, and how many were taken.
#[inline(always)]
pub fn run_rows(
    numbers: &[u8],
    orders: &[u8],
    journal: &mut [u8],
    mut row: impl FnMut(u8, u8) -> Result<Entry, u8>,
) -> (u8, usize) {
    // "Entry i of its first array says what row i did; the second array, from
    // byte S on, names the word."
    let (kinds, words) = journal.split_at_mut(numbers.len());
    let mut taken = 0;
    let schedule = numbers.iter().zip(orders);
    for ((&thread, &order), (kind, word)) in schedule.zip(kinds.iter_mut().zip(words)) {
        match row(thread, order) {
            Ok(entry) => {
                *kind = entry.kind;
                *word = entry.word;
                taken += 1;
            }
            Err(answer) => return (answer, taken),
        }
    }
    (refusal::NONE, taken)
}

/// Writes the sheet at the start of `page` and returns its length; returns 0
/// and writes nothing where `page` is below 8,192 bytes (refusal 9).
pub fn sheet(outcome: &Outcome, page: &mut [u8]) -> usize {
    if page.len() < LEAST_SHEET {
        return 0;
    }
    let mut pen = Pen::new(page);
    pen.answer(outcome.answer, outcome.taken);
    // "For refusals 1 to 4 only the first line, with `at 0`."
    if let Some(bench) = &outcome.state {
        bench.write(&mut pen);
    }
    pen.written()
}

/// Runs a file and writes its sheet; the journal stands even where the sheet
/// is refused.
pub fn bench_sheet(file: &[u8], journal: &mut [u8], page: &mut [u8]) -> usize {
    sheet(&run(file, journal), page)
}
