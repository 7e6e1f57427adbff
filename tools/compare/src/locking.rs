//! The locking claims of document 02's requests Six to Eight and document 01's
//! demand 3, checked on every state of a run, and how often each had something to
//! claim. Request Ten: they "read per lock".
//!
//! A [`Watch`] follows one lock row by row. What it needs of a state is on the
//! sheet, so it follows the plain machine's own states as well as the sheets of
//! another implementation, asked for after every row.

use crate::machine::{kind, order, word, Entry, Leaver, Lock, Phase, Which, Word, MOST_NODES, MOST_THREADS};
use crate::tally::{events, Tally};

events! {
    WriterAlone = "no other holder: states with a writing thread",
    WriterAmongCalls = "no other holder: states with a writing thread and another in a call",
    Upgrading = "no other holder: states with a thread inside an upgrade, where none writes",
    Downgrading = "no other holder: states with a thread inside a downgrade before its store",
    Downgraded = "no other holder: states with a thread inside a downgrade after its store",
    AsAsked = "who locked to write does not read, who locked to read does not write: states with a holder",
    RestingFree = "resting: nobody holds",
    RestingReaders = "resting: someone reads",
    RestingWriter = "resting: someone writes",
    RestingClosed = "resting: closed with a count above 0",
    RestingQueue = "resting: writers are queued, as the stored number says",
    RestingSleeper = "resting: someone sleeps, and someone holds",
    Sleeper = "each sleeper is once in the queue or taken from it: states with a sleeper",
    Restored = "upgrade and downgrade at one go: the root's word is restored",
    TreeOpen = "success by the tree: while the root is open",
    TreeLateSwap = "success by the tree: closed since the look, last by a swap",
    TreeLateStore = "success by the tree: closed since the look, last by a store",
    Departing = "a departing read or swap: the count is above 0",
    HandingOver = "the last reader's hand-over: a writer is queued",
    Failed = "failed swaps of a thread on a word: at most the others' changes of it",
    Printed = "failures of a thread in the state: its entries of kind 3",
    Alone = "a thread alone: no swap of it fails",
    Separated = "separation: the lock is as its rows alone leave it, where the other has rows too",
}

/// A tally of the claims' premises.
pub fn tally() -> Tally {
    Tally::new(Event::NAMES, Vec::new())
}

#[derive(Clone, Copy, Debug, PartialEq, Eq)]
pub enum Standing {
    Idle,
    Reading,
    Writing,
    Calling,
    Asleep,
}

/// What the claims speak of in a state.
pub trait State {
    fn threads(&self) -> u8;
    fn standing(&self, thread: u8) -> Standing;
    fn failures(&self, thread: u8) -> u32;
    fn root(&self) -> Word;
    /// The number of groups, and of writers among them.
    fn queued(&self) -> (usize, usize);
    /// Whether each sleeper, and nobody else, is once in the queue or in a group
    /// that a thread has taken and not yet woken; where that can be seen.
    fn each_sleeper_once(&self) -> Option<bool>;
}

impl State for Lock {
    fn threads(&self) -> u8 {
        self.sizes().threads
    }

    fn standing(&self, thread: u8) -> Standing {
        match self.phase(thread) {
            Phase::Idle => Standing::Idle,
            Phase::Reading { .. } => Standing::Reading,
            Phase::Writing => Standing::Writing,
            Phase::Asleep => Standing::Asleep,
            _ => Standing::Calling,
        }
    }

    fn failures(&self, thread: u8) -> u32 {
        Lock::failures(self, thread)
    }

    fn root(&self) -> Word {
        Lock::root(self)
    }

    fn queued(&self) -> (usize, usize) {
        (self.queue().groups(), usize::from(self.queue().number()))
    }

    fn each_sleeper_once(&self) -> Option<bool> {
        let (mut once, mut twice) = (0u64, 0u64);
        let mut add = |members: u64| {
            twice |= once & members;
            once |= members;
        };
        add(self.queue().readers());
        self.queue().writers().for_each(|writer| add(1 << writer));
        let mut asleep = 0;
        for thread in 0..self.threads() {
            match self.phase(thread) {
                // Who has joined has the mutex until it sleeps.
                Phase::Asleep | Phase::ReleaseToSleep => asleep |= 1 << thread,
                Phase::StoreReaders { members, .. }
                | Phase::ReleaseToWake { members, .. }
                | Phase::Wake { members, .. } => add(members),
                _ => {}
            }
        }
        Some(once == asleep && twice == 0)
    }
}

/// How often the claims on one lock had something to claim, and the first that did
/// not hold.
pub struct Claims {
    which: Which,
    met: Tally,
    broken: Option<String>,
}

impl Claims {
    pub fn new(which: Which) -> Claims {
        Claims { which, met: tally(), broken: None }
    }

    /// Those of both locks.
    pub fn of_both() -> [Claims; 2] {
        Which::BOTH.map(Claims::new)
    }

    pub fn met(&self) -> &Tally {
        &self.met
    }

    /// The first claim that did not hold, with its run.
    pub fn broken(&self) -> Option<&str> {
        self.broken.as_deref()
    }

    /// Request Ten: "take away every row that belongs to one lock: the other lock's
    /// words, queue, standings and failures are what the rest alone gives".
    pub fn separated(&mut self, holds: bool, watch: &Watch) {
        self.claim(Event::Separated, holds, &watch.rows);
    }

    /// Counts a premise that was met, and asks that the claim holds.
    fn claim(&mut self, event: Event, holds: bool, rows: &[(u8, u8)]) {
        self.met.count(event as usize);
        if !holds && self.broken.is_none() {
            let rows: Vec<_> = rows.iter().map(|(thread, order)| format!("{thread}:{order}")).collect();
            let name = Event::NAMES[event as usize];
            let (which, rows) = (self.which, rows.join(" "));
            self.broken = Some(format!("does not hold: {name}\nafter the {which:?} lock's rows {rows}"));
        }
    }
}

/// Follows the rows of one lock.
pub struct Watch {
    /// Each row's thread and order.
    rows: Vec<(u8, u8)>,
    /// The root's word in the latest state.
    root: Word,
    /// Each thread's latest call, by its order.
    calls: [u8; MOST_THREADS],
    /// The kind of each thread's latest entry.
    kinds: [u8; MOST_THREADS],
    /// The row of each thread's latest look.
    looks: [usize; MOST_THREADS],
    /// The row of the latest closing step, and whether it was a store.
    closing: Option<(usize, bool)>,
    /// How many rows had been taken in the latest state with a count of 0.
    empty: usize,
    /// How many swaps each thread has done in its latest call.
    swaps: [usize; MOST_THREADS],
    /// Whether the thread has stored in its latest call.
    stored: [bool; MOST_THREADS],
    /// A thread that upgraded with ticket 0 from an open root, with the word its
    /// swap found; nobody else moved since.
    upgraded: Option<(usize, Word)>,
    /// How often each thread failed to swap each word.
    failed: [[u32; MOST_NODES]; MOST_THREADS],
    /// How often each thread changed each word, and all of them did.
    changed: [[u32; MOST_NODES]; MOST_THREADS],
    all_changed: [u32; MOST_NODES],
    /// Whether all rows are one thread's.
    alone: bool,
}

impl Watch {
    pub fn new() -> Watch {
        Watch {
            rows: Vec::new(),
            root: Word::new(0, 0, false),
            calls: [order::GO_ON; MOST_THREADS],
            kinds: [kind::CALL_BEGUN; MOST_THREADS],
            looks: [0; MOST_THREADS],
            closing: None,
            empty: 0,
            swaps: [0; MOST_THREADS],
            stored: [false; MOST_THREADS],
            upgraded: None,
            failed: [[0; MOST_NODES]; MOST_THREADS],
            changed: [[0; MOST_NODES]; MOST_THREADS],
            all_changed: [0; MOST_NODES],
            alone: true,
        }
    }

    /// Takes in one row with its entry and the state after it. Neither order nor
    /// word has the second lock's number added.
    pub fn row(&mut self, claims: &mut Claims, thread: u8, order: u8, entry: Entry, state: &impl State) {
        let (row, number) = (self.rows.len(), usize::from(thread));
        self.alone &= self.rows.first().is_none_or(|first| first.0 == thread);
        self.rows.push((thread, order));
        if order != order::GO_ON {
            self.calls[number] = order;
            self.swaps[number] = 0;
            self.stored[number] = false;
        }
        let (found, root) = (self.root, state.root());

        // A read-lock looks first and after each release that ends in no sleep;
        // its other reads of the root come after a read of a node or under the
        // mutex.
        let looks = matches!(self.kinds[number], kind::CALL_BEGUN | kind::MUTEX_RELEASED);
        if looks && entry == (Entry { kind: kind::WORD_READ, word: word::ROOT }) {
            self.looks[number] = row;
        }
        if entry.kind != kind::HELD_UP {
            self.kinds[number] = entry.kind;
        }
        // "A store that opens with arrivals straight into closed counts as a
        // closing step."
        let store = entry.kind == kind::PLAIN_STORE;
        self.stored[number] |= store;
        if root.closed() && (store || !found.closed()) {
            self.closing = Some((row, store));
        }
        if root.count() == 0 {
            self.empty = row + 1;
        }
        self.root = root;

        self.failed_swaps(claims, thread, entry, state);
        self.success_by_the_tree(claims, number, entry);
        self.restored_root(claims, number, entry, found, state.standing(thread));
        self.holders(claims, state);
    }

    /// Document 01's demand 3: of a thread's failed swaps on a word and the others'
    /// changes of it, "the first number is at most the second". Both change in a
    /// row for its thread and word alone, the second but upwards.
    fn failed_swaps(&mut self, claims: &mut Claims, thread: u8, entry: Entry, state: &impl State) {
        let (number, word) = (usize::from(thread), usize::from(entry.word));
        match entry.kind {
            kind::SWAP_FAILED => {
                self.failed[number][word] += 1;
                let others = self.all_changed[word] - self.changed[number][word];
                claims.claim(Event::Failed, self.failed[number][word] <= others, &self.rows);
            }
            kind::SWAP_DONE | kind::PLAIN_STORE => {
                self.changed[number][word] += 1;
                self.all_changed[word] += 1;
            }
            _ => {}
        }
        // "t's failures in the state, which the sheet prints, are the number of
        // entries j below i of kind 3, on whatever word"
        let failures: u32 = self.failed[number].iter().sum();
        if failures > 0 {
            claims.claim(Event::Printed, state.failures(thread) == failures, &self.rows);
        }
        // "if all i rows are one thread's, none of their entries is of kind 3"
        if self.alone {
            claims.claim(Event::Alone, failures == 0 && state.failures(thread) == 0, &self.rows);
        }
    }

    /// "When the thread upgraded with ticket 0, its upgrade's swap found the root
    /// open and no other thread moved from that swap to the downgrade's end, the
    /// root word after both is the one that swap found."
    fn restored_root(
        &mut self,
        claims: &mut Claims,
        thread: usize,
        entry: Entry,
        found: Word,
        standing: Standing,
    ) {
        let call = self.calls[thread];
        match self.upgraded {
            Some((upgraded, word)) if upgraded == thread && call == order::DOWNGRADE => {
                if standing == Standing::Reading {
                    claims.claim(Event::Restored, self.root == word, &self.rows);
                    self.upgraded = None;
                }
            }
            _ => self.upgraded = None,
        }
        // With a node's ticket an upgrade has other swaps before.
        let first = entry.kind == kind::SWAP_DONE && self.swaps[thread] == 0;
        if first && call == order::UPGRADE && standing == Standing::Writing && !found.closed() {
            self.upgraded = Some((thread, found));
        }
        self.swaps[thread] += usize::from(entry.kind == kind::SWAP_DONE);
    }

    /// "A read-lock that succeeds by the tree either succeeds while the root is
    /// open, or the latest closing step came after that call's last look, and
    /// the root's count was above 0 in every state since. [...] Success is the
    /// step that raises the count of the ticket's own node."
    fn success_by_the_tree(&self, claims: &mut Claims, thread: usize, entry: Entry) {
        let route = match self.calls[thread] {
            order @ order::READ_LOCK..=order::LAST_READ_LOCK => order - order::READ_LOCK,
            _ => return,
        };
        if route == 0 || entry != (Entry { kind: kind::SWAP_DONE, word: route }) {
            return;
        }
        if !self.root.closed() {
            return claims.claim(Event::TreeOpen, true, &self.rows);
        }
        let Some((closing, store)) = self.closing else {
            return claims.claim(Event::TreeLateSwap, false, &self.rows);
        };
        let event = if store { Event::TreeLateStore } else { Event::TreeLateSwap };
        claims.claim(event, closing > self.looks[thread] && self.empty <= closing, &self.rows);
    }

    fn holders(&self, claims: &mut Claims, state: &impl State) {
        let (mut reading, mut writing, mut calling, mut upgrading) = (0, 0, 0, 0);
        let (mut downgrading, mut downgraded) = (0, 0);
        let (mut readers_asleep, mut writers_asleep) = (0, 0);
        let mut as_asked = true;
        for thread in 0..state.threads() {
            match state.standing(thread) {
                Standing::Idle => {}
                Standing::Reading => {
                    reading += 1;
                    as_asked &= self.calls[usize::from(thread)] != order::WRITE_LOCK;
                }
                Standing::Writing => {
                    writing += 1;
                    as_asked &= self.calls[usize::from(thread)] < order::READ_LOCK;
                }
                // "A thread inside this call still counts as a reader for
                // exclusion."
                Standing::Calling if self.calls[usize::from(thread)] == order::UPGRADE => {
                    calling += 1;
                    upgrading += 1;
                }
                // "For exclusion it is a writer until its store and a reader from
                // then on."
                Standing::Calling if self.calls[usize::from(thread)] == order::DOWNGRADE => {
                    calling += 1;
                    let stored = self.stored[usize::from(thread)];
                    downgrading += usize::from(!stored);
                    downgraded += usize::from(stored);
                }
                Standing::Calling => calling += 1,
                Standing::Asleep if self.calls[usize::from(thread)] == order::WRITE_LOCK => {
                    writers_asleep += 1;
                }
                Standing::Asleep => readers_asleep += 1,
            }
        }
        let mut claim = |event, holds| claims.claim(event, holds, &self.rows);

        // "No state has a writing thread and any other holder."
        let (readers, writers) = (reading + upgrading + downgraded, writing + downgrading);
        let alone = writers == 0 || writers == 1 && readers == 0;
        if writing > 0 {
            claim(Event::WriterAlone, alone);
            if calling > 0 {
                claim(Event::WriterAmongCalls, alone);
            }
        }
        if upgrading > 0 {
            claim(Event::Upgrading, alone);
        }
        if downgrading > 0 {
            claim(Event::Downgrading, alone);
        }
        if downgraded > 0 {
            claim(Event::Downgraded, alone);
        }
        if reading + writing > 0 {
            claim(Event::AsAsked, as_asked);
        }
        if let (true, Some(once)) = (readers_asleep + writers_asleep > 0, state.each_sleeper_once()) {
            claim(Event::Sleeper, once);
        }

        // "In a state where every thread is idle, holding or asleep, the root's
        // count is above 0 exactly when someone reads, it is (0, closed) exactly
        // when someone writes, and closed with a count above 0 only when a
        // writer is queued."
        if calling > 0 {
            return;
        }
        let (count, closed) = (self.root.count(), self.root.closed());
        let holds = (count > 0) == (reading > 0) && (count == 0 && closed) == (writing > 0);
        match (reading, writing) {
            (0, 0) => claim(Event::RestingFree, holds),
            (_, 0) => claim(Event::RestingReaders, holds),
            (_, _) => claim(Event::RestingWriter, holds),
        }
        if closed && count > 0 {
            claim(Event::RestingClosed, writers_asleep > 0);
        }
        // No sleeper is forgotten: whoever holds will hand over.
        if readers_asleep + writers_asleep > 0 {
            claim(Event::RestingSleeper, reading + writing > 0);
        }
        // Then who sleeps is queued, and nobody else.
        let groups = writers_asleep + usize::from(readers_asleep > 0);
        let as_stored = state.queued() == (groups, writers_asleep);
        if writers_asleep > 0 || !as_stored {
            claim(Event::RestingQueue, as_stored);
        }
    }

    /// What refusal 8 was about: "a departing read finds a count of 0, or a
    /// reader's hand-over finds no writer". Looks at the plain machine's state
    /// before a row.
    pub fn never_refused(&self, claims: &mut Claims, lock: &Lock, thread: u8) {
        match lock.phase(thread) {
            Phase::DepartRead { node, made } | Phase::DepartSwap { node, made, .. } => {
                claims.claim(Event::Departing, lock.surplus(node, made) > 0, &self.rows);
            }
            Phase::TakeGroup { leaver: Leaver::LastReader } => {
                claims.claim(Event::HandingOver, lock.queue().has_writer(), &self.rows);
            }
            _ => {}
        }
    }
}
