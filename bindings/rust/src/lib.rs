//! The lock bench: runs a schedule file and writes its sheet, by the steps of its
//! two locks ([`bench_sheet`]) or by whole calls ([`plain_sheet`]), or makes the
//! schedule from the calls that each thread wants, round the threads by number
//! ([`dispatch_sheet`]) or at lent turns ([`draw_sheet`]), or books the entries of a
//! till as it goes ([`credit_sheet`]), or holds a server's record of its own steps to the
//! bench ([`record_sheet`]), or runs a site for as many turns as are lent and tells what
//! that cost ([`site_sheet`]). And the ticket lock, with files of its own
//! ([`ticket_sheet`]). Small locks are explored completely: every state that rows of any
//! number lead to ([`explore_lock`], of two locks [`explore_locks`]), each with a schedule
//! ([`explore_schedule`]).
//!
//! What comes back as bytes can be read as values: a sheet ([`Sheet`], [`TicketSheet`],
//! [`SiteSheet`]), the rows of a schedule ([`Rows`]), the entries of a journal ([`Entries`]).
//! The numbers in them have names ([`refusal`], [`order`], [`kind`], [`word`]).

/// The longest file that is not refused, of the ticket lock too: 5 + 2 × 4,096 bytes.
pub const LONGEST_FILE: usize = 8197;
/// A journal of this many bytes is long enough for every file: 2 × 4,096.
pub const LONGEST_JOURNAL: usize = 8192;
/// The smallest buffer that a sheet is written into.
pub const LEAST_SHEET: usize = 8192;
/// The longest till that is not refused: 2 + 3 × 32 bytes.
pub const LONGEST_TILL: usize = 98;
/// The smallest buffer that the steps given are written into: the longest schedule.
pub const LEAST_SCHEDULE: usize = 8197;
/// The longest site file that is not refused: 11 + 2 × 4,096 bytes.
pub const LONGEST_SITE: usize = 8203;
/// In a record: no value is recorded.
pub const NO_VALUE: u32 = u32::MAX;
/// The numbers that a state takes in the store of an exploration, and those that it should
/// have in the index.
pub const STATE_NUMBERS: usize = 8;
pub const INDEX_NUMBERS: usize = 2;

mod numbers;
mod rows;
mod sheet;

pub use numbers::{kind, order, refusal, ticket_order, word};
pub use rows::{Entries, Entry, Row, Rows};
pub use sheet::{
    Expected, Lock, Measured, Queue, Root, Sheet, SheetError, SiteSheet, SiteThread, Standing, Thread,
    TicketSheet, TicketStanding, Waits,
};

/// Declares the library's functions, and makes a function of slices of each: those that
/// are read stand before the semicolon, those that are written behind it.
macro_rules! functions {
    ($($(#[$text:meta])* fn $name:ident($($read:ident),*; $($written:ident),*);)*) => {
        mod capi {
            extern "C" {
                pub static lock_bench_identity: std::ffi::c_char;
                $(pub fn $name($($read: *const u8, _: usize,)* $($written: *mut u8, _: usize),*) -> usize;)*
            }
        }

        $(
            $(#[$text])*
            pub fn $name($($read: &[u8],)* $($written: &mut [u8]),*) -> Option<usize> {
                // SAFETY: each pointer is a slice's own with that slice's length, slices
                // that are written overlap no other, and the function touches nothing
                // outside them, keeps none and takes every content and length.
                let length = unsafe {
                    capi::$name(
                        $($read.as_ptr(), $read.len(),)*
                        $($written.as_mut_ptr(), $written.len()),*
                    )
                };
                // A sheet has at least its first line.
                (length > 0).then_some(length)
            }
        )*
    };
}

functions! {
    /// Runs a schedule file on two fresh locks over one set of threads, enters what
    /// each row did in the journal, and writes the sheet as text to the start of
    /// `sheet`. Orders with 128 added are the second lock's, whose lines stand behind
    /// the first's on the sheet.
    ///
    /// Gives the sheet's length, or `None` where `sheet` is below [`LEAST_SHEET`]
    /// bytes (refusal 9): then `sheet` is unchanged, and the run and its journal
    /// stand all the same. Every other refusal is a sheet too: its first line has
    /// the refusal number, or 0, and the number of rows taken.
    ///
    /// For a file that names S rows, byte i of the journal is the kind of row i's
    /// entry and byte S + i is its word, with 64 added at the second lock. Bytes of
    /// rows not taken and bytes from 2 × S on are unchanged, and all bytes after
    /// refusals 1 to 4. A journal below 2 × S bytes is refusal 4. Bytes of `sheet`
    /// behind the sheet are unchanged.
    fn bench_sheet(file; journal, sheet);

    /// Runs a schedule file on the plain engine, a single surplus and a flag where
    /// the bench has a tree, and writes the sheet as text to the start of `sheet`.
    ///
    /// Each row is a whole call, run until its thread is idle, holds or sleeps: order
    /// 0 and those of the second lock are refusal 6, and a call by a sleeper refusal 7.
    /// There is no journal, and so no refusal 4. The sheet has no node lines, `-` for
    /// each ticket and no failures.
    ///
    /// Gives the sheet's length, or `None` where `sheet` is below [`LEAST_SHEET`]
    /// bytes (refusal 9): then `sheet` is unchanged. Every other refusal is a sheet
    /// too: its first line has the refusal number, or 0, and the number of rows
    /// taken. Bytes of `sheet` behind the sheet are unchanged.
    fn plain_sheet(file; sheet);

    /// Dispatches: each row of the file is a call that its thread wants, in file
    /// order. From thread 0 on it goes round the threads by number, on a fresh lock,
    /// and gives a step to each that is neither asleep nor done with its last call,
    /// 4,096 steps at most. It writes the steps given as a schedule file to the start
    /// of `schedule`, and the sheet as text to the start of `sheet`; the sheet that
    /// [`bench_sheet`] writes of that schedule is the same but for the refusal number.
    ///
    /// Gives the sheet's length, or `None` where `sheet` is below [`LEAST_SHEET`]
    /// bytes: then both buffers are unchanged, whatever the file. The sheet's first
    /// line has the number of steps given, and 0 or the refusal: 1 to 3, of the file;
    /// 4, where `schedule` is below [`LEAST_SCHEDULE`] bytes; 5 or 6, of the first row
    /// that is no call of a thread (order 0 is none, nor are the second lock's), before
    /// any step; 7, at the turn of a call that does not suit its thread.
    ///
    /// For K steps the schedule has 5 + 2 × K bytes. Bytes behind it are unchanged,
    /// and all bytes after refusals 1 to 4. Bytes of `sheet` behind the sheet are
    /// unchanged.
    fn dispatch_sheet(file; schedule, sheet);

    /// Draws: takes a file of wanted calls as [`dispatch_sheet`] does, and gives the steps
    /// at `turns`. Each byte of it, of any number of them, names a thread: where that thread
    /// is neither asleep nor done with its last call it gets the step, else the turn is
    /// passed over, as is a turn of T or more. It ends when the turns are used up, after
    /// 4,096 steps, or with 7. What comes back, and when it is `None` or refused, is as for
    /// [`dispatch_sheet`].
    fn draw_sheet(file, turns; schedule, sheet);

    /// Runs a site at `turns`, and writes what that cost as lines of numbers to the start of
    /// `sheet` ([`SiteSheet`]).
    ///
    /// A site file has N, F, T, hold and think in a byte each, the number of rows S, 0 to
    /// 4,096, in two bytes and the warm-up in four, low byte first, then S thread numbers and
    /// S orders: the calls that each thread wants, as for [`dispatch_sheet`]. It goes through
    /// them again and again. Each byte of `turns`, of at most 4,294,967,294 of them, names a
    /// thread. In a call that thread makes its next row. Outside one it lets `hold` of its
    /// turns pass where it holds the lock, else `think`, and then begins its next call. The
    /// turn of a thread that is asleep or has no calls is passed over, as is one of T or more.
    /// What comes before the warm-up is over is run and not measured.
    ///
    /// Gives the sheet's length, or `None` where `sheet` is below [`LEAST_SHEET`] bytes
    /// (refusal 9): then `sheet` is unchanged. The sheet's first line has the number of rows
    /// made, and 0 or the refusal: 1, fewer than 11 bytes; 2, a size; 3, a length that is not
    /// 11 + 2 × S, or too many turns; 5 or 6, of the first row that is no call of a thread,
    /// before any turn; 7, at the turn of a call that does not suit its thread, which ends the
    /// run. Bytes of `sheet` behind the sheet are unchanged.
    fn site_sheet(site, turns; sheet);

    /// Runs a schedule file as [`bench_sheet`] does, with a till: order 96 + e books entry
    /// e, by a thread that is writing the first lock, is in no call and is not asleep. The
    /// sheet ends with the balance of each room.
    ///
    /// The till has the number of rooms R, 1 to 32, and of entries E, 0 to 32, a byte each,
    /// then E room numbers below R and E amounts, signed, in two bytes each with the low
    /// byte first. A till whose sizes, length or room numbers are wrong, an empty one
    /// too, is refusal 10, which goes after 3 and before 4; then the journal is unchanged
    /// and the sheet has its first line alone. Without a till, run [`bench_sheet`], which
    /// refuses bookings with 6.
    ///
    /// A booking's kind in the journal is 11 where the entry is booked, 12 where it was
    /// booked before, and 13 where it would take a balance below 0; its word is 33.
    /// Everything else is as for [`bench_sheet`].
    fn credit_sheet(file, till; journal, sheet);

    /// Runs a file of the ticket lock from its start number and writes the sheet as
    /// text to the start of `sheet`.
    ///
    /// The file has the number of threads T, 1 to 64, in a byte, the number of rows S, 0
    /// to 4,096, and the start number, each in two bytes with the low byte first, then S
    /// thread numbers and S orders: 1 takes a ticket, 0 compares it with the grant and
    /// holds where they are equal, 2 advances the grant.
    ///
    /// Gives the sheet's length, or `None` where `sheet` is below [`LEAST_SHEET`] bytes
    /// (refusal 9): then `sheet` is unchanged. Every other refusal is a sheet too: its
    /// first line has the refusal number, or 0, and the number of rows taken. There is
    /// no journal, and so no refusal 4. Bytes of `sheet` behind the sheet are unchanged.
    fn ticket_sheet(file; sheet);

    /// Holds a record of a server's steps to the bench: runs its rows on two fresh locks,
    /// stops at the first that is refused or differs, and writes the sheet as text to the
    /// start of `sheet`, of the state before that row or after all rows.
    ///
    /// A record has N, F and T in a byte each, then eight bytes for each row: thread, order,
    /// kind, word, and in four bytes, low byte first, the word's value after the row, or
    /// [`NO_VALUE`]. The value of a node is its count, of the root closed + 2 × direct +
    /// 131,072 × tree; other words have none.
    ///
    /// Gives the sheet's length, or `None` where `sheet` is below [`LEAST_SHEET`] bytes
    /// (refusal 9): then `sheet` is unchanged. Every other refusal is a sheet too: its first
    /// line has the number of rows held, and 0 or the refusal: 1, fewer than 3 bytes; 2, a
    /// size; 3, a length that is not 3 + 8 × K; 5, 6 or 7, of a row; 11, where a row's kind or
    /// word is another than the record's; 12, where its value is. After 11 and 12 the second
    /// line is `entry k w v`, what the bench gives, with `-` for no value. Bytes of `sheet`
    /// behind the sheet are unchanged.
    fn record_sheet(record; sheet);
}

/// What the library was proved from, in lines that each have a name and a text:
/// `version`, `sources` (a sum of them), `toolchain`.
pub fn identity() -> &'static str {
    // SAFETY: the library's text ends in a byte 0, is never written, and is ASCII.
    let text = unsafe { std::ffi::CStr::from_ptr(std::ptr::addr_of!(capi::lock_bench_identity)) };
    text.to_str().expect("the identity is ASCII")
}

/// The library's functions of `libcapi_explore.a`.
mod capi_explore {
    extern "C" {
        pub fn explore_lock(
            nodes: usize,
            fan: usize,
            threads: usize,
            store: *mut u64,
            store_length: usize,
            index: *mut u64,
            index_length: usize,
            states: *mut u64,
            depth: *mut u64,
        ) -> usize;

        pub fn explore_schedule(
            nodes: usize,
            fan: usize,
            threads: usize,
            store: *const u64,
            store_length: usize,
            state: usize,
            schedule: *mut u8,
            schedule_length: usize,
        ) -> usize;
    }
}

/// The library's function of `libcapi_explore_locks.a`.
mod capi_explore_locks {
    extern "C" {
        pub fn explore_locks(
            nodes: usize,
            fan: usize,
            threads: usize,
            ordered: usize,
            store: *mut u64,
            store_length: usize,
            second: *mut u64,
            second_length: usize,
            index: *mut u64,
            index_length: usize,
            states: *mut u64,
            depth: *mut u64,
            stuck: *mut u64,
            first: *mut u64,
        ) -> usize;
    }
}

/// What an exploration found: the number of states, and the rows that the deepest needs.
#[derive(Clone, Copy, Debug, PartialEq, Eq)]
pub struct Explored {
    pub states: u64,
    pub depth: u64,
}

/// What an exploration of two locks found, the states that are stuck among it: how many,
/// and the first of them, to which no shorter schedule leads.
#[derive(Clone, Copy, Debug, PartialEq, Eq)]
pub struct ExploredLocks {
    pub states: u64,
    pub depth: u64,
    pub stuck: u64,
    pub first_stuck: Option<usize>,
}

/// Why an exploration is not complete.
#[derive(Clone, Copy, Debug, PartialEq, Eq)]
pub enum Unexplored {
    /// The store was too small. Each state found has a schedule; nothing is said of others.
    StoreTooSmall(Explored),
    /// A size is out of its range: 1 to 8 nodes, fan-out 1 to 16, 1 to 8 threads.
    SizeOutOfRange,
}

/// Explores one lock completely: from the fresh lock on every row of every thread and
/// order, until no row leads to a state that was not found. States that differ in failed
/// swaps alone are one. What is found is then all that rows of any number lead to, and
/// each state has a schedule with as few rows as any ([`explore_schedule`]).
///
/// `store` has [`STATE_NUMBERS`] numbers for each state; `index`, which the function clears,
/// should have [`INDEX_NUMBERS`]. States are numbered from 0, the fresh lock, in the order
/// of the rows that they need. Where a size is out of its range, `store` is unchanged.
pub fn explore_lock(
    nodes: usize,
    fan: usize,
    threads: usize,
    store: &mut [u64],
    index: &mut [u64],
) -> Result<Explored, Unexplored> {
    let mut found = Explored { states: 0, depth: 0 };
    // SAFETY: as for `bench_sheet`; the two numbers are fields of their own.
    let answer = unsafe {
        capi_explore::explore_lock(
            nodes,
            fan,
            threads,
            store.as_mut_ptr(),
            store.len(),
            index.as_mut_ptr(),
            index.len(),
            &mut found.states,
            &mut found.depth,
        )
    };
    match answer {
        0 => Ok(found),
        1 => Err(Unexplored::StoreTooSmall(found)),
        _ => Err(Unexplored::SizeOutOfRange),
    }
}

/// The same of two locks over one set of threads; if `ordered`, with the rows alone that are
/// in lock order: none asks for the first lock while its thread holds the second or is in a
/// call of it. A state is stuck where every row, of any thread and order, is refused or held
/// up.
///
/// `store` and `second` have [`STATE_NUMBERS`] numbers for each state, those of the first and
/// of the second lock; [`explore_schedule`] gives a state's schedule from `store`.
pub fn explore_locks(
    nodes: usize,
    fan: usize,
    threads: usize,
    ordered: bool,
    store: &mut [u64],
    second: &mut [u64],
    index: &mut [u64],
) -> Result<ExploredLocks, Unexplored> {
    let (mut states, mut depth, mut stuck, mut first) = (0, 0, 0, 0);
    // SAFETY: as for `bench_sheet`; the four numbers are locals of their own.
    let answer = unsafe {
        capi_explore_locks::explore_locks(
            nodes,
            fan,
            threads,
            ordered as usize,
            store.as_mut_ptr(),
            store.len(),
            second.as_mut_ptr(),
            second.len(),
            index.as_mut_ptr(),
            index.len(),
            &mut states,
            &mut depth,
            &mut stuck,
            &mut first,
        )
    };
    let first_stuck = (first < states).then_some(first as usize);
    match answer {
        0 => Ok(ExploredLocks { states, depth, stuck, first_stuck }),
        1 => Err(Unexplored::StoreTooSmall(Explored { states, depth })),
        _ => Err(Unexplored::SizeOutOfRange),
    }
}

/// Writes the schedule of a state of the store that [`explore_lock`] left, or of the first
/// that [`explore_locks`] left, for the same sizes, as a schedule file to the start of `schedule`: the rows by which the search came
/// to it, all of which [`bench_sheet`] takes.
///
/// Gives its length, 5 + 2 × S for S rows, or `None` where nothing is written: a size is
/// out of its range, there is no such state in the store, S is above 4,096, or `schedule`
/// is shorter than that. Bytes behind the schedule are unchanged.
pub fn explore_schedule(
    nodes: usize,
    fan: usize,
    threads: usize,
    store: &[u64],
    state: usize,
    schedule: &mut [u8],
) -> Option<usize> {
    // SAFETY: as for `bench_sheet`.
    let length = unsafe {
        capi_explore::explore_schedule(
            nodes,
            fan,
            threads,
            store.as_ptr(),
            store.len(),
            state,
            schedule.as_mut_ptr(),
            schedule.len(),
        )
    };
    (length > 0).then_some(length)
}

#[cfg(test)]
mod tests {
    use super::*;

    const WORKED: [u8; 17] = [2, 1, 2, 6, 0, 0, 0, 0, 0, 0, 0, 0x41, 0, 0, 0, 0, 0];
    const WORKED_JOURNAL: [u8; 12] = [0, 1, 1, 1, 2, 2, 0x21, 0, 1, 0, 0, 1];
    const WORKED_SHEET: &[u8] =
        b"answer 0 at 6\nroot 0 1 open\nnode 1 1\nqueue free 0 0\nthread 0 reading 1 0\nthread 1 idle - 0\n\
          root 0 0 open\nnode 1 0\nqueue free 0 0\nthread 0 idle - 0\nthread 1 idle - 0\n";

    #[test]
    fn worked_example() {
        let mut journal = [0xee; 13];
        let mut page = [0xee; LEAST_SHEET];
        assert_eq!(bench_sheet(&WORKED, &mut journal, &mut page), Some(WORKED_SHEET.len()));
        assert_eq!(page[..WORKED_SHEET.len()], *WORKED_SHEET);
        assert!(page[WORKED_SHEET.len()..].iter().all(|&byte| byte == 0xee));
        assert_eq!((&journal[..12], journal[12]), (&WORKED_JOURNAL[..], 0xee));
    }

    #[test]
    fn small_buffer_is_unchanged_and_the_journal_stands() {
        let mut journal = [0xee; 12];
        let mut page = [0xee; LEAST_SHEET - 1];
        assert_eq!(bench_sheet(&WORKED, &mut journal, &mut page), None);
        assert_eq!((page, journal), ([0xee; LEAST_SHEET - 1], WORKED_JOURNAL));
    }

    #[test]
    fn empty_slices() {
        let mut page = [0; LEAST_SHEET];
        assert_eq!(bench_sheet(&[], &mut [], &mut page), Some(14));
        assert_eq!(page[..14], *b"answer 1 at 0\n");
        assert_eq!(bench_sheet(&[], &mut [], &mut []), None);
    }

    #[test]
    fn second_lock() {
        // Thread 0 writes both locks.
        const BOTH: [u8; 17] = [1, 1, 1, 6, 0, 0, 0, 0, 0, 0, 0, 1, 0, 0, 0x81, 0, 0];
        const SHEET: &[u8] = b"answer 0 at 6\nroot 0 0 closed\nqueue free 0 0\nthread 0 writing - 0\n\
                               root 0 0 closed\nqueue free 0 0\nthread 0 writing - 0\n";
        let mut journal = [0xee; 12];
        let mut page = [0xee; LEAST_SHEET];
        assert_eq!(bench_sheet(&BOTH, &mut journal, &mut page), Some(SHEET.len()));
        assert_eq!(page[..SHEET.len()], *SHEET);
        assert_eq!(journal, [0, 1, 2, 0, 1, 2, 33, 0, 0, 97, 64, 64]);
    }

    #[test]
    fn plain_engine() {
        // A writer, a reader that sleeps, and the writer's unlock.
        const CALLS: [u8; 11] = [1, 1, 2, 3, 0, 0, 1, 0, 1, 0x40, 2];
        const SHEET: &[u8] =
            b"answer 0 at 3\nroot 1 open\nqueue free 0 0\nthread 0 idle - 0\nthread 1 reading - 0\n";
        let mut page = [0xee; LEAST_SHEET];
        assert_eq!(plain_sheet(&CALLS, &mut page), Some(SHEET.len()));
        assert_eq!(page[..SHEET.len()], *SHEET);
        assert!(page[SHEET.len()..].iter().all(|&byte| byte == 0xee));

        let mut page = [0xee; LEAST_SHEET - 1];
        assert_eq!(plain_sheet(&CALLS, &mut page), None);
        assert_eq!(page, [0xee; LEAST_SHEET - 1]);
        assert_eq!(plain_sheet(&[], &mut []), None);
    }

    #[test]
    fn credit_table() {
        // Thread 0 writes; songs for 3 are denied, 5 are topped up, 3 are booked.
        const ROWS: [u8; 17] = [1, 1, 1, 6, 0, 0, 0, 0, 0, 0, 0, 1, 0, 0, 97, 96, 97];
        const TILL: [u8; 8] = [2, 2, 1, 1, 5, 0, 0xfd, 0xff];
        const SHEET: &[u8] = b"answer 0 at 6\nroot 0 0 closed\nqueue free 0 0\nthread 0 writing - 0\n\
                               root 0 0 open\nqueue free 0 0\nthread 0 idle - 0\nroom 0 0\nroom 1 2\n";
        let mut journal = [0xee; 13];
        let mut page = [0xee; LEAST_SHEET];
        assert_eq!(credit_sheet(&ROWS, &TILL, &mut journal, &mut page), Some(SHEET.len()));
        assert_eq!(page[..SHEET.len()], *SHEET);
        assert!(page[SHEET.len()..].iter().all(|&byte| byte == 0xee));
        assert_eq!(journal, [0, 1, 2, 13, 11, 11, 33, 0, 0, 33, 33, 33, 0xee]);

        let mut journal = [0xee; 12];
        let mut page = [0xee; LEAST_SHEET];
        assert_eq!(credit_sheet(&ROWS, &[], &mut journal, &mut page), Some(15));
        assert_eq!(page[..15], *b"answer 10 at 0\n");
        assert_eq!(journal, [0xee; 12]);
        assert_eq!(credit_sheet(&ROWS, &TILL, &mut journal, &mut [0; LEAST_SHEET - 1]), None);
    }

    #[test]
    fn ticket_lock() {
        // Three threads take the tickets 65,535, 0 and 1; the first holds.
        const ROWS: [u8; 13] = [3, 4, 0, 0xff, 0xff, 0, 1, 2, 0, 1, 1, 1, 0];
        const SHEET: &[u8] =
            b"answer 0 at 4\nticket 2\ngrant 65535\nthread 0 holding\nthread 1 near\nthread 2 far\n";
        let mut page = [0xee; LEAST_SHEET];
        assert_eq!(ticket_sheet(&ROWS, &mut page), Some(SHEET.len()));
        assert_eq!(page[..SHEET.len()], *SHEET);
        assert!(page[SHEET.len()..].iter().all(|&byte| byte == 0xee));

        let mut page = [0xee; LEAST_SHEET - 1];
        assert_eq!(ticket_sheet(&ROWS, &mut page), None);
        assert_eq!(page, [0xee; LEAST_SHEET - 1]);
        assert_eq!(ticket_sheet(&[], &mut []), None);
    }

    /// The record of a write-lock: the beginning, the read of the root, the swap that closes it.
    fn write_locked(value: u32) -> Vec<u8> {
        let mut record = vec![1, 1, 1];
        for (row, value) in [([0, 1, 0, 33], NO_VALUE), ([0, 0, 1, 0], 0), ([0, 0, 2, 0], value)] {
            record.extend(row);
            record.extend(value.to_le_bytes());
        }
        record
    }

    #[test]
    fn record() {
        const END: &[u8] = b"answer 0 at 3\nroot 0 0 closed\nqueue free 0 0\nthread 0 writing - 0\n\
                             root 0 0 open\nqueue free 0 0\nthread 0 idle - 0\n";
        let mut page = [0xee; LEAST_SHEET];
        assert_eq!(record_sheet(&write_locked(1), &mut page), Some(END.len()));
        assert_eq!(page[..END.len()], *END);
        assert!(page[END.len()..].iter().all(|&byte| byte == 0xee));
        assert_eq!(record_sheet(&write_locked(NO_VALUE), &mut page), Some(END.len()));

        // The server says that the root is open and has one arrival; the bench says that it is closed.
        const DIFFERS: &[u8] =
            b"answer 12 at 2\nentry 2 0 1\nroot 0 0 open\nqueue free 0 0\nthread 0 calling - 0\n\
                                 root 0 0 open\nqueue free 0 0\nthread 0 idle - 0\n";
        assert_eq!(record_sheet(&write_locked(2), &mut page), Some(DIFFERS.len()));
        assert_eq!(page[..DIFFERS.len()], *DIFFERS);

        let mut page = [0xee; LEAST_SHEET - 1];
        assert_eq!(record_sheet(&write_locked(1), &mut page), None);
        assert_eq!(page, [0xee; LEAST_SHEET - 1]);
        assert_eq!(record_sheet(&[], &mut []), None);
    }

    #[test]
    fn refused_records() {
        let whole = write_locked(1);
        let mut page = [0; LEAST_SHEET];
        for (record, answer) in [
            (&whole[..2], b"answer 1 at 0\n"),
            (&[0, 1, 1], b"answer 2 at 0\n"),
            (&whole[..26], b"answer 3 at 0\n"),
        ] {
            assert_eq!(record_sheet(record, &mut page), Some(14));
            assert_eq!(page[..14], *answer);
        }
        for (byte, value, answer) in
            [(11, 1, b"answer 5 at 1\n"), (12, 96, b"answer 6 at 1\n"), (12, 1, b"answer 7 at 1\n")]
        {
            let mut changed = whole.clone();
            changed[byte] = value;
            assert!(record_sheet(&changed, &mut page).is_some());
            assert_eq!(page[..14], *answer);
        }
    }

    #[test]
    fn exploration() {
        // A thread alone: idle, reading, writing, and the rows between them.
        let mut store = [0xee; STATE_NUMBERS * 19];
        let mut index = [0xee; INDEX_NUMBERS * 19];
        let found = explore_lock(1, 1, 1, &mut store, &mut index);
        assert_eq!(found, Ok(Explored { states: 19, depth: 7 }));
        let mut journal = [0; LONGEST_JOURNAL];
        let mut page = [0; LEAST_SHEET];
        let mut rows = 0;
        for state in 0..19 {
            let mut schedule = [0xee; LEAST_SCHEDULE];
            let length = explore_schedule(1, 1, 1, &store, state, &mut schedule).unwrap();
            assert!(schedule[length..].iter().all(|&byte| byte == 0xee));
            assert!(rows <= (length - 5) / 2);
            rows = (length - 5) / 2;
            assert_eq!(schedule[..5], [1, 1, 1, rows as u8, 0]);
            assert!(bench_sheet(&schedule[..length], &mut journal, &mut page).is_some());
            assert_eq!(page[..12], format!("answer 0 at {rows}").as_bytes()[..12]);
            assert_eq!(explore_schedule(1, 1, 1, &store, state, &mut schedule[..length - 1]), None);
        }
        assert_eq!(rows, 7);
    }

    #[test]
    fn exploration_of_two_locks() {
        let mut store = vec![0xee; STATE_NUMBERS * 15_000];
        let mut second = store.clone();
        let mut index = vec![0xee; INDEX_NUMBERS * 15_000];
        // Two threads that take the locks in opposite order are stuck after 18 rows, and no earlier.
        let found = explore_locks(1, 1, 2, false, &mut store, &mut second, &mut index).unwrap();
        assert_eq!((found.states, found.depth, found.stuck), (14_840, 25, 18));
        let mut schedule = [0xee; LEAST_SCHEDULE];
        let length = explore_schedule(1, 1, 2, &store, found.first_stuck.unwrap(), &mut schedule);
        assert_eq!(length, Some(5 + 2 * 18));
        // In lock order nobody is.
        let found = explore_locks(1, 1, 2, true, &mut store, &mut second, &mut index);
        let none = ExploredLocks { states: 10_020, depth: 24, stuck: 0, first_stuck: None };
        assert_eq!(found, Ok(none));
        let refused = explore_locks(1, 1, 9, true, &mut store, &mut second, &mut index);
        assert_eq!(refused, Err(Unexplored::SizeOutOfRange));
        match explore_locks(1, 1, 2, false, &mut store[..80], &mut second, &mut index) {
            Err(Unexplored::StoreTooSmall(found)) => assert!(0 < found.states && found.states <= 10),
            other => panic!("{other:?}"),
        }
    }

    #[test]
    fn exploration_refused() {
        let mut store = [0xee; STATE_NUMBERS * 10];
        let mut index = [0; INDEX_NUMBERS * 10];
        match explore_lock(1, 1, 2, &mut store, &mut index) {
            Err(Unexplored::StoreTooSmall(found)) => assert!(0 < found.states && found.states <= 10),
            other => panic!("{other:?}"),
        }
        let mut store = [0xee; STATE_NUMBERS];
        for (nodes, fan, threads) in [(0, 1, 1), (9, 1, 1), (1, 0, 1), (1, 17, 1), (1, 1, 0), (1, 1, 9)] {
            let refused = explore_lock(nodes, fan, threads, &mut store, &mut index);
            assert_eq!(refused, Err(Unexplored::SizeOutOfRange));
            assert_eq!(explore_schedule(nodes, fan, threads, &store, 0, &mut [0; 5]), None);
        }
        assert_eq!(store, [0xee; STATE_NUMBERS]);
        assert_eq!(explore_schedule(1, 1, 1, &store, 1, &mut [0; 5]), None);
    }

    // A writer and a reader, each with its unlock.
    const WANTS: [u8; 13] = [1, 1, 2, 4, 0, 0, 0, 1, 1, 1, 2, 0x40, 2];
    const DISPATCHED: &[u8] =
        b"answer 0 at 22\nroot 0 0 open\nqueue free 0 0\nthread 0 idle - 0\nthread 1 idle - 1\n\
          root 0 0 open\nqueue free 0 0\nthread 0 idle - 0\nthread 1 idle - 0\n";

    #[test]
    fn dispatcher() {
        // The reader sleeps from step 14 to step 19, in which it is woken.
        const THREADS: [u8; 22] = [0, 1, 0, 1, 0, 1, 0, 1, 0, 1, 0, 1, 0, 1, 0, 0, 0, 0, 0, 1, 1, 1];
        const ORDERS: [u8; 22] = [1, 0x40, 0, 0, 0, 0, 2, 0, 0, 0, 0, 0, 0, 0, 0, 0, 0, 0, 0, 2, 0, 0];
        let mut schedule = [0xee; LEAST_SCHEDULE + 1];
        let mut page = [0xee; LEAST_SHEET];
        assert_eq!(dispatch_sheet(&WANTS, &mut schedule, &mut page), Some(DISPATCHED.len()));
        assert_eq!(page[..DISPATCHED.len()], *DISPATCHED);
        assert!(page[DISPATCHED.len()..].iter().all(|&byte| byte == 0xee));
        assert_eq!(schedule[..5], [1, 1, 2, 22, 0]);
        assert_eq!((&schedule[5..27], &schedule[27..49]), (&THREADS[..], &ORDERS[..]));
        assert!(schedule[49..].iter().all(|&byte| byte == 0xee));

        let mut journal = [0; LONGEST_JOURNAL];
        assert_eq!(bench_sheet(&schedule[..49], &mut journal, &mut page), Some(DISPATCHED.len()));
        assert_eq!(page[..DISPATCHED.len()], *DISPATCHED);
    }

    #[test]
    fn drawn() {
        // A turn of no thread is passed over, and the last two, of a thread that sleeps by then.
        const TURNS: [u8; 14] = [0, 0, 2, 0, 1, 1, 255, 1, 0, 1, 1, 1, 1, 1];
        const THREADS: [u8; 10] = [0, 0, 0, 1, 1, 1, 0, 1, 1, 1];
        const ORDERS: [u8; 10] = [1, 0, 0, 0x40, 0, 0, 2, 0, 0, 0];
        let mut schedule = [0xee; LEAST_SCHEDULE + 1];
        let mut page = [0xee; LEAST_SHEET];
        let length = draw_sheet(&WANTS, &TURNS, &mut schedule, &mut page).unwrap();
        assert_eq!(page[..15], *b"answer 0 at 10\n");
        assert!(page[length..].iter().all(|&byte| byte == 0xee));
        assert_eq!(schedule[..5], [1, 1, 2, 10, 0]);
        assert_eq!((&schedule[5..15], &schedule[15..25]), (&THREADS[..], &ORDERS[..]));
        assert!(schedule[25..].iter().all(|&byte| byte == 0xee));

        // The bench's sheet of that schedule is the same.
        let mut journal = [0; LONGEST_JOURNAL];
        let mut other = [0xee; LEAST_SHEET];
        assert_eq!(bench_sheet(&schedule[..25], &mut journal, &mut other), Some(length));
        assert_eq!(page, other);
    }

    #[test]
    fn drawn_by_going_round() {
        let turns: Vec<u8> = (0..2000).map(|turn| turn as u8 % 2).collect();
        let mut schedules = [[0xee; LEAST_SCHEDULE]; 2];
        let mut pages = [[0xee; LEAST_SHEET]; 2];
        assert_eq!(
            draw_sheet(&WANTS, &turns, &mut schedules[0], &mut pages[0]),
            dispatch_sheet(&WANTS, &mut schedules[1], &mut pages[1])
        );
        assert_eq!((schedules[0], pages[0]), (schedules[1], pages[1]));
    }

    #[test]
    fn small_buffers_of_draw_sheet() {
        let mut schedule = [0xee; LEAST_SCHEDULE];
        let mut page = [0xee; LEAST_SHEET];
        assert_eq!(draw_sheet(&WANTS, &[0], &mut schedule[1..], &mut page), Some(14));
        assert_eq!(page[..14], *b"answer 4 at 0\n");

        let mut page = [0xee; LEAST_SHEET - 1];
        assert_eq!(draw_sheet(&WANTS, &[0], &mut schedule, &mut page), None);
        assert_eq!(page, [0xee; LEAST_SHEET - 1]);
        assert_eq!(schedule, [0xee; LEAST_SCHEDULE]);
        assert_eq!(draw_sheet(&[], &[], &mut [], &mut []), None);
    }

    // A writer and a reader, each with its unlock, on N 1 and F 1; each holds for one turn.
    const SITE: [u8; 19] = [1, 1, 2, 1, 0, 4, 0, 0, 0, 0, 0, 0, 0, 1, 1, 1, 2, 0x40, 2];
    // The writer has the lock, the reader sleeps and has a turn more, the writer hands over.
    const SITE_TURNS: [u8; 17] = [0, 0, 0, 1, 1, 1, 1, 1, 1, 1, 0, 0, 0, 0, 0, 0, 0];
    const SITE_SHEET: &[u8] = b"answer 0 at 15\nturns 17 1 1 0\ncalls 3 0\nrows 15 0 5 0\n\
          write-locks 1 2 2 0\nread-locks 1 11 11 0\nthread 0 2 0\nthread 1 1 0\n";

    #[test]
    fn site() {
        let mut page = [0xee; LEAST_SHEET + 1];
        assert_eq!(site_sheet(&SITE, &SITE_TURNS, &mut page), Some(SITE_SHEET.len()));
        assert_eq!(page[..SITE_SHEET.len()], *SITE_SHEET);
        assert!(page[SITE_SHEET.len()..].iter().all(|&byte| byte == 0xee));

        let mut small = [0xee; LEAST_SHEET - 1];
        assert_eq!(site_sheet(&SITE, &SITE_TURNS, &mut small), None);
        assert_eq!(small, [0xee; LEAST_SHEET - 1]);
        assert_eq!(site_sheet(&[], &[], &mut []), None);
    }

    #[test]
    fn site_with_a_warm_up() {
        // Up to the turn that is passed over; the reader's wait counts whole.
        let mut site = SITE;
        site[7] = 10;
        let sheet = b"answer 0 at 15\nturns 7 0 1 0\ncalls 2 0\nrows 6 0 1 0\n\
              write-locks 0 0 0 0\nread-locks 1 6 11 0\nthread 0 1 0\nthread 1 1 0\n";
        let mut page = [0xee; LEAST_SHEET];
        assert_eq!(site_sheet(&site, &SITE_TURNS, &mut page), Some(sheet.len()));
        assert_eq!(page[..sheet.len()], *sheet);
    }

    #[test]
    fn site_refused() {
        let with = |places: &[(usize, u8)]| {
            let mut site = SITE.to_vec();
            places.iter().for_each(|&(place, byte)| site[place] = byte);
            site
        };
        let mut page = [0; LEAST_SHEET];
        for (site, sheet) in [
            (SITE[..10].to_vec(), "answer 1 at 0\n"),
            (with(&[(2, 65)]), "answer 2 at 0\n"),
            (with(&[(5, 1), (6, 16)]), "answer 2 at 0\n"),
            (SITE[..18].to_vec(), "answer 3 at 0\n"),
            (with(&[(13, 2), (18, 0)]), "answer 5 at 0\n"),
            (with(&[(18, 0)]), "answer 6 at 0\n"),
        ] {
            assert_eq!(site_sheet(&site, &SITE_TURNS, &mut page), Some(sheet.len()));
            assert_eq!(&page[..sheet.len()], sheet.as_bytes());
        }
        // The writer wants to write-lock once more: refused at its turn, after holding for one.
        let length = site_sheet(&with(&[(16, 1)]), &SITE_TURNS, &mut page).unwrap();
        let sheet: SiteSheet = std::str::from_utf8(&page[..length]).unwrap().parse().unwrap();
        assert_eq!((sheet.answer, sheet.rows), (refusal::UNSUITABLE, 9));
        assert_eq!(sheet.measured.unwrap().turns, 11);
    }

    #[test]
    fn small_buffers_of_the_dispatcher() {
        let mut schedule = [0xee; LEAST_SCHEDULE];
        let mut page = [0xee; LEAST_SHEET];
        assert_eq!(dispatch_sheet(&WANTS, &mut schedule[1..], &mut page), Some(14));
        assert_eq!(page[..14], *b"answer 4 at 0\n");

        let mut page = [0xee; LEAST_SHEET - 1];
        assert_eq!(dispatch_sheet(&WANTS, &mut schedule, &mut page), None);
        assert_eq!(dispatch_sheet(&[], &mut schedule, &mut page), None);
        assert_eq!(page, [0xee; LEAST_SHEET - 1]);
        assert_eq!(schedule, [0xee; LEAST_SCHEDULE]);
        assert_eq!(dispatch_sheet(&[], &mut [], &mut []), None);
    }

    #[test]
    fn call_refused_at_its_turn() {
        // Thread 0 wants to read-lock twice: three steps are given before its second call.
        let mut schedule = [0xee; LEAST_SCHEDULE];
        let mut page = [0; LEAST_SHEET];
        dispatch_sheet(&[1, 1, 1, 2, 0, 0, 0, 0x40, 0x40], &mut schedule, &mut page).unwrap();
        assert_eq!(page[..14], *b"answer 7 at 3\n");
        assert_eq!(schedule[..11], [1, 1, 1, 3, 0, 0, 0, 0, 0x40, 0, 0]);
        assert!(schedule[11..].iter().all(|&byte| byte == 0xee));
    }
}
