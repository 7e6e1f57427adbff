//! The numbers of files, journals and sheets, by name.

/// Refusals, in a sheet's first line. 8 is unused.
pub mod refusal {
    /// Every row was taken.
    pub const NONE: u8 = 0;
    /// The file has fewer than 5 bytes.
    pub const SHORT: u8 = 1;
    /// A size in the file is outside its range.
    pub const SIZE: u8 = 2;
    /// The file's length is not 5 + 2 × S.
    pub const LENGTH: u8 = 3;
    /// The journal is below 2 × S bytes; the schedule's buffer is below 8,197.
    pub const JOURNAL: u8 = 4;
    /// A row's thread number is T or more.
    pub const THREAD: u8 = 5;
    /// A row's order is none that there is.
    pub const ORDER: u8 = 6;
    /// A row's order does not suit its thread.
    pub const UNSUITABLE: u8 = 7;
    /// The sheet's buffer is below 8,192 bytes: the functions give `None`.
    pub const BUFFER: u8 = 9;
    /// The till's sizes, length or room numbers are wrong.
    pub const TILL: u8 = 10;
    /// A row's kind or word is another than the record's.
    pub const ENTRY: u8 = 11;
    /// A row's value is another than the record's.
    pub const VALUE: u8 = 12;
}

/// Orders, and whom they suit.
pub mod order {
    /// Go on with the call under way, or sleep on: who is in a call or asleep.
    pub const GO_ON: u8 = 0;
    /// Begin a write-lock: who is idle.
    pub const WRITE_LOCK: u8 = 1;
    /// Begin an unlock: who reads or writes.
    pub const UNLOCK: u8 = 2;
    /// Begin an upgrade from reading to writing: who reads.
    pub const UPGRADE: u8 = 3;
    /// Begin a downgrade from writing to reading: who writes.
    pub const DOWNGRADE: u8 = 4;
    /// `READ_LOCK + n`: begin a read-lock by node n, n below N: who is idle.
    pub const READ_LOCK: u8 = 64;
    /// `BOOK + e`: book entry e of the till: who writes the first lock, in no call.
    pub const BOOK: u8 = 96;
    /// What an order of the second lock has added.
    pub const SECOND: u8 = 128;
}

/// Orders of a ticket file.
pub mod ticket_order {
    /// Compare the ticket with the grant, and hold where they are equal: who waits.
    pub const COMPARE: u8 = 0;
    /// Take the ticket, and wait: who is idle.
    pub const TAKE: u8 = 1;
    /// Advance the grant: who holds.
    pub const ADVANCE: u8 = 2;
}

/// Kinds of a journal's entries.
pub mod kind {
    /// A call began.
    pub const BEGUN: u8 = 0;
    /// Read the word.
    pub const READ: u8 = 1;
    /// Swapped the word.
    pub const SWAPPED: u8 = 2;
    /// Failed to swap the word, which is also a read of it.
    pub const FAILED: u8 = 3;
    /// Held up at the mutex, or asleep.
    pub const HELD_UP: u8 = 4;
    /// Stored the root.
    pub const STORED: u8 = 5;
    /// Took the mutex.
    pub const TAKEN: u8 = 6;
    /// Released the mutex.
    pub const RELEASED: u8 = 7;
    /// Changed the queue, or found it empty.
    pub const QUEUED: u8 = 8;
    /// Woke a group.
    pub const WOKEN: u8 = 9;
    /// Read the root, which denied an upgrade.
    pub const UPGRADE_DENIED: u8 = 10;
    /// Booked an entry.
    pub const BOOKED: u8 = 11;
    /// The entry was booked before.
    pub const REPEATED: u8 = 12;
    /// The booking was denied.
    pub const BOOKING_DENIED: u8 = 13;
}

/// Words of a journal's entries; node n above 0 has the word n.
pub mod word {
    /// The root.
    pub const ROOT: u8 = 0;
    /// The mutex and the queue.
    pub const MUTEX: u8 = 32;
    /// No word.
    pub const NONE: u8 = 33;
    /// What a word of the second lock has added, [`NONE`] too.
    pub const SECOND: u8 = 64;
}
