//! The credit table of document 02's request Twelve, "a part of its own above the
//! bench".
//!
//! Comments in quotation marks are document 02's own words. One row of a schedule is
//! one call of [`Table::row`]; every row but a booking is the bench's.

use crate::machine::{parse, refusal, run_rows, word, Bench, Entry, Pen, Phase, Sizes, Which, LEAST_SHEET};

/// "rooms R, 1 to 32"
pub const MOST_ROOMS: usize = 32;
/// "entries E, 0 to 32"
pub const MOST_ENTRIES: usize = 32;

/// "order 96 + e books entry e in one row"
pub const BOOK: u8 = 96;
pub const LAST_BOOK: u8 = 127;

/// "It refuses, as 10, a till file whose sizes, length or room numbers (R or more) are
/// wrong".
pub const TILL: u8 = 10;

/// "The journal has kinds 11 booked, 12 repeated, 13 denied, on word 33."
pub mod kind {
    pub const BOOKED: u8 = 11;
    pub const REPEATED: u8 = 12;
    pub const DENIED: u8 = 13;
}

/// A till file: "sizes first (rooms R, 1 to 32, entries E, 0 to 32), then E room
/// numbers and E amounts, signed 16-bit, low byte first".
#[derive(Clone, Copy)]
pub struct Till<'a> {
    rooms: u8,
    numbers: &'a [u8],
    amounts: &'a [u8],
}

impl Till<'_> {
    /// None where the file is refused.
    pub fn new(file: &[u8]) -> Option<Till<'_>> {
        let &[rooms, entries, ref arrays @ ..] = file else {
            return None;
        };
        let entries = usize::from(entries);
        if !(1..=MOST_ROOMS).contains(&usize::from(rooms))
            || entries > MOST_ENTRIES
            || arrays.len() != 3 * entries
        {
            return None;
        }
        let (numbers, amounts) = arrays.split_at(entries);
        numbers.iter().all(|room| *room < rooms).then_some(Till { rooms, numbers, amounts })
    }

    /// The room and the amount of an entry: "positive for a top-up, negative for
    /// songs". None for "an entry number of E or more".
    fn entry(&self, number: u8) -> Option<(u8, i16)> {
        let number = usize::from(number);
        let room = *self.numbers.get(number)?;
        Some((room, i16::from_le_bytes([self.amounts[2 * number], self.amounts[2 * number + 1]])))
    }
}

/// The bench with the balances of a till's rooms.
pub struct Table<'a> {
    bench: Bench,
    till: Till<'a>,
    /// 32 entries of 32,767 at most, so far below the limits of the type.
    balances: [i32; MOST_ROOMS],
    /// The entries that are booked, one bit each.
    booked: u32,
}

impl Table<'_> {
    pub fn fresh(sizes: Sizes, till: Till) -> Table {
        Table { bench: Bench::fresh(sizes), till, balances: [0; MOST_ROOMS], booked: 0 }
    }

    pub fn bench(&self) -> &Bench {
        &self.bench
    }

    /// The balance of every room.
    pub fn balances(&self) -> &[i32] {
        &self.balances[..usize::from(self.till.rooms)]
    }

    /// Runs one row. A refused row changes nothing.
    #[inline(always)]
    pub fn row(&mut self, thread: u8, order: u8) -> Result<Entry, u8> {
        match order {
            BOOK..=LAST_BOOK => self.book(thread, order - BOOK),
            _ => self.bench.row(thread, order),
        }
    }

    fn book(&mut self, thread: u8, number: u8) -> Result<Entry, u8> {
        if thread >= self.bench.sizes().threads {
            return Err(refusal::THREAD);
        }
        let (room, amount) = self.till.entry(number).ok_or(refusal::ORDER)?;
        // "by a thread that is writing the first lock, in no call and not asleep";
        // "any other thread's booking, 7"
        let writes = self.bench.lock(Which::First).phase(thread) == Phase::Writing;
        if !writes || !self.bench.lock(Which::Second).rests(usize::from(thread)) {
            return Err(refusal::UNSUITED);
        }
        let balance = &mut self.balances[usize::from(room)];
        let after = *balance + i32::from(amount);
        // "An entry already booked changes nothing; one that would take a balance
        // below 0 is denied and may come again."
        let kind = if self.booked >> number & 1 == 1 {
            kind::REPEATED
        } else if after < 0 {
            kind::DENIED
        } else {
            *balance = after;
            self.booked |= 1 << number;
            kind::BOOKED
        };
        Ok(Entry { kind, word: word::NONE })
    }

    /// "The sheet ends with a line per room: `room`, number, balance".
    fn write(&self, pen: &mut Pen) {
        self.bench.write(pen);
        for (room, balance) in self.balances().iter().enumerate() {
            pen.text(b"room ");
            pen.number(room);
            pen.text(b" ");
            pen.large_number(*balance as usize);
            pen.text(b"\n");
        }
    }
}

/// What a run came to: 0 or the refusal's number, the rows taken and, except after
/// refusals 1 to 4 and 10, the state that those rows left.
pub struct Outcome<'a> {
    pub answer: u8,
    pub taken: usize,
    pub state: Option<Table<'a>>,
}

/// Runs a schedule file with a till from the fresh locks and balances of 0, and
/// journals every row taken.
pub fn run<'a>(file: &[u8], till: &'a [u8], journal: &mut [u8]) -> Outcome<'a> {
    let refused = |answer| Outcome { answer, taken: 0, state: None };
    let (sizes, numbers, orders) = match parse(file) {
        Ok(schedule) => schedule,
        Err(answer) => return refused(answer),
    };
    // "after 3 and before 4, leaving and printing what 1 to 4 do"
    let Some(till) = Till::new(till) else {
        return refused(TILL);
    };
    if journal.len() < 2 * numbers.len() {
        return refused(refusal::JOURNAL);
    }
    let mut table = Table::fresh(sizes, till);
    let (answer, taken) = run_rows(numbers, orders, journal, |thread, order| table.row(thread, order));
    Outcome { answer, taken, state: Some(table) }
}

/// Runs a file with a till and writes its sheet at the start of `page`. Returns the
/// sheet's length, or 0 where `page` is below 8,192 bytes (refusal 9); nothing is
/// written there then, and the journal stands all the same.
pub fn credit_sheet(file: &[u8], till: &[u8], journal: &mut [u8], page: &mut [u8]) -> usize {
    let outcome = run(file, till, journal);
    if page.len() < LEAST_SHEET {
        return 0;
    }
    let mut pen = Pen::new(page);
    pen.answer(outcome.answer, outcome.taken);
    if let Some(table) = &outcome.state {
        table.write(&mut pen);
    }
    pen.written()
}
