//! The ticket lock of document 02's request Eleven, "a second machine with its own
//! file".
//!
//! Comments in quotation marks are document 02's own words, or document 01's where
//! they name it. One row of a schedule is one call of [`TicketLock::row`].

use crate::machine::{refusal, Pen, LEAST_SHEET, MOST_ROWS, MOST_THREADS};

/// "Order 1 takes the ticket and advances it, 0 compares own ticket with grant and
/// holds when equal, 2 advances grant."
pub mod order {
    pub const COMPARE: u8 = 0;
    pub const TAKE: u8 = 1;
    pub const RELEASE: u8 = 2;
}

/// The number of threads, 1 to 64, and the start number of a file.
#[derive(Clone, Copy, Debug)]
pub struct Head {
    pub threads: u8,
    pub start: u16,
}

#[derive(Clone, Copy, Debug, PartialEq, Eq)]
pub enum Standing {
    Idle,
    Waiting { ticket: u16 },
    Holding,
}

/// The lock with its threads.
#[derive(Clone)]
pub struct TicketLock {
    threads: u8,
    /// The next ticket to be taken.
    ticket: u16,
    /// The ticket that may hold.
    grant: u16,
    standings: [Standing; MOST_THREADS],
}

impl TicketLock {
    /// "Both the ticket and the grant start there", at the start number.
    pub fn fresh(Head { threads, start }: Head) -> TicketLock {
        TicketLock { threads, ticket: start, grant: start, standings: [Standing::Idle; MOST_THREADS] }
    }

    pub fn threads(&self) -> u8 {
        self.threads
    }

    pub fn ticket(&self) -> u16 {
        self.ticket
    }

    pub fn grant(&self) -> u16 {
        self.grant
    }

    pub fn standing(&self, thread: u8) -> Standing {
        self.standings[usize::from(thread)]
    }

    /// How far the ticket is past the grant, "counted round the wrap".
    pub fn distance(&self, ticket: u16) -> u16 {
        ticket.wrapping_sub(self.grant)
    }

    /// Runs one row. A refused row changes nothing.
    pub fn row(&mut self, thread: u8, order: u8) -> Result<(), u8> {
        if thread >= self.threads {
            return Err(refusal::THREAD);
        }
        let thread = usize::from(thread);
        // "both are 16-bit and wrap from 65,535 to 0"
        match (order, self.standings[thread]) {
            (order::TAKE, Standing::Idle) => {
                self.standings[thread] = Standing::Waiting { ticket: self.ticket };
                self.ticket = self.ticket.wrapping_add(1);
            }
            (order::COMPARE, Standing::Waiting { ticket }) => {
                if ticket == self.grant {
                    self.standings[thread] = Standing::Holding;
                }
            }
            (order::RELEASE, Standing::Holding) => {
                self.standings[thread] = Standing::Idle;
                self.grant = self.grant.wrapping_add(1);
            }
            // "a waiter's repeated order 1 under 7"
            (order::COMPARE | order::TAKE | order::RELEASE, _) => return Err(refusal::UNSUITED),
            _ => return Err(refusal::ORDER),
        }
        Ok(())
    }

    /// "`ticket` and `grant` lines with their numbers, then `thread`, its number and
    /// `idle`, `near`, `far` or `holding`"
    fn write(&self, pen: &mut Pen) {
        pen.text(b"ticket ");
        pen.large_number(usize::from(self.ticket));
        pen.text(b"\ngrant ");
        pen.large_number(usize::from(self.grant));
        pen.text(b"\n");
        for (number, standing) in self.standings.iter().enumerate().take(usize::from(self.threads)) {
            pen.text(b"thread ");
            pen.number(number);
            pen.text(match *standing {
                Standing::Idle => b" idle\n",
                // "A waiter whose ticket is more than 1 past grant, counted round
                // the wrap, is printed `far`, else `near`."
                Standing::Waiting { ticket } if self.distance(ticket) > 1 => b" far\n",
                Standing::Waiting { .. } => b" near\n",
                Standing::Holding => b" holding\n",
            });
        }
    }
}

/// The head, thread numbers and orders of a file: "T, then S and a start number in two
/// bytes each, low byte first, then thread numbers and orders". Or the number of the
/// refusal (1 to 3) that it meets, with document 01's sizes.
pub fn parse(file: &[u8]) -> Result<(Head, &[u8], &[u8]), u8> {
    let &[threads, rows_low, rows_high, start_low, start_high, ref arrays @ ..] = file else {
        return Err(refusal::SHORT_FILE);
    };
    let rows = usize::from(u16::from_le_bytes([rows_low, rows_high]));
    if !(1..=MOST_THREADS).contains(&usize::from(threads)) || rows > MOST_ROWS {
        return Err(refusal::SIZE);
    }
    if arrays.len() != 2 * rows {
        return Err(refusal::LENGTH);
    }
    let (numbers, orders) = arrays.split_at(rows);
    Ok((Head { threads, start: u16::from_le_bytes([start_low, start_high]) }, numbers, orders))
}

/// What a run came to: 0 or the refusal's number, the rows taken and, except after
/// refusals 1 to 3, the state that those rows left.
pub struct Outcome {
    pub answer: u8,
    pub taken: usize,
    pub state: Option<TicketLock>,
}

/// Runs a file from the fresh lock. There is no journal.
pub fn run(file: &[u8]) -> Outcome {
    let (head, numbers, orders) = match parse(file) {
        Ok(schedule) => schedule,
        Err(answer) => return Outcome { answer, taken: 0, state: None },
    };
    let mut lock = TicketLock::fresh(head);
    for (taken, (&thread, &order)) in numbers.iter().zip(orders).enumerate() {
        if let Err(answer) = lock.row(thread, order) {
            return Outcome { answer, taken, state: Some(lock) };
        }
    }
    Outcome { answer: refusal::NONE, taken: numbers.len(), state: Some(lock) }
}

/// Runs a file and writes its sheet at the start of `page`. Returns the sheet's
/// length, or 0 where `page` is below 8,192 bytes (refusal 9); nothing is written
/// then.
pub fn ticket_sheet(file: &[u8], page: &mut [u8]) -> usize {
    if page.len() < LEAST_SHEET {
        return 0;
    }
    let outcome = run(file);
    let mut pen = Pen::new(page);
    pen.answer(outcome.answer, outcome.taken);
    if let Some(lock) = &outcome.state {
        lock.write(&mut pen);
    }
    pen.written()
}
