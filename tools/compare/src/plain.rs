//! The plain engine of document 02's request Four: "a single surplus and a flag"
//! where the bench has a tree.
//!
//! Comments in quotation marks are document 02's own words, or document 01's or
//! source document 004's where they name it. One row of a schedule is one whole
//! call: [`Engine::row`] "runs that call until the thread is idle, holds or
//! sleeps".

use crate::machine::{order, parse, refusal, Pen, Queue, Sizes, LEAST_SHEET, MOST_THREADS};

/// Figure 1 of source document 004: "surplus: integer, initially 0", "state:
/// {OPEN, CLOSED}, initially OPEN".
#[derive(Clone)]
struct Indicator {
    surplus: u16,
    closed: bool,
}

impl Indicator {
    /// Document 004: "if state = OPEN then surplus ← surplus + 1, return true,
    /// else return false"
    fn arrive(&mut self) -> bool {
        if !self.closed {
            self.surplus += 1;
            return true;
        }
        false
    }

    /// Document 004: "surplus ← surplus − 1, return ¬(surplus = 0 ∧ state =
    /// CLOSED)"
    fn depart(&mut self) -> bool {
        self.surplus -= 1;
        !(self.surplus == 0 && self.closed)
    }

    /// Document 004: "if state = OPEN then state ← CLOSED, return (surplus = 0),
    /// else return false"
    fn close(&mut self) -> bool {
        if !self.closed {
            self.closed = true;
            return self.surplus == 0;
        }
        false
    }

    /// Document 004: "atomically executing Open, and then the specified number
    /// of Arrive operations, and then, if specified, the Close operation"
    fn open_with_arrivals(&mut self, arrivals: u32, close: bool) {
        self.surplus = arrivals as u16;
        self.closed = close;
    }
}

/// What a thread does between two rows: no call is under way then.
#[derive(Clone, Copy, Debug, PartialEq, Eq)]
pub enum Standing {
    Idle,
    Reading,
    Writing,
    Asleep,
}

/// The lock with its threads.
#[derive(Clone)]
pub struct Engine {
    sizes: Sizes,
    indicator: Indicator,
    queue: Queue,
    standings: [Standing; MOST_THREADS],
}

impl Engine {
    /// Document 01's fresh lock.
    pub fn fresh(sizes: Sizes) -> Engine {
        Engine {
            sizes,
            indicator: Indicator { surplus: 0, closed: false },
            queue: Queue::empty(),
            standings: [Standing::Idle; MOST_THREADS],
        }
    }

    pub fn sizes(&self) -> Sizes {
        self.sizes
    }

    pub fn closed(&self) -> bool {
        self.indicator.closed
    }

    pub fn standing(&self, thread: u8) -> Standing {
        self.standings[usize::from(thread)]
    }

    pub fn queue(&self) -> &Queue {
        &self.queue
    }

    /// Runs one call to its end. A refused row changes nothing.
    pub fn row(&mut self, thread: u8, order: u8) -> Result<(), u8> {
        if thread >= self.sizes.threads {
            return Err(refusal::THREAD);
        }
        let thread = usize::from(thread);
        let standing = self.standings[thread];
        self.standings[thread] = match (order, standing) {
            (order::WRITE_LOCK, Standing::Idle) => self.write_lock(thread),
            (order::UNLOCK, Standing::Reading) => self.unlock_by_reader(),
            (order::UNLOCK, Standing::Writing) => self.unlock_by_writer(),
            // There is no tree, but the order still names one of N nodes.
            (order::READ_LOCK..=order::LAST_READ_LOCK, _) if order - order::READ_LOCK >= self.sizes.nodes => {
                return Err(refusal::ORDER);
            }
            (order::READ_LOCK..=order::LAST_READ_LOCK, Standing::Idle) => self.read_lock(thread),
            // "orders to a sleeper under 7"
            (order::WRITE_LOCK | order::UNLOCK | order::READ_LOCK..=order::LAST_READ_LOCK, _) => {
                return Err(refusal::UNSUITED);
            }
            // "order 0 under 6"
            // "the plain engine and the dispatcher refuse 128 and up with 6"
            _ => return Err(refusal::ORDER),
        };
        Ok(())
    }

    /// The standing that the call ends with, as for the three calls below.
    fn read_lock(&mut self, thread: usize) -> Standing {
        if self.indicator.arrive() {
            return Standing::Reading;
        }
        self.queue.join_reader(thread);
        Standing::Asleep
    }

    /// A writer closes the lock under readers too, and waits for them.
    fn write_lock(&mut self, thread: usize) -> Standing {
        if self.indicator.close() {
            return Standing::Writing;
        }
        self.queue.join_writer(thread);
        Standing::Asleep
    }

    /// "The last reader to leave takes that writer." There is one: the lock is
    /// closed under readers only while a writer is queued.
    fn unlock_by_reader(&mut self) -> Standing {
        if !self.indicator.depart() {
            if let Some(writer) = self.queue.take_writer() {
                self.wake(writer, Standing::Writing);
            }
        }
        Standing::Idle
    }

    /// "A leaving writer takes that group if there is one, else the writer who
    /// has waited longest."
    fn unlock_by_writer(&mut self) -> Standing {
        if let Some(readers) = self.queue.take_readers() {
            // Document 01: "closed if a writer is still queued, else open"
            self.indicator.open_with_arrivals(readers.count_ones(), self.queue.has_writer());
            self.wake(readers, Standing::Reading);
        } else if let Some(writer) = self.queue.take_writer() {
            self.wake(writer, Standing::Writing);
        } else {
            self.indicator.open_with_arrivals(0, false);
        }
        Standing::Idle
    }

    /// Document 01: "all threads of the group hold"
    fn wake(&mut self, group: u64, holding: Standing) {
        let mut asleep = group;
        while asleep != 0 {
            self.standings[asleep.trailing_zeros() as usize] = holding;
            asleep &= asleep - 1;
        }
    }

    /// "Its sheet has no node lines and `-` for each ticket." No swap fails
    /// while a call runs alone, so failures are 0; the mutex is free.
    fn write(&self, pen: &mut Pen) {
        pen.text(b"root ");
        pen.number(usize::from(self.indicator.surplus));
        pen.text(if self.indicator.closed { b" closed\n" } else { b" open\n" });

        pen.text(b"queue free ");
        pen.number(self.queue.groups());
        // "The sheet's queue line gains it as a last field: `queue free 0 0`."
        pen.text(b" ");
        pen.number(usize::from(self.queue.number()));
        pen.text(b"\n");

        let threads = usize::from(self.sizes.threads);
        for (number, standing) in self.standings.iter().enumerate().take(threads) {
            pen.text(b"thread ");
            pen.number(number);
            pen.text(match standing {
                Standing::Idle => b" idle - 0\n",
                Standing::Reading => b" reading - 0\n",
                Standing::Writing => b" writing - 0\n",
                Standing::Asleep => b" asleep - 0\n",
            });
        }
    }
}

/// What a run came to: 0 or the refusal's number, the calls taken and, except
/// after refusals 1 to 3, the state that those calls left.
pub struct Outcome {
    pub answer: u8,
    pub taken: usize,
    pub state: Option<Engine>,
}

/// Runs a file of calls from the fresh lock. There is no journal.
pub fn run(file: &[u8]) -> Outcome {
    let (sizes, numbers, orders) = match parse(file) {
        Ok(schedule) => schedule,
        Err(answer) => return Outcome { answer, taken: 0, state: None },
    };
    let mut engine = Engine::fresh(sizes);
    for (taken, (&thread, &order)) in numbers.iter().zip(orders).enumerate() {
        if let Err(answer) = engine.row(thread, order) {
            return Outcome { answer, taken, state: Some(engine) };
        }
    }
    Outcome { answer: refusal::NONE, taken: numbers.len(), state: Some(engine) }
}

/// Runs a file and writes its sheet at the start of `page`. Returns the sheet's
/// length, or 0 where `page` is below 8,192 bytes (refusal 9); nothing is
/// written then.
pub fn plain_sheet(file: &[u8], page: &mut [u8]) -> usize {
    if page.len() < LEAST_SHEET {
        return 0;
    }
    let outcome = run(file);
    let mut pen = Pen::new(page);
    pen.answer(outcome.answer, outcome.taken);
    if let Some(engine) = &outcome.state {
        engine.write(&mut pen);
    }
    pen.written()
}
