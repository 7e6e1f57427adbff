//! A site at lent turns: what `site_sheet` gives.
//!
//! Written from what docs/SPECIFICATION.md says of the site file, of a turn and of the
//! sheet's lines, and from the readings in docs/DECISIONS.md; a row is the bench's. What is
//! in quotation marks stands there.

use crate::machine::{
    kind, order, refusal, word, Bench, Call, Entry, Pen, Phase, Sizes, Which, LEAST_SHEET, MOST_ROWS,
};

/// N, F, T, hold, think, S in two bytes and the warm-up in four.
pub const HEAD: usize = 11;

/// "at most 4,294,967,294 of them"
pub const MOST_TURNS: usize = 4_294_967_294;

/// A site file's parts.
pub struct Site<'a> {
    pub sizes: Sizes,
    pub hold: u8,
    pub think: u8,
    /// The turns that are run and not measured.
    pub warm: usize,
    pub threads: &'a [u8],
    pub orders: &'a [u8],
}

/// The parts of a site file, or the number of the refusal (1 to 3, 5 and 6) that it meets
/// at so many turns.
pub fn parse(file: &[u8], turns: usize) -> Result<Site<'_>, u8> {
    let Some((&[nodes, fan_out, threads, hold, think, low, high, a, b, c, d], arrays)) =
        file.split_first_chunk::<HEAD>()
    else {
        return Err(refusal::SHORT_FILE);
    };
    let rows = usize::from(u16::from_le_bytes([low, high]));
    let sizes = Sizes::new(nodes, fan_out, threads).filter(|_| rows <= MOST_ROWS).ok_or(refusal::SIZE)?;
    if arrays.len() != 2 * rows || turns > MOST_TURNS {
        return Err(refusal::LENGTH);
    }
    let (threads, orders) = arrays.split_at(rows);
    // "then 5 and 6 of each row in file order, before the first turn"
    for (&thread, &order) in threads.iter().zip(orders) {
        if thread >= sizes.threads {
            return Err(refusal::THREAD);
        }
        if Call::named(order, sizes.nodes).is_none() {
            return Err(refusal::ORDER);
        }
    }
    let warm = u32::from_le_bytes([a, b, c, d]) as usize;
    Ok(Site { sizes, hold, think, warm, threads, orders })
}

/// "got; rows waited in all; the longest wait"
#[derive(Clone, Copy, Default)]
struct Waits {
    got: usize,
    waited: usize,
    longest: usize,
}

/// What a call asks for: 0 a write-lock, 1 a read-lock; conversions and unlocks wait for
/// none.
fn asked(order: u8) -> Option<usize> {
    match order {
        order::WRITE_LOCK => Some(0),
        order::READ_LOCK.. => Some(1),
        _ => None,
    }
}

/// A call that a thread is in.
#[derive(Clone, Copy)]
struct Under {
    order: u8,
    /// The number of its first row.
    since: usize,
}

#[derive(Clone, Default)]
struct Client {
    /// Its calls' orders, in the file's order, and which comes next.
    calls: Vec<u8>,
    next: usize,
    /// The own turns that it lets pass yet.
    pause: u8,
    under: Option<Under>,
    done: usize,
    failed: usize,
}

/// What is measured.
#[derive(Clone, Default)]
struct Tally {
    passed: usize,
    holding: usize,
    thinking: usize,
    rows: usize,
    failed: usize,
    root: usize,
    held_up: usize,
    finished: usize,
    /// Of write-locks, and of read-locks.
    waits: [Waits; 2],
}

struct Run {
    bench: Bench,
    /// The rows made, those of the warm-up too.
    rows: usize,
    clients: Vec<Client>,
    /// How many threads wait for a write-lock, and how many for a read-lock.
    waiting: [usize; 2],
    tally: Tally,
}

impl Run {
    fn fresh(site: &Site) -> Run {
        let mut clients = vec![Client::default(); usize::from(site.sizes.threads)];
        for (&thread, &order) in site.threads.iter().zip(site.orders) {
            clients[usize::from(thread)].calls.push(order);
        }
        Run { bench: Bench::fresh(site.sizes), rows: 0, clients, waiting: [0; 2], tally: Tally::default() }
    }

    /// "what was counted in it does not count"
    fn measure(&mut self) {
        self.tally = Tally::default();
        for client in &mut self.clients {
            client.done = 0;
            client.failed = 0;
        }
    }

    /// Turns one after the other, up to one whose call is refused.
    fn turns(&mut self, site: &Site, turns: &[u8]) -> Result<(), u8> {
        turns.iter().try_for_each(|&thread| self.turn(site, thread))
    }

    /// The turn of one thread, or of none.
    #[inline]
    fn turn(&mut self, site: &Site, thread: u8) -> Result<(), u8> {
        if thread >= site.sizes.threads {
            self.tally.passed += 1;
            return Ok(());
        }
        let client = &mut self.clients[usize::from(thread)];
        let order = match self.bench.lock(Which::First).phase(thread) {
            Phase::Asleep => {
                self.tally.passed += 1;
                return Ok(());
            }
            phase @ (Phase::Idle | Phase::Reading { .. } | Phase::Writing) => {
                let Some(&order) = client.calls.get(client.next) else {
                    self.tally.passed += 1;
                    return Ok(());
                };
                if client.pause > 0 {
                    client.pause -= 1;
                    match phase {
                        Phase::Idle => self.tally.thinking += 1,
                        _ => self.tally.holding += 1,
                    }
                    return Ok(());
                }
                order
            }
            _ => order::GO_ON,
        };
        let entry = self.bench.row(thread, order)?;
        self.row(site, thread, order, entry);
        Ok(())
    }

    /// A row was made.
    #[inline]
    fn row(&mut self, site: &Site, thread: u8, order: u8, entry: Entry) {
        self.rows += 1;
        self.tally.rows += 1;
        self.tally.root += usize::from(entry.word == word::ROOT);
        self.tally.held_up += usize::from(entry.kind == kind::HELD_UP);
        // "counts a row once for each thread that waits for such a lock when it is made"; a
        // call's first row is no wait.
        for (waits, waiting) in self.tally.waits.iter_mut().zip(self.waiting) {
            waits.waited += waiting;
        }
        let client = &mut self.clients[usize::from(thread)];
        if entry.kind == kind::SWAP_FAILED {
            self.tally.failed += 1;
            client.failed += 1;
        }
        if order != order::GO_ON {
            client.under = Some(Under { order, since: self.rows });
            // "after its last call its first is next again"
            client.next = (client.next + 1) % client.calls.len();
            if let Some(lock) = asked(order) {
                self.waiting[lock] += 1;
            }
        }
        // "Who is woken is finished in the waker's row"
        if entry.kind == kind::SLEEPERS_WOKEN {
            for thread in 0..site.sizes.threads {
                self.finish(site, thread);
            }
        } else {
            self.finish(site, thread);
        }
    }

    /// Ends the call of a thread that was in one and is in none any more.
    #[inline]
    fn finish(&mut self, site: &Site, thread: u8) {
        let phase = self.bench.lock(Which::First).phase(thread);
        let client = &mut self.clients[usize::from(thread)];
        let Some(Under { order, since }) = client.under else { return };
        // "after a call that ends holding, `hold` of them, also before a conversion; after any
        // other, `think`"
        client.pause = match phase {
            Phase::Idle => site.think,
            Phase::Reading { .. } | Phase::Writing => site.hold,
            _ => return,
        };
        client.under = None;
        client.done += 1;
        self.tally.finished += 1;
        if let Some(lock) = asked(order) {
            self.waiting[lock] -= 1;
            let waits = &mut self.tally.waits[lock];
            waits.got += 1;
            waits.longest = waits.longest.max(self.rows - since);
        }
    }

    fn write(&self, pen: &mut Pen) {
        let tally = &self.tally;
        let used = tally.passed + tally.holding + tally.thinking + tally.rows;
        line(pen, b"turns", &[used, tally.passed, tally.holding, tally.thinking]);
        let unfinished = self.clients.iter().filter(|client| client.under.is_some()).count();
        line(pen, b"calls", &[tally.finished, unfinished]);
        line(pen, b"rows", &[tally.rows, tally.failed, tally.root, tally.held_up]);
        let [write_locks, read_locks] = tally.waits;
        line(
            pen,
            b"write-locks",
            &[write_locks.got, write_locks.waited, write_locks.longest, self.waiting[0]],
        );
        line(pen, b"read-locks", &[read_locks.got, read_locks.waited, read_locks.longest, self.waiting[1]]);
        for (thread, client) in self.clients.iter().enumerate() {
            line(pen, b"thread", &[thread, client.done, client.failed]);
        }
    }
}

/// A line of numbers, behind its name.
fn line(pen: &mut Pen, name: &[u8], numbers: &[usize]) {
    pen.text(name);
    for &number in numbers {
        pen.text(b" ");
        pen.large_number(number);
    }
    pen.text(b"\n");
}

/// Runs a site at these turns: 0 or the refusal's number, and what it came to.
fn run(file: &[u8], turns: &[u8]) -> (u8, Option<Run>) {
    let site = match parse(file, turns.len()) {
        Ok(site) => site,
        Err(answer) => return (answer, None),
    };
    let mut run = Run::fresh(&site);
    let (warm, measured) = turns.split_at(site.warm.min(turns.len()));
    let warmed = run.turns(&site, warm);
    run.measure();
    let ended = warmed.and_then(|()| run.turns(&site, measured));
    (ended.err().unwrap_or(refusal::NONE), Some(run))
}

/// Runs a site, writes its sheet and returns the sheet's length, or 0 for a buffer that is
/// too small.
pub fn site_sheet(file: &[u8], turns: &[u8], page: &mut [u8]) -> usize {
    if page.len() < LEAST_SHEET {
        return 0;
    }
    let (answer, run) = run(file, turns);
    let mut pen = Pen::new(page);
    pen.answer(answer, run.as_ref().map_or(0, |run| run.rows));
    if let Some(run) = run {
        run.write(&mut pen);
    }
    pen.written()
}
