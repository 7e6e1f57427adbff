//! Runs one case through two implementations and finds where they differ.

use std::fmt;

use crate::dispatcher::LEAST_SCHEDULE;
use crate::machine::LEAST_SHEET;
use crate::random::Random;
use crate::schedule::rows_named;

/// The bench: runs the file, fills the journal, writes the sheet and returns its
/// length, or 0 for a sheet buffer below 8,192 bytes.
pub type BenchSheet = fn(&[u8], &mut [u8], &mut [u8]) -> usize;
/// The plain engine, which has no journal.
pub type PlainSheet = fn(&[u8], &mut [u8]) -> usize;
/// The ticket lock, which has none either.
pub type TicketSheet = fn(&[u8], &mut [u8]) -> usize;
/// A record held to the bench; it has none.
pub type RecordSheet = fn(&[u8], &mut [u8]) -> usize;
/// The bench with a till, the second file.
pub type CreditSheet = fn(&[u8], &[u8], &mut [u8], &mut [u8]) -> usize;
/// The dispatcher, which has the buffer of the schedule that it gives where the
/// bench has the journal.
pub type DispatchSheet = fn(&[u8], &mut [u8], &mut [u8]) -> usize;
/// The dispatcher at turns, which stand where the credit table has its till.
pub type DrawSheet = fn(&[u8], &[u8], &mut [u8], &mut [u8]) -> usize;
/// A site at turns, which stand there too; it has no journal.
pub type SiteSheet = fn(&[u8], &[u8], &mut [u8]) -> usize;
/// What an exploration came to: its answer, the number of states found, and the rows that
/// the deepest of them needs.
#[derive(Clone, Copy, Debug, PartialEq, Eq)]
pub struct Explored {
    pub answer: u8,
    pub states: usize,
    pub depth: usize,
}
/// Explores the lock of these N, F and T in room for so many states, and tells each state's
/// number and schedule file.
pub type ExploreLock = fn([usize; 3], usize, &mut dyn FnMut(usize, &[u8])) -> Explored;

/// One of an implementation's engines.
#[derive(Clone, Copy)]
pub enum Engine {
    Bench(BenchSheet),
    Plain(PlainSheet),
    Dispatch(DispatchSheet),
    Draw(DrawSheet),
    Site(SiteSheet),
    Ticket(TicketSheet),
    Credit(CreditSheet),
    Record(RecordSheet),
}

impl Engine {
    pub fn run(self, file: &[u8], till: &[u8], journal: &mut [u8], sheet: &mut [u8]) -> usize {
        match self {
            Engine::Bench(run) => run(file, journal, sheet),
            Engine::Plain(run) | Engine::Ticket(run) | Engine::Record(run) => run(file, sheet),
            Engine::Dispatch(run) => run(file, journal, sheet),
            Engine::Credit(run) | Engine::Draw(run) => run(file, till, journal, sheet),
            Engine::Site(run) => run(file, till, sheet),
        }
    }

    /// How many bytes of the journal, or of what stands in its place, may be
    /// written at most.
    fn used(self, case: &Case) -> usize {
        match self {
            Engine::Bench(_) | Engine::Credit(_) => (2 * rows_named(&case.file)).min(case.journal),
            Engine::Plain(_) | Engine::Ticket(_) | Engine::Record(_) | Engine::Site(_) => 0,
            Engine::Dispatch(_) | Engine::Draw(_)
                if case.journal < LEAST_SCHEDULE || case.sheet < LEAST_SHEET =>
            {
                0
            }
            Engine::Dispatch(_) | Engine::Draw(_) => LEAST_SCHEDULE,
        }
    }
}

/// The engines of one implementation.
#[derive(Clone, Copy)]
pub struct Engines {
    pub bench: BenchSheet,
    pub plain: PlainSheet,
    /// These where this build has them.
    pub dispatch: Option<DispatchSheet>,
    pub draw: Option<DrawSheet>,
    pub site: Option<SiteSheet>,
    pub explore: Option<ExploreLock>,
    pub ticket: Option<TicketSheet>,
    pub credit: Option<CreditSheet>,
    pub record: Option<RecordSheet>,
}

/// One input: a file, the lengths of both buffers and the seed of the bytes
/// that stand in and around them beforehand.
pub struct Case {
    pub class: &'static str,
    pub file: Vec<u8>,
    /// The turns for the dispatcher at turns and for a site; empty for an engine that has no
    /// till either.
    pub till: Vec<u8>,
    /// 0 for the plain engine, the ticket lock, records and sites; for the dispatcher the
    /// schedule's.
    pub journal: usize,
    pub sheet: usize,
    pub fill: u64,
}

/// Bytes that guard each side of a buffer.
const GUARD: usize = 64;

/// The bytes of a buffer of `length` and its two guards before a run.
fn filled(random: &mut Random, length: usize) -> Vec<u8> {
    let mut bytes = Vec::with_capacity(length + 2 * GUARD + 8);
    while bytes.len() < length + 2 * GUARD {
        bytes.extend(random.next().to_le_bytes());
    }
    bytes.truncate(length + 2 * GUARD);
    bytes
}

/// What an implementation left; both buffers with their guards.
pub struct Left {
    length: usize,
    file: Vec<u8>,
    till: Vec<u8>,
    journal: Vec<u8>,
    sheet: Vec<u8>,
}

impl Left {
    /// The text of the sheet; empty for a length beyond the buffer.
    pub fn text(&self) -> &[u8] {
        let sheet = &self.sheet[GUARD..self.sheet.len() - GUARD];
        sheet.get(..self.length).unwrap_or_default()
    }
}

fn apply(side: Engine, case: &Case) -> Left {
    let mut random = Random::new(case.fill);
    let mut left = Left {
        length: 0,
        file: case.file.clone(),
        till: case.till.clone(),
        journal: filled(&mut random, case.journal),
        sheet: filled(&mut random, case.sheet),
    };
    left.length = side.run(
        &left.file,
        &left.till,
        &mut left.journal[GUARD..GUARD + case.journal],
        &mut left.sheet[GUARD..GUARD + case.sheet],
    );
    left
}

/// What one side did that its contract forbids, whatever the other side did.
fn breach(side: Engine, case: &Case, left: &Left) -> Option<&'static str> {
    let mut random = Random::new(case.fill);
    let journal = filled(&mut random, case.journal);
    let sheet = filled(&mut random, case.sheet);
    let used = side.used(case);
    let expects_sheet = case.sheet >= LEAST_SHEET;
    if left.file != case.file {
        Some("the file was changed")
    } else if left.till != case.till {
        Some("the till was changed")
    } else if left.journal[..GUARD] != journal[..GUARD] {
        Some("the guard before the journal was changed")
    } else if left.journal[GUARD + case.journal..] != journal[GUARD + case.journal..] {
        Some("the guard behind the journal was changed")
    } else if left.journal[GUARD + used..] != journal[GUARD + used..] {
        Some("journal bytes that no row has were changed")
    } else if left.sheet[..GUARD] != sheet[..GUARD] {
        Some("the guard before the sheet was changed")
    } else if left.sheet[GUARD + case.sheet..] != sheet[GUARD + case.sheet..] {
        Some("the guard behind the sheet was changed")
    } else if left.length > case.sheet {
        Some("the sheet's length is beyond its buffer")
    } else if expects_sheet != (left.length > 0) {
        Some("a sheet was refused or written against refusal 9")
    } else if left.sheet[GUARD + left.length..] != sheet[GUARD + left.length..] {
        Some("bytes behind the sheet were changed")
    } else {
        None
    }
}

/// A case on which two implementations differ, or one breaks its contract.
pub struct Difference<'a> {
    what: String,
    case: &'a Case,
    ours: Left,
    plain: Left,
}

/// Runs the case through both sides. Returns what the plain side left, or the
/// difference.
pub fn compare(ours: Engine, plain: Engine, case: &Case) -> Result<Left, Box<Difference<'_>>> {
    let sides = (ours, plain);
    let (ours, plain) = (apply(ours, case), apply(plain, case));
    let what = if let Some(breach) = breach(sides.0, case, &ours) {
        format!("ours: {breach}")
    } else if let Some(breach) = breach(sides.1, case, &plain) {
        format!("plain: {breach}")
    } else if ours.length != plain.length {
        "the lengths differ".to_string()
    } else if ours.journal != plain.journal {
        "the journals differ".to_string()
    } else if ours.sheet != plain.sheet {
        "the sheets differ".to_string()
    } else {
        return Ok(plain);
    };
    Err(Box::new(Difference { what, case, ours, plain }))
}

/// Bytes in hexadecimal, 32 a line.
fn dump(f: &mut fmt::Formatter, title: &str, bytes: &[u8]) -> fmt::Result {
    writeln!(f, "{title}, {} bytes:", bytes.len())?;
    for (line, part) in bytes.chunks(32).enumerate() {
        write!(f, "{:6}:", 32 * line)?;
        for byte in part {
            write!(f, " {byte:02x}")?;
        }
        writeln!(f)?;
    }
    Ok(())
}

impl fmt::Display for Difference<'_> {
    fn fmt(&self, f: &mut fmt::Formatter) -> fmt::Result {
        let case = self.case;
        writeln!(f, "difference: {}", self.what)?;
        writeln!(f, "class {}, journal of {}, sheet buffer of {}", case.class, case.journal, case.sheet)?;
        dump(f, "file", &case.file)?;
        if !case.till.is_empty() {
            dump(f, "till", &case.till)?;
        }
        for (name, left) in [("ours", &self.ours), ("plain", &self.plain)] {
            writeln!(f, "{name}: length {}\n{}", left.length, String::from_utf8_lossy(left.text()))?;
            dump(f, &format!("{name}: journal between guards of {GUARD}"), &left.journal)?;
        }
        let parts = self.ours.sheet.iter().zip(&self.plain.sheet);
        if let Some(place) = parts.clone().position(|(ours, plain)| ours != plain) {
            writeln!(f, "the sheet buffers, with their guards, differ first at byte {place}")?;
            dump(f, "ours: sheet between guards", &self.ours.sheet)?;
            dump(f, "plain: sheet between guards", &self.plain.sheet)?;
        }
        Ok(())
    }
}

#[cfg(test)]
mod tests {
    use super::*;
    use crate::schedule::Schedule;
    use crate::{machine, plain};

    fn p5() -> Case {
        let file = Schedule::new(2, 1, 2).rows("0:65,0,0,0,0,0").file();
        Case { class: "p05", file, till: vec![1, 0], journal: 14, sheet: LEAST_SHEET + 1, fill: 5 }
    }

    const PLAIN: Engine = Engine::Bench(machine::bench_sheet);

    /// Whether the harness finds what `ours` does on P5.
    fn found(ours: BenchSheet) -> bool {
        compare(Engine::Bench(ours), PLAIN, &p5()).is_err()
    }

    #[test]
    fn machine_agrees_with_itself() {
        assert!(!found(machine::bench_sheet));
    }

    #[test]
    fn every_wrong_byte_is_found() {
        assert!(found(|file, journal, sheet| machine::bench_sheet(file, journal, sheet) + 1));
        assert!(found(|file, journal, sheet| {
            let length = machine::bench_sheet(file, journal, sheet);
            journal[7] ^= 1;
            length
        }));
        assert!(found(|file, journal, sheet| {
            let length = machine::bench_sheet(file, journal, sheet);
            journal[12] ^= 1;
            length
        }));
        assert!(found(|file, journal, sheet| {
            let length = machine::bench_sheet(file, journal, sheet);
            sheet[0] ^= 1;
            length
        }));
        assert!(found(|file, journal, sheet| {
            let length = machine::bench_sheet(file, journal, sheet);
            sheet[length] ^= 1;
            length
        }));
        assert!(found(|_, _, _| 0));
        assert!(found(|_, _, _| usize::MAX));
    }

    /// The same for the plain engine, on one read-lock.
    fn found_of_plain(ours: PlainSheet) -> bool {
        let file = Schedule::new(1, 1, 1).rows("0:64").file();
        let till = Vec::new();
        let case = Case { class: "one call", file, till, journal: 0, sheet: LEAST_SHEET + 1, fill: 5 };
        compare(Engine::Plain(ours), Engine::Plain(plain::plain_sheet), &case).is_err()
    }

    #[test]
    fn every_wrong_byte_of_the_plain_engine_is_found() {
        assert!(!found_of_plain(plain::plain_sheet));
        assert!(found_of_plain(|file, sheet| plain::plain_sheet(file, sheet) + 1));
        assert!(found_of_plain(|file, sheet| {
            let length = plain::plain_sheet(file, sheet);
            sheet[0] ^= 1;
            length
        }));
        assert!(found_of_plain(|file, sheet| {
            let length = plain::plain_sheet(file, sheet);
            sheet[length] ^= 1;
            length
        }));
        assert!(found_of_plain(|_, _| 0));
        assert!(found_of_plain(|_, _| usize::MAX));
    }

    #[test]
    fn every_changed_guard_is_found() {
        let case = p5();
        let left = || apply(PLAIN, &case);
        assert!(breach(PLAIN, &case, &left()).is_none());
        let ends = [0, GUARD - 1];
        for place in ends {
            let mut changed = left();
            changed.journal[place] ^= 1;
            assert!(breach(PLAIN, &case, &changed).is_some());
            let mut changed = left();
            changed.journal[GUARD + case.journal + place] ^= 1;
            assert!(breach(PLAIN, &case, &changed).is_some());
            let mut changed = left();
            changed.sheet[place] ^= 1;
            assert!(breach(PLAIN, &case, &changed).is_some());
            let mut changed = left();
            changed.sheet[GUARD + case.sheet + place] ^= 1;
            assert!(breach(PLAIN, &case, &changed).is_some());
        }
        let mut changed = left();
        changed.file[0] ^= 1;
        assert!(breach(PLAIN, &case, &changed).is_some());
        let mut changed = left();
        changed.till[0] ^= 1;
        assert!(breach(PLAIN, &case, &changed).is_some());
    }
}
