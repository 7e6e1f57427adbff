//! The library under test, through its Rust binding.

use crate::differ::{
    CreditSheet, DispatchSheet, DrawSheet, Engines, ExploreLock, RecordSheet, SiteSheet, TicketSheet,
};

/// The library's sheets with the plain implementation's results: 0 for refusal 9.
pub const ENGINES: Engines = Engines {
    bench: bench_sheet,
    plain: plain_sheet,
    dispatch: DISPATCH,
    draw: DRAW,
    site: SITE,
    explore: EXPLORE,
    ticket: TICKET,
    credit: CREDIT,
    record: RECORD,
};

fn bench_sheet(file: &[u8], journal: &mut [u8], sheet: &mut [u8]) -> usize {
    lock_bench::bench_sheet(file, journal, sheet).unwrap_or(0)
}

fn plain_sheet(file: &[u8], sheet: &mut [u8]) -> usize {
    lock_bench::plain_sheet(file, sheet).unwrap_or(0)
}

#[cfg(feature = "dispatch")]
const DISPATCH: Option<DispatchSheet> =
    Some(|file, schedule, sheet| lock_bench::dispatch_sheet(file, schedule, sheet).unwrap_or(0));
#[cfg(not(feature = "dispatch"))]
const DISPATCH: Option<DispatchSheet> = None;

#[cfg(feature = "draw")]
const DRAW: Option<DrawSheet> =
    Some(|file, turns, schedule, sheet| lock_bench::draw_sheet(file, turns, schedule, sheet).unwrap_or(0));
#[cfg(not(feature = "draw"))]
const DRAW: Option<DrawSheet> = None;

#[cfg(feature = "site")]
const SITE: Option<SiteSheet> =
    Some(|site, turns, sheet| lock_bench::site_sheet(site, turns, sheet).unwrap_or(0));
#[cfg(not(feature = "site"))]
const SITE: Option<SiteSheet> = None;

#[cfg(feature = "explore")]
const EXPLORE: Option<ExploreLock> = Some(explore_lock);
#[cfg(not(feature = "explore"))]
const EXPLORE: Option<ExploreLock> = None;

#[cfg(feature = "explore")]
fn explore_lock(
    [nodes, fan_out, threads]: [usize; 3],
    room: usize,
    tell: &mut dyn FnMut(usize, &[u8]),
) -> crate::differ::Explored {
    use crate::differ::Explored;
    use crate::explore::answer;
    use lock_bench::{Unexplored, INDEX_NUMBERS, STATE_NUMBERS};

    let mut store = vec![0; STATE_NUMBERS * room];
    let mut index = vec![0; INDEX_NUMBERS * room];
    let (answer, found) = match lock_bench::explore_lock(nodes, fan_out, threads, &mut store, &mut index) {
        Ok(found) => (answer::COMPLETE, found),
        Err(Unexplored::StoreTooSmall(found)) => (answer::TOO_SMALL, found),
        Err(Unexplored::SizeOutOfRange) => return Explored { answer: answer::SIZE, states: 0, depth: 0 },
    };
    let mut schedule = vec![0; lock_bench::LONGEST_FILE];
    let states = found.states as usize;
    for state in 0..states {
        let length = lock_bench::explore_schedule(nodes, fan_out, threads, &store, state, &mut schedule);
        tell(state, &schedule[..length.unwrap_or(0)]);
    }
    Explored { answer, states, depth: found.depth as usize }
}

#[cfg(feature = "ticket")]
const TICKET: Option<TicketSheet> = Some(|file, sheet| lock_bench::ticket_sheet(file, sheet).unwrap_or(0));
#[cfg(not(feature = "ticket"))]
const TICKET: Option<TicketSheet> = None;

#[cfg(feature = "credit")]
const CREDIT: Option<CreditSheet> =
    Some(|file, till, journal, sheet| lock_bench::credit_sheet(file, till, journal, sheet).unwrap_or(0));
#[cfg(not(feature = "credit"))]
const CREDIT: Option<CreditSheet> = None;

#[cfg(feature = "record")]
const RECORD: Option<RecordSheet> =
    Some(|record, sheet| lock_bench::record_sheet(record, sheet).unwrap_or(0));
#[cfg(not(feature = "record"))]
const RECORD: Option<RecordSheet> = None;
