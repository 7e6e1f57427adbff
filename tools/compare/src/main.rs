//! Compares the lock bench's library with a plain implementation of documents
//! 01 and 02, times both and writes stored schedules.

#![forbid(unsafe_code)]

mod agreement;
mod bench_cases;
mod by_sheets;
mod cases;
mod coverage;
mod credit;
mod credit_cases;
mod differ;
mod dispatch_cases;
mod dispatcher;
mod draw_cases;
mod drawer;
mod explore;
mod explore_cases;
mod known;
mod known_credit;
mod known_records;
mod known_sites;
mod known_tickets;
mod known_two_locks;
#[cfg(feature = "linked")]
mod linked;
mod locking;
mod machine;
mod plain;
mod plain_cases;
mod random;
mod record;
mod record_cases;
mod schedule;
mod site;
mod site_cases;
mod stored;
mod tally;
mod ticket;
mod ticket_cases;
mod timing;
mod two_locks;

use std::env;
use std::fs;
use std::path::Path;
use std::process::ExitCode;

use bench_cases::BenchCases;
use cases::Source;
use credit_cases::CreditCases;
use differ::{Engine, Engines};
use dispatch_cases::DispatchCases;
use plain_cases::PlainCases;
use record_cases::RecordCases;
use site_cases::SiteCases;
use ticket_cases::TicketCases;

const USAGE: &str = "\
compare compare [COUNT] [SEED]   the library against the plain implementation
compare rehearse [COUNT] [SEED]  the plain implementation against itself
compare selftest                 the plain implementation against the documents' runs
compare bench                    time per row of both
compare bench RECORD             time per row of both, of that record alone
compare explore N F T            every state of one lock, by both
compare stored DIR               write stored schedules and their output

compare and explore need a build with the feature `linked`; bench without it times
the plain implementation alone.";

const DEFAULT_COUNT: u64 = 200_000;
const DEFAULT_SEED: u64 = 20_260;

/// The plain implementation.
const PLAIN: Engines = Engines {
    bench: machine::bench_sheet,
    plain: plain::plain_sheet,
    dispatch: Some(dispatcher::dispatch_sheet),
    draw: Some(drawer::draw_sheet),
    site: Some(site::site_sheet),
    explore: Some(explore::explore_lock),
    ticket: Some(ticket::ticket_sheet),
    credit: Some(credit::credit_sheet),
    record: Some(record::record_sheet),
};

/// The library under test, where this build has it.
fn library() -> Option<Engines> {
    #[cfg(feature = "linked")]
    return Some(linked::ENGINES);
    #[cfg(not(feature = "linked"))]
    return None;
}

/// A number among the arguments, or its default where there is none.
fn number(argument: Option<&String>, default: u64) -> Result<u64, String> {
    match argument {
        None => Ok(default),
        Some(text) => text.parse().map_err(|_| format!("`{text}` is not a number")),
    }
}

/// Compares one engine of both implementations; gives the number of cases.
fn compare_engine(
    mut source: impl Source,
    ours: Engine,
    plain: Engine,
    count: u64,
    seed: u64,
) -> Result<u64, String> {
    println!("## {}\n", source.name());
    let report = cases::compare_all(&mut source, ours, plain, count, seed, &mut |case, difference| {
        println!("case {case} of seed {seed}\n{difference}");
    });
    let report = report.ok_or("the implementations differ")?;
    report.print();
    for (title, tally) in source.reached() {
        println!();
        tally.print(title);
    }
    println!();
    cases::check_reached(&source)?;
    Ok(report.cases())
}

/// Compares all engines, and prints the verdict as the last line.
fn compare(ours: Engines, count: u64, seed: u64) -> ExitCode {
    match compare_engines(ours, count, seed) {
        Ok(cases) => {
            println!("\nverdict: no difference in {cases} files, and every claim held");
            ExitCode::SUCCESS
        }
        Err(message) => {
            println!("\nverdict: FAILED: {message}");
            ExitCode::FAILURE
        }
    }
}

/// Compares all engines, and checks the claims; gives the number of files compared.
fn compare_engines(ours: Engines, count: u64, seed: u64) -> Result<u64, String> {
    println!("seed {seed}\n");
    let (bench, plain) = (Engine::Bench(ours.bench), Engine::Plain(ours.plain));
    let mut cases = compare_engine(BenchCases::new(), bench, Engine::Bench(PLAIN.bench), count, seed)?;
    cases += compare_engine(PlainCases::new(), plain, Engine::Plain(PLAIN.plain), count, seed)?;
    if let Some(dispatch) = ours.dispatch {
        let plain = Engine::Dispatch(dispatcher::dispatch_sheet);
        cases += compare_engine(DispatchCases::new(), Engine::Dispatch(dispatch), plain, count, seed)?;
    }
    if let Some(ticket) = ours.ticket {
        let plain = Engine::Ticket(ticket::ticket_sheet);
        cases += compare_engine(TicketCases::new(), Engine::Ticket(ticket), plain, count, seed)?;
    }
    if let Some(credit) = ours.credit {
        let plain = Engine::Credit(credit::credit_sheet);
        cases += compare_engine(CreditCases::new(), Engine::Credit(credit), plain, count, seed)?;
    }
    if let Some(record) = ours.record {
        let plain = Engine::Record(record::record_sheet);
        cases += compare_engine(RecordCases::new(), Engine::Record(record), plain, count, seed)?;
    }
    if let Some(site) = ours.site {
        let plain = Engine::Site(site::site_sheet);
        cases += compare_engine(SiteCases::new(), Engine::Site(site), plain, count, seed)?;
        site_cases::turns_refused(site)?;
    }

    let pairs = count / 20;
    if let Some(draw) = ours.draw {
        let reached = draw_cases::check(draw, ours.bench, pairs, seed)?;
        println!("## The dispatcher at lent turns\n\n{pairs} files\n");
        reached.print("Turn");
        let missing = reached.missing();
        if !missing.is_empty() {
            return Err(format!("never reached: {}", missing.join(", ")));
        }
        println!();
        cases += pairs;
    }
    let compared = agreement::check(ours, pairs, seed)?;
    println!("## The plain engine and the bench\n\n{pairs} runs of whole calls, {compared} pairs of sheets");
    println!("\nno difference\n\n## The claims on each lock, on the sheets after every row");
    for (title, claims) in
        ["Claim", "Claim on the second lock"].iter().zip(by_sheets::check(ours.bench, pairs, seed)?)
    {
        println!();
        claims.met().print(title);
    }
    if let Some(ticket) = ours.ticket {
        let looked = ticket_cases::check(ticket, pairs, seed)?;
        println!("\n## The ticket lock's claims, on the sheets after every row\n\n{looked} sheets");
    }
    if let Some(credit) = ours.credit {
        let booked = credit_cases::check(credit, pairs, seed)?;
        println!("\n## The credit table's claims, on the sheets after every row\n\n{booked} bookings");
    }
    if let Some(site) = ours.site {
        site_cases::claims(site, pairs, seed)?;
        println!("\n## Sites' sheets, counted from the whole run\n\n{pairs} sheets");
        if let Some(draw) = ours.draw {
            site_cases::draws(site, draw, ours.bench, pairs, seed)?;
            println!("\n## Sites' rows, as they are drawn\n\n{pairs} runs");
        }
    }
    if let Some(explore) = ours.explore {
        println!("\n## Locks explored\n");
        explore_cases::print(&explore_cases::check(explore)?);
    }
    Ok(cases)
}

fn selftest() -> Result<(), String> {
    for line in known::check()? {
        println!("{line}");
    }
    Ok(())
}

fn dispatch(arguments: &[String]) -> Result<ExitCode, String> {
    let count = || number(arguments.get(1), DEFAULT_COUNT);
    let seed = || number(arguments.get(2), DEFAULT_SEED);
    match arguments.first().map(String::as_str) {
        Some("compare") => {
            let library = library().ok_or("this build has no library; use the feature `linked`")?;
            return Ok(compare(library, count()?, seed()?));
        }
        Some("rehearse") => return Ok(compare(PLAIN, count()?, seed()?)),
        Some("selftest") => selftest()?,
        Some("bench") => match arguments.get(1) {
            Some(record) => {
                let file = fs::read(record).map_err(|error| format!("{record}: {error}"))?;
                timing::bench_record(PLAIN, library(), record, file);
            }
            None => timing::bench(PLAIN, library()),
        },
        Some("explore") => {
            let explore = library().and_then(|library| library.explore);
            let explore = explore.ok_or("this build has no library; use the feature `explore`")?;
            let size = |place| number(arguments.get(place), 1).map(|size| size as usize);
            let sizes = [size(1)?, size(2)?, size(3)?];
            explore_cases::print(&[(sizes, explore_cases::compare_one(explore, sizes)?)]);
        }
        Some("stored") => {
            let folder = arguments.get(1).ok_or("stored needs a folder")?;
            stored::write(Path::new(folder)).map_err(|error| error.to_string())?;
        }
        _ => return Err(USAGE.to_string()),
    }
    Ok(ExitCode::SUCCESS)
}

fn main() -> ExitCode {
    let arguments: Vec<String> = env::args().skip(1).collect();
    dispatch(&arguments).unwrap_or_else(|message| {
        eprintln!("{message}");
        ExitCode::FAILURE
    })
}
