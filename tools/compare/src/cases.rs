//! The cases of a comparison: fixed ones and random ones of four classes.

use std::collections::BTreeMap;

use crate::differ::{compare, Case, Difference, Engine};
use crate::known::Known;
use crate::machine::{LEAST_SHEET, MOST_ROWS};
use crate::random::Random;
use crate::schedule::Schedule;
use crate::tally::Tally;

/// A file with its name.
pub type Named = (&'static str, Vec<u8>);

/// The rows of a file with the sizes they are meant for.
pub trait Rows {
    fn threads(&self) -> u8;

    fn push(&mut self, thread: u8, order: u8);

    fn file(&self) -> Vec<u8>;
}

impl Rows for Schedule {
    fn threads(&self) -> u8 {
        self.sizes.threads
    }

    fn push(&mut self, thread: u8, order: u8) {
        Schedule::push(self, thread, order);
    }

    fn file(&self) -> Vec<u8> {
        Schedule::file(self)
    }
}

/// Makes the cases of one engine.
pub trait Source: Reached {
    /// The cases that every comparison makes.
    fn fixed(&mut self, random: &mut Random) -> Vec<Case>;

    /// A random case.
    fn any(&mut self, random: &mut Random) -> Case;
}

/// What one engine's cases reached.
pub trait Reached {
    /// The engine's name.
    fn name(&self) -> &'static str;

    /// What the files reached, in tables with a title each.
    fn reached(&self) -> Vec<(&'static str, &Tally)>;

    /// The first claim that did not hold on a state of the files' runs.
    fn broken(&self) -> Option<&str> {
        None
    }
}

/// Makes the files of an engine that reads one for each case.
pub trait Files: Reached {
    type Run: Rows;

    /// Files whose sheets are known.
    fn known(&self) -> Vec<Known>;

    /// The files on both sides of every limit.
    fn edges(&mut self) -> Vec<Named>;

    /// Every order in states that differ in what suits.
    fn every_order(&self) -> Vec<Vec<u8>>;

    /// A file with so many rows, all of which are taken.
    fn legal(&mut self, random: &mut Random, rows: usize) -> Vec<u8>;

    /// Rows that are taken, at most 4,076, then one that is not.
    fn refused(&mut self, random: &mut Random, rows: usize) -> Self::Run;

    /// Sizes in their ranges, and no rows.
    fn empty(&self, random: &mut Random) -> Self::Run;

    /// Orders for rows that are taken or refused as it comes.
    fn orders(&self) -> &'static [u8];

    /// A length of the journal that is enough for the file.
    fn enough_journal(&self, file: &[u8]) -> usize;

    /// Lengths of the journal on both sides of that.
    fn journals(&self, file: &[u8]) -> Vec<usize>;

    /// A length of the journal, enough for the file as a rule.
    fn any_journal(&self, random: &mut Random, file: &[u8]) -> usize;
}

impl<F: Files> Source for F {
    fn fixed(&mut self, random: &mut Random) -> Vec<Case> {
        fixed_cases(self, random)
    }

    fn any(&mut self, random: &mut Random) -> Case {
        any_case(self, random)
    }
}

/// The class of the files whose sheets are known.
pub const KNOWN: &str = "runs and small inputs of the documents";

/// Sheet buffers on both sides of refusal 9's limit.
pub const SHEETS: [usize; 6] = [0, 1, LEAST_SHEET - 1, LEAST_SHEET, LEAST_SHEET + 1, 3 * LEAST_SHEET];

/// How many rows a random run has: few as a rule, sometimes the most.
pub fn any_rows(random: &mut Random) -> usize {
    match random.below(500) {
        0 => MOST_ROWS,
        1..=4 => random.between(200, MOST_ROWS),
        5..=99 => random.below(12),
        _ => random.between(10, 250),
    }
}

/// The files on both sides of every limit of the sizes. `run` makes a file of
/// these sizes and so many rows, all of which are taken where they may be.
pub fn size_edges(mut run: impl FnMut([u8; 3], usize) -> Vec<u8>) -> Vec<Named> {
    let with = |file: &[u8], place: usize, value: u8| {
        let mut file = file.to_vec();
        file[place] = value;
        file
    };
    let sized = run([32, 16, 64], 60);
    let largest = run([32, 2, 64], MOST_ROWS);
    let too_large = run([32, 2, 64], MOST_ROWS + 1);
    vec![
        ("edge-n-0", with(&sized, 0, 0)),
        ("edge-n-32", with(&sized, 0, 32)),
        ("edge-n-33", with(&sized, 0, 33)),
        ("edge-f-0", with(&sized, 1, 0)),
        ("edge-f-1", with(&sized, 1, 1)),
        ("edge-f-16", with(&sized, 1, 16)),
        ("edge-f-17", with(&sized, 1, 17)),
        ("edge-t-0", with(&sized, 2, 0)),
        ("edge-t-64", with(&sized, 2, 64)),
        ("edge-t-65", with(&sized, 2, 65)),
        ("edge-s-4096", largest),
        ("edge-s-4097", too_large),
    ]
}

/// The files on both sides of the limits of thread numbers and orders that the
/// engines share whose rows are whole calls.
pub fn call_edges() -> Vec<Named> {
    let rows = |nodes, threads, text: &str| Schedule::new(nodes, 2, threads).rows(text).file();
    vec![
        ("edge-order-0", rows(1, 1, "0:64,0")),
        ("edge-order-95-n32", rows(32, 1, "0:95")),
        ("edge-order-95-n31", rows(31, 1, "0:95")),
        ("edge-order-94-n31", rows(31, 1, "0:94")),
        ("edge-order-63", rows(32, 1, "0:63")),
        ("edge-order-96", rows(32, 1, "0:96")),
        ("edge-order-255", rows(32, 1, "0:255")),
        ("edge-thread-63", rows(2, 64, "63:64")),
        ("edge-thread-64", rows(2, 64, "64:64")),
        ("edge-thread-before-order", rows(1, 2, "1:64 2:0")),
        // The second lock's orders, which are none of theirs.
        ("edge-order-127", rows(32, 1, "0:127")),
        ("edge-order-128", rows(1, 1, "0:128")),
        ("edge-order-129", rows(1, 1, "0:129")),
        ("edge-order-130", rows(1, 1, "0:1,130")),
        ("edge-order-192", rows(1, 1, "0:192")),
        ("edge-order-223", rows(32, 1, "0:223")),
        ("edge-thread-before-second-lock", rows(1, 1, "1:129")),
    ]
}

/// Every order by thread 0 behind each of these runs, with rows behind it that go
/// on where it is taken. The read-locks of N 1, 31 and 32 differ.
pub fn orders_after(runs: &[&str]) -> Vec<Vec<u8>> {
    let mut files = Vec::new();
    for nodes in [1, 31, 32] {
        for run in runs {
            let schedule = Schedule::new(nodes, 2, 2).rows(run);
            for order in 0..=255 {
                let mut schedule = schedule.clone();
                schedule.push(0, order);
                files.push(schedule.rows("0:0 1:64").file());
            }
        }
    }
    files
}

fn fixed_cases(source: &mut impl Files, random: &mut Random) -> Vec<Case> {
    let mut cases = Vec::new();
    let mut add = |class, file: &[u8], journal, sheet, fill| {
        cases.push(Case { class, file: file.to_vec(), till: Vec::new(), journal, sheet, fill });
    };
    for known in source.known() {
        add(KNOWN, &known.file, known.journal, LEAST_SHEET, random.next());
    }
    for (_, file) in source.edges() {
        for journal in source.journals(&file) {
            for sheet in SHEETS {
                add("edges", &file, journal, sheet, random.next());
            }
        }
    }
    for file in source.every_order() {
        let journal = source.enough_journal(&file);
        add("every order", &file, journal, LEAST_SHEET, random.next());
    }
    for length in 0..=40 {
        let rows = usize::saturating_sub(length, 5) / 2;
        let mut files = vec![vec![0; length], vec![1; length], vec![0xff; length]];
        for _ in 0..100 {
            files.push(random.bytes(length));
            let mut legal = source.legal(random, rows);
            legal.resize(length, random.byte());
            files.push(legal);
        }
        for file in files {
            for journal in source.journals(&file) {
                add("every length from 0 to 40", &file, journal, LEAST_SHEET, random.next());
            }
        }
    }
    cases
}

/// A legal run cut short by a bad row, with rows behind it that are not run.
fn cut_file(source: &mut impl Files, random: &mut Random) -> Vec<u8> {
    let rows = any_rows(random).min(MOST_ROWS - 20);
    let mut run = source.refused(random, rows);
    let threads = usize::from(run.threads());
    for _ in 0..random.below(20) {
        run.push(random.below(threads) as u8, random.pick(source.orders()));
    }
    run.file()
}

/// Random bytes, or sizes in their ranges with rows of any bytes.
fn random_file(source: &impl Files, random: &mut Random) -> Vec<u8> {
    if random.chance(30) {
        let length = random.below(200);
        return random.bytes(length);
    }
    let mut run = source.empty(random);
    let threads = usize::from(run.threads());
    for _ in 0..random.below(60) {
        let thread = if random.chance(2) { random.byte() } else { random.below(threads) as u8 };
        let order = if random.chance(2) { random.byte() } else { random.pick(source.orders()) };
        run.push(thread, order);
    }
    run.file()
}

/// The ways to damage a file.
#[derive(Clone, Copy)]
pub enum Damage {
    Flipped,
    Truncated,
    Extended,
    Resized,
}

/// Damages a good file.
pub fn damage(random: &mut Random, file: &mut Vec<u8>, damage: Damage) {
    match damage {
        Damage::Flipped => {
            for _ in 0..random.between(1, 4) {
                let place = random.below(file.len());
                file[place] ^= 1 << random.below(8);
            }
        }
        Damage::Truncated => {
            let length = if random.chance(50) { file.len() - 1 } else { random.below(file.len()) };
            file.truncate(length);
        }
        Damage::Extended => {
            for _ in 0..random.between(1, 9) {
                file.push(random.byte());
            }
        }
        Damage::Resized => {
            let place = random.below(file.len().min(5));
            file[place] = match random.below(3) {
                0 => random.byte(),
                1 => file[place].wrapping_add(1),
                _ => file[place].wrapping_sub(1),
            };
        }
    }
}

/// Damages a good file in any of these ways.
pub fn damage_anyhow(random: &mut Random, file: &mut Vec<u8>) {
    let kind = random.pick(&[Damage::Flipped, Damage::Truncated, Damage::Extended, Damage::Resized]);
    damage(random, file, kind);
}

fn damaged_file(source: &mut impl Files, random: &mut Random) -> Vec<u8> {
    let rows = any_rows(random);
    let mut file = source.legal(random, rows);
    damage_anyhow(random, &mut file);
    file
}

fn any_case(source: &mut impl Files, random: &mut Random) -> Case {
    let (class, file) = match random.below(100) {
        0..=49 => {
            let rows = any_rows(random);
            ("legal runs", source.legal(random, rows))
        }
        50..=69 => ("legal runs cut by a bad row", cut_file(source, random)),
        70..=79 => ("random bytes", random_file(source, random)),
        _ => ("damaged files", damaged_file(source, random)),
    };
    let journal = source.any_journal(random, &file);
    let sheet = any_sheet(random);
    Case { class, file, till: Vec::new(), journal, sheet, fill: random.next() }
}

/// A length of the sheet's buffer, enough as a rule.
pub fn any_sheet(random: &mut Random) -> usize {
    match random.below(10) {
        0 => random.pick(&SHEETS),
        1 => random.between(LEAST_SHEET, 2 * LEAST_SHEET),
        _ => LEAST_SHEET,
    }
}

/// What a comparison did.
pub struct Report {
    classes: BTreeMap<&'static str, u64>,
    /// How often each first line's answer was printed, and "no sheet".
    answers: BTreeMap<String, u64>,
}

impl Report {
    /// How many cases were compared.
    pub fn cases(&self) -> u64 {
        self.classes.values().sum()
    }

    pub fn print(&self) {
        println!("| Class | Cases |\n|---|---|");
        for (class, count) in &self.classes {
            println!("| {class} | {count} |");
        }
        println!("\n| Answer | Cases |\n|---|---|");
        for (answer, count) in &self.answers {
            println!("| {answer} | {count} |");
        }
    }
}

/// All fixed cases and then `count` random ones.
fn all_cases<S: Source>(source: &mut S, count: u64, seed: u64) -> impl Iterator<Item = Case> + '_ {
    let mut random = Random::new(seed);
    let fixed = source.fixed(&mut random);
    fixed.into_iter().chain((0..count).map(move |_| source.any(&mut random)))
}

/// Compares an engine of two implementations on all fixed cases and then on
/// `count` random ones. Calls `differs` with the first difference and ends.
pub fn compare_all(
    source: &mut impl Source,
    ours: Engine,
    plain: Engine,
    count: u64,
    seed: u64,
    differs: &mut dyn FnMut(usize, &Difference),
) -> Option<Report> {
    let mut report = Report { classes: BTreeMap::new(), answers: BTreeMap::new() };
    for (number, case) in all_cases(source, count, seed).enumerate() {
        match compare(ours, plain, &case) {
            Ok(left) => {
                let first_line = String::from_utf8_lossy(left.text());
                let answer = first_line.split(' ').nth(1).unwrap_or("no sheet (refusal 9)");
                *report.answers.entry(answer.to_string()).or_default() += 1;
                *report.classes.entry(case.class).or_default() += 1;
            }
            Err(difference) => {
                differs(number, &difference);
                return None;
            }
        }
    }
    Some(report)
}

/// Whether the source's files reached all that they can, and nothing else, and
/// every claim held.
pub fn check_reached(source: &impl Source) -> Result<(), String> {
    if let Some(broken) = source.broken() {
        return Err(broken.to_string());
    }
    let names = |of: fn(&Tally) -> Vec<&'static str>| -> Vec<_> {
        let named = |(title, tally)| of(tally).into_iter().map(move |name| format!("{title}: {name}"));
        source.reached().into_iter().flat_map(named).collect()
    };
    let (missing, unexpected) = (names(Tally::missing), names(Tally::unexpected));
    if !missing.is_empty() {
        return Err(format!("never reached: {}", missing.join(", ")));
    }
    if !unexpected.is_empty() {
        return Err(format!("reached all the same: {}", unexpected.join(", ")));
    }
    Ok(())
}

#[cfg(test)]
mod tests {
    use super::*;
    use crate::bench_cases::BenchCases;
    use crate::credit_cases::{self, CreditCases};
    use crate::differ::Engines;
    use crate::dispatch_cases::{any_calls, DispatchCases};
    use crate::dispatcher::LEAST_SCHEDULE;
    use crate::plain_cases::PlainCases;
    use crate::record_cases::RecordCases;
    use crate::schedule::any_sizes;
    use crate::site_cases::{self, SiteCases};
    use crate::ticket_cases::{self, TicketCases};
    use crate::{agreement, by_sheets, credit, dispatch_cases, dispatcher, draw_cases, drawer, explore};
    use crate::{explore_cases, machine, plain, record, site, ticket};

    // The broken engines that build.rs makes.
    include!(concat!(env!("OUT_DIR"), "/broken.rs"));

    const BENCH: Engine = Engine::Bench(machine::bench_sheet);
    const PLAIN: Engine = Engine::Plain(plain::plain_sheet);
    const DISPATCH: Engine = Engine::Dispatch(dispatcher::dispatch_sheet);
    const DRAW: Engine = Engine::Draw(drawer::draw_sheet);
    const SITE: Engine = Engine::Site(site::site_sheet);
    const TICKET: Engine = Engine::Ticket(ticket::ticket_sheet);
    const CREDIT: Engine = Engine::Credit(credit::credit_sheet);
    const RECORD: Engine = Engine::Record(record::record_sheet);

    #[test]
    fn bench_agrees_with_itself_and_every_step_is_reached() {
        let mut source = BenchCases::new();
        assert!(compare_all(&mut source, BENCH, BENCH, 60_000, 7, &mut |_, _| ()).is_some());
        check_reached(&source).unwrap();
    }

    #[test]
    fn plain_engine_agrees_with_itself_and_every_call_is_reached() {
        let mut source = PlainCases::new();
        assert!(compare_all(&mut source, PLAIN, PLAIN, 60_000, 7, &mut |_, _| ()).is_some());
        check_reached(&source).unwrap();
    }

    #[test]
    fn dispatcher_agrees_with_itself_and_every_turn_is_reached() {
        let mut source = DispatchCases::new();
        assert!(compare_all(&mut source, DISPATCH, DISPATCH, 10_000, 7, &mut |_, _| ()).is_some());
        check_reached(&source).unwrap();
    }

    #[test]
    fn ticket_lock_agrees_with_itself_and_every_row_is_reached() {
        let mut source = TicketCases::new();
        assert!(compare_all(&mut source, TICKET, TICKET, 20_000, 7, &mut |_, _| ()).is_some());
        check_reached(&source).unwrap();
    }

    #[test]
    fn drawn_schedules_keep_their_claims_and_every_turn_is_reached() {
        let reached = draw_cases::check(drawer::draw_sheet, machine::bench_sheet, 3_000, 7).unwrap();
        assert!(reached.missing().is_empty(), "{:?}", reached.missing());
    }

    #[test]
    fn every_broken_drawer_is_found() {
        assert_found(broken_drawers::ALL, Engine::Draw, DRAW, draw_cases::cases(3_000, 7).collect());
    }

    /// By the claims alone, of what an implementation gives by itself.
    #[test]
    fn claims_find_wrong_drawers() {
        for (name, broken) in broken_drawers::ALL {
            if !["no_schedule_of_8197_bytes", "small_buffer_is_written"].contains(name) {
                let claims = draw_cases::claims(*broken, machine::bench_sheet, 3_000, 7);
                assert!(claims.is_err(), "{name}");
            }
        }
    }

    #[test]
    fn sites_agree_with_themselves_and_every_turn_is_reached() {
        let mut source = SiteCases::new();
        assert!(compare_all(&mut source, SITE, SITE, 10_000, 7, &mut |_, _| ()).is_some());
        check_reached(&source).unwrap();
    }

    #[test]
    fn every_broken_site_is_found() {
        let cases = all_cases(&mut SiteCases::new(), 5_000, 7).collect();
        assert_found(broken_sites::ALL, Engine::Site, SITE, cases);
    }

    /// What is wrong about the file or the buffer alone.
    const OF_THE_FILE: [&str; 10] = [
        "warm_up_high_byte_first",
        "warm_up_of_two_bytes",
        "order_before_thread",
        "order_0_is_unsuited",
        "rows_4097",
        "length_before_size",
        "longer_file_is_taken",
        "short_file_is_refusal_2",
        "small_buffer_is_written",
        "high_bit_is_ignored",
    ];

    /// By the claims alone, of what an implementation gives by itself.
    #[test]
    fn claims_find_wrong_sites() {
        site_cases::claims(site::site_sheet, 2_000, 7).unwrap();
        for (name, broken) in broken_sites::ALL {
            if !OF_THE_FILE.contains(name) {
                assert!(site_cases::claims(*broken, 2_000, 7).is_err(), "{name}");
            }
        }
    }

    /// The mistakes in which rows are made, and in what they do, by the drawer and the bench.
    #[test]
    fn draws_find_wrong_rows() {
        let draws = |site| site_cases::draws(site, drawer::draw_sheet, machine::bench_sheet, 1_000, 7);
        draws(site::site_sheet).unwrap();
        for name in [
            "sleeper_is_held_up",
            "calls_come_once",
            "last_call_again",
            "unsuited_at_the_second_turn",
            "held_up_is_failed",
            "store_is_not_on_the_root",
            "failures_of_a_thread_are_lost",
        ] {
            let (_, broken) = broken_sites::ALL.iter().find(|flaw| flaw.0 == name).unwrap();
            assert!(draws(*broken).is_err(), "{name}");
        }
    }

    #[test]
    fn explorations_agree_with_themselves() {
        assert_eq!(explore_cases::check(explore::explore_lock).unwrap().len(), 9);
    }

    #[test]
    fn every_broken_exploration_is_found() {
        for (name, broken) in broken_explorations::ALL {
            assert!(explore_cases::check(*broken).is_err(), "{name}");
        }
    }

    #[test]
    fn every_broken_ticket_lock_is_found() {
        let cases = all_cases(&mut TicketCases::new(), 10_000, 7).collect();
        assert_found(broken_tickets::ALL, Engine::Ticket, TICKET, cases);
    }

    /// The mistakes that break a claim, by the claims alone.
    #[test]
    fn claims_find_wrong_tickets() {
        for name in [
            "ticket_wraps_to_1",
            "grant_stays_at_65535",
            "compare_advances_the_grant",
            "ticket_is_taken_twice",
            "every_compare_holds",
            "near_waiter_holds",
            "release_passes_one_over",
        ] {
            let (_, broken) = broken_tickets::ALL.iter().find(|flaw| flaw.0 == name).unwrap();
            assert!(ticket_cases::check(*broken, 3_000, 9).is_err(), "{name}");
        }
    }

    #[test]
    fn credit_table_agrees_with_itself_and_every_booking_is_reached() {
        let mut source = CreditCases::new();
        assert!(compare_all(&mut source, CREDIT, CREDIT, 30_000, 7, &mut |_, _| ()).is_some());
        check_reached(&source).unwrap();
    }

    #[test]
    fn records_agree_with_themselves_and_every_outcome_is_reached() {
        let mut source = RecordCases::new();
        assert!(compare_all(&mut source, RECORD, RECORD, 20_000, 7, &mut |_, _| ()).is_some());
        check_reached(&source).unwrap();
    }

    #[test]
    fn every_broken_record_is_found() {
        let cases = all_cases(&mut RecordCases::new(), 5_000, 7).collect();
        assert_found(broken_records::ALL, Engine::Record, RECORD, cases);
    }

    #[test]
    fn every_broken_credit_table_is_found() {
        let cases = all_cases(&mut CreditCases::new(), 10_000, 7).collect();
        assert_found(broken_credits::ALL, Engine::Credit, CREDIT, cases);
    }

    /// The mistakes that break a claim, by the claims alone.
    #[test]
    fn claims_find_wrong_balances() {
        for name in [
            "balance_below_0",
            "entry_is_booked_twice",
            "denied_entry_is_marked",
            "denied_entry_is_never_booked",
            "room_is_the_entry",
            "room_0_gets_all",
            "amount_is_unsigned",
            "amount_high_byte_first",
            "songs_are_not_subtracted",
            "balance_is_16_bit",
            "repeated_entry_is_denied",
            "kinds_are_shifted",
        ] {
            let (_, broken) = broken_credits::ALL.iter().find(|flaw| flaw.0 == name).unwrap();
            assert!(credit_cases::check(*broken, 3_000, 9).is_err(), "{name}");
        }
    }

    /// Asks that the cases find each of these broken engines.
    fn assert_found<F: Copy>(broken: &[(&str, F)], engine: fn(F) -> Engine, plain: Engine, cases: Vec<Case>) {
        for &(name, ours) in broken {
            // The random cases, at the end, find most of what the known runs do not.
            let known = cases.iter().filter(|case| case.class == KNOWN);
            let mut ordered = known.chain(cases.iter().rev());
            let found = ordered.any(|case| compare(engine(ours), plain, case).is_err());
            assert!(found, "{name} was not found");
        }
    }

    #[test]
    fn every_broken_dispatcher_is_found() {
        let cases = all_cases(&mut DispatchCases::new(), 5_000, 7).collect();
        assert_found(broken_dispatchers::ALL, Engine::Dispatch, DISPATCH, cases);
    }

    /// The mistakes in whose turn it is, by the claims alone.
    #[test]
    fn claims_find_wrong_turns() {
        for name in [
            "thread_is_passed_over",
            "round_starts_again",
            "sleeper_gets_a_step",
            "call_out_of_order",
            "step_4097",
            "waiter_for_the_mutex_gets_no_step",
        ] {
            let (_, broken) = broken_dispatchers::ALL.iter().find(|flaw| flaw.0 == name).unwrap();
            let mut random = Random::new(3);
            let found = (0..2_000).any(|_| {
                let sizes = any_sizes(&mut random);
                let rows = if random.chance(5) { 1500 } else { random.below(60) };
                let file = any_calls(&mut random, sizes, rows, 20).file();
                let (mut schedule, mut page) = (vec![0; LEAST_SCHEDULE + 10], [0; LEAST_SHEET]);
                let length = broken(&file, &mut schedule, &mut page);
                let text = String::from_utf8_lossy(&page[..length]);
                let mut reached = dispatch_cases::tally();
                dispatch_cases::follow(&file, &schedule, &text, machine::bench_sheet, &mut reached).is_err()
            });
            assert!(found, "{name}");
        }
    }

    #[test]
    fn every_broken_bench_is_found() {
        let cases = all_cases(&mut BenchCases::new(), 20_000, 7).collect();
        assert_found(broken_benches::ALL, Engine::Bench, BENCH, cases);
    }

    #[test]
    fn every_broken_plain_engine_is_found() {
        let cases = all_cases(&mut PlainCases::new(), 20_000, 7).collect();
        assert_found(broken_plains::ALL, Engine::Plain, PLAIN, cases);
    }

    /// The mistakes that keep the lock from locking, by the claims alone.
    #[test]
    fn claims_find_what_does_not_lock() {
        for name in [
            "writers_swap_enters_among_readers",
            "arrival_at_empty_and_closed",
            "departure_wakes_too_early",
            "upgrade_beside_the_tree",
            "upgrade_beside_another",
            "hand_over_opens",
            "downgrade_forgets_itself",
            "downgrade_opens",
            "downgrade_wakes_nobody",
            "downgrade_takes_a_writer",
        ] {
            let (_, broken) = broken_benches::ALL.iter().find(|flaw| flaw.0 == name).unwrap();
            assert!(by_sheets::check(*broken, 6_000, 9).is_err(), "{name}");
        }
    }

    /// The mistakes that bring failed swaps beyond demand 3, by the claims alone.
    #[test]
    fn claims_find_failures_beyond_demand_3() {
        for name in [
            "held_up_is_failure",
            "direct_swap_loses_the_word",
            "way_up_loses_the_word",
            "departure_loses_the_word",
            "upgrade_loses_the_word",
            "denial_by_a_failed_swap_is_not_counted",
        ] {
            let (_, broken) = broken_benches::ALL.iter().find(|flaw| flaw.0 == name).unwrap();
            assert!(by_sheets::check(*broken, 3_000, 9).is_err(), "{name}");
        }
    }

    /// The mistakes by which one lock's rows show at the other, by the claims alone.
    #[test]
    fn claims_find_locks_that_are_not_separate() {
        for name in [
            "failures_of_the_other_lock",
            "failures_of_both_locks_together",
            "mutex_of_both_locks",
            "wakes_at_both_locks",
            "words_have_32_added",
            "words_have_nothing_added",
        ] {
            let (_, broken) = broken_benches::ALL.iter().find(|flaw| flaw.0 == name).unwrap();
            assert!(by_sheets::check(*broken, 3_000, 9).is_err(), "{name}");
        }
    }

    /// What the sheets of both engines do not share: orders 0, 3, 4 and the second
    /// lock's, a ticket, node lines, the rows taken, refusal 9.
    const UNSHARED: [&str; 13] = [
        "order_0_is_taken",
        "order_0_is_unsuited",
        "order_3_is_taken",
        "order_3_is_unsuited",
        "order_4_is_taken",
        "order_4_is_unsuited",
        "ticket_is_printed",
        "nodes_are_printed",
        "refused_call_is_counted",
        "small_buffer_is_written",
        "sheet_of_4096_bytes",
        "second_lock_is_taken",
        "second_lock_is_unsuited",
    ];

    #[test]
    fn every_broken_plain_engine_differs_from_the_bench() {
        for &(name, plain) in broken_plains::ALL {
            let engines = Engines {
                bench: machine::bench_sheet,
                plain,
                draw: None,
                site: None,
                explore: None,
                dispatch: None,
                ticket: None,
                credit: None,
                record: None,
            };
            let agreed = agreement::check(engines, 2_000, 9);
            assert_eq!(agreed.is_ok(), UNSHARED.contains(&name), "{name}");
        }
    }
}
