//! Times both implementations on the same files in the same run.

use std::fs;
use std::hint::black_box;
use std::time::{Duration, Instant};

use crate::cases::Rows;
use crate::coverage::Coverage;
use crate::credit::{self, Till};
use crate::credit_cases::{self, TillEntries};
use crate::differ::{compare, Case, Engine, Engines};
use crate::dispatch_cases::any_calls;
use crate::dispatcher::{dispatch_sheet, LEAST_SCHEDULE};
use crate::drawer::draw_sheet;
use crate::known::text_of;
use crate::machine::{self, kind, order, Sizes, LEAST_SHEET, MOST_ROWS};
use crate::plain;
use crate::plain_cases::{drive_calls, tally};
use crate::random::Random;
use crate::record;
use crate::record_cases;
use crate::schedule::{drive, rows_named, Manner, Schedule};
use crate::site::site_sheet;
use crate::site_cases::SiteRows;
use crate::ticket::{self, Head, Standing, TicketLock};
use crate::ticket_cases;

/// Rounds of which the median and the least are taken.
const ROUNDS: usize = 801;
/// The same for a long record.
const RECORD_ROUNDS: usize = 9;
/// Rows that one round runs at least, in as many calls as that takes.
const ROUND_ROWS: usize = 4 * MOST_ROWS;

/// Nearly all rows are held up: thread 0 writes, threads 1 to 30 sleep, thread
/// 31 has the mutex and the others wait for it.
fn wait_file() -> Vec<u8> {
    let mut schedule = Schedule::new(32, 2, 64).rows("0:1,0,0");
    for sleeper in 1..=30 {
        schedule = schedule.rows(&format!("{sleeper}:{},0,0,0,0,0", order::READ_LOCK + sleeper));
    }
    schedule = schedule.rows("31:64,0,0");
    for waiter in 32..=63 {
        schedule = schedule.rows(&format!("{waiter}:64,0"));
    }
    let mut random = Random::new(3);
    while schedule.threads.len() < MOST_ROWS {
        let thread = random.between(1, 63) as u8;
        if thread != 31 {
            schedule.push(thread, order::GO_ON);
        }
    }
    schedule.file()
}

fn driven(seed: u64, nodes: u8, threads: u8, writers: usize) -> Schedule {
    let sizes = Sizes { nodes, fan_out: 2, threads };
    let routes = (0..nodes).collect();
    let manner = Manner { writers, waiting: 100, routes, ..Manner::default() };
    drive(&mut Random::new(seed), sizes, MOST_ROWS, &manner, &mut Coverage::new()).0
}

/// 64 readers by all nodes and the root lock and unlock; there is no writer.
fn read_file() -> Vec<u8> {
    driven(4, 32, 64, 0).file()
}

/// 8 threads, some of which write; the first `rows` rows.
fn mixed_file(rows: usize) -> Vec<u8> {
    let mut schedule = driven(5, 32, 8, 4);
    schedule.threads.truncate(rows);
    schedule.orders.truncate(rows);
    schedule.file()
}

/// Both locks, half of the rows on each, as in the mixed file otherwise.
fn two_locks_file() -> Vec<u8> {
    let sizes = Sizes { nodes: 32, fan_out: 2, threads: 8 };
    let manner =
        Manner { writers: 4, waiting: 100, second: 50, routes: (0..32).collect(), ..Manner::default() };
    drive(&mut Random::new(3), sizes, MOST_ROWS, &manner, &mut Coverage::new()).0.file()
}

/// One node and two threads.
fn small_file() -> Vec<u8> {
    driven(6, 1, 2, 15).file()
}

/// How many threads a site's schedule has.
const SITE_THREADS: u8 = 19;
/// The numbers of threads of the second table.
const THREADS: [u8; 7] = [1, 2, 4, 8, 16, 32, 64];

/// A site's shape: 7 nodes with fan-out 2, one call to lock in ten writes. As a
/// rule a thread that would be held up waits without taking rows, so that the
/// share of rows held up grows little with the number of threads.
fn site_file(threads: u8) -> Vec<u8> {
    let sizes = Sizes { nodes: 7, fan_out: 2, threads };
    let routes = (0..7).collect();
    let manner = Manner { writers: 10, waiting: 5, routes, ..Manner::default() };
    drive(&mut Random::new(7), sizes, MOST_ROWS, &manner, &mut Coverage::new()).0.file()
}

/// 8 writers hand over in turn: of 11 rows one joins the queue, one takes from
/// it and one wakes a group of one.
fn hand_over_file() -> Vec<u8> {
    let writers = 8;
    let mut schedule = Schedule::new(1, 1, writers).rows("0:1,0,0");
    for waiter in 1..writers {
        schedule = schedule.rows(&format!("{waiter}:1,0,0,0,0,0"));
    }
    for holder in (0..writers).cycle() {
        if schedule.threads.len() >= MOST_ROWS {
            break;
        }
        schedule = schedule.rows(&format!("{holder}:2,0,0,0,0 {holder}:1,0,0,0,0,0"));
    }
    schedule.threads.truncate(MOST_ROWS);
    schedule.orders.truncate(MOST_ROWS);
    schedule.file()
}

/// 4,096 calls of the plain engine by so many threads, `writers` in a hundred of
/// those that lock to write.
fn call_file(threads: u8, writers: usize) -> Vec<u8> {
    let sizes = Sizes { nodes: 32, fan_out: 2, threads };
    drive_calls(&mut Random::new(8), sizes, MOST_ROWS, writers, &mut tally()).0.file()
}

/// Runs the file once, asks that all its rows are taken and returns the share
/// of rows held up, as a percentage.
fn held_up(file: &[u8]) -> f64 {
    let rows = rows_named(file);
    let mut journal = vec![0; 2 * rows];
    let outcome = machine::run(file, &mut journal);
    assert_eq!((outcome.answer, outcome.taken), (0, rows), "every row is taken");
    let held_up = journal[..rows].iter().filter(|&&kind| kind == kind::HELD_UP).count();
    100.0 * held_up as f64 / rows as f64
}

/// Runs a file of calls once, asks that all are taken and returns the share of
/// calls that sleep, as a percentage.
fn sleeping(file: &[u8]) -> f64 {
    let rows = rows_named(file);
    let mut engine = plain::Engine::fresh(Sizes { nodes: file[0], fan_out: file[1], threads: file[2] });
    let mut sleeping = 0;
    for row in 0..rows {
        let thread = file[5 + row];
        engine.row(thread, file[5 + rows + row]).expect("every call is taken");
        sleeping += usize::from(engine.standing(thread) == plain::Standing::Asleep);
    }
    100.0 * sleeping as f64 / rows as f64
}

/// 1,600 calls that the dispatcher is to give steps for, one call to lock in ten
/// a write-lock, on a site's tree: more than 4,096 steps take.
fn wanted_file(threads: u8) -> Vec<u8> {
    let sizes = Sizes { nodes: 7, fan_out: 2, threads };
    any_calls(&mut Random::new(9), sizes, 1_600, 10).file()
}

/// The steps that the dispatcher gives for the file.
fn steps_given(file: &[u8]) -> usize {
    let mut schedule = vec![0; LEAST_SCHEDULE];
    dispatch_sheet(file, &mut schedule, &mut [0; LEAST_SHEET]);
    rows_named(&schedule)
}

/// The share of the steps given that are held up, as a percentage.
fn held_up_steps(file: &[u8]) -> f64 {
    let mut schedule = vec![0; LEAST_SCHEDULE];
    dispatch_sheet(file, &mut schedule, &mut [0; LEAST_SHEET]);
    schedule.truncate(5 + 2 * rows_named(&schedule));
    held_up(&schedule)
}

/// Turns at random for a file of wanted calls, more than 4,096 steps take.
fn turns_of(file: &[u8]) -> Vec<u8> {
    random_turns(file, 60_000)
}

/// So many turns at random, with the same chance for each thread.
fn random_turns(file: &[u8], count: usize) -> Vec<u8> {
    let mut random = Random::new(13);
    (0..count).map(|_| random.below(usize::from(file[2])) as u8).collect()
}

/// The schedule that is drawn of the file at these turns.
fn drawn(file: &[u8]) -> Vec<u8> {
    let mut schedule = vec![0; LEAST_SCHEDULE];
    draw_sheet(file, &turns_of(file), &mut schedule, &mut [0; LEAST_SHEET]);
    schedule.truncate(5 + 2 * rows_named(&schedule));
    schedule
}

/// The share of the steps drawn that are held up, as a percentage.
fn held_up_drawn(file: &[u8]) -> f64 {
    held_up(&drawn(file))
}

/// The turns of a site that is timed.
const SITE_TURNS: usize = 100_000;

/// A site with those calls, each thread's last an unlock, that it goes through again and
/// again; so many of its turns a thread holds and thinks.
fn turned_file(threads: u8, [hold, think]: [u8; 2]) -> Vec<u8> {
    let sizes = Sizes { nodes: 7, fan_out: 2, threads };
    SiteRows { hold, think, ..SiteRows::of(any_calls(&mut Random::new(9), sizes, 1_600, 10)) }.file()
}

/// The share of a site's turns that make a row, as a percentage; asks that no call is
/// refused.
fn turns_with_a_row(file: &[u8]) -> f64 {
    let turns = random_turns(file, SITE_TURNS);
    let sheet = text_of(|page| site_sheet(file, &turns, page));
    let rows = sheet.strip_prefix("answer 0 at ").and_then(|rest| rest.lines().next()?.parse::<usize>().ok());
    100.0 * rows.expect("no call is refused") as f64 / SITE_TURNS as f64
}

/// What is lent beside the file: turns, or the till.
fn beside(engine: Engine, file: &[u8]) -> Vec<u8> {
    match engine {
        Engine::Draw(_) => turns_of(file),
        Engine::Site(_) => random_turns(file, SITE_TURNS),
        _ => till().file(),
    }
}

/// A file of the ticket lock with 4,096 rows, by so many threads.
fn ticket_file(threads: u8, granted: usize) -> Vec<u8> {
    let manner = ticket_cases::Manner { granted, releasing: 50 };
    let mut reached = ticket_cases::tally();
    let driven = ticket_cases::drive(
        &mut Random::new(10),
        Head { threads, start: 65_000 },
        MOST_ROWS,
        &manner,
        &mut reached,
    );
    driven.expect("the claims hold").0.file()
}

/// Runs a file of the ticket lock once, asks that all its rows are taken and returns
/// the share of rows that compare in vain, as a percentage.
fn compared_in_vain(file: &[u8]) -> f64 {
    let (head, numbers, orders) = ticket::parse(file).expect("the file is good");
    let mut lock = TicketLock::fresh(head);
    let mut in_vain = 0;
    for (&thread, &order) in numbers.iter().zip(orders) {
        lock.row(thread, order).expect("every row is taken");
        let waits = matches!(lock.standing(thread), Standing::Waiting { .. });
        in_vain += usize::from(order == ticket::order::COMPARE && waits);
    }
    100.0 * in_vain as f64 / numbers.len() as f64
}

/// The till of the credit table's file: 8 rooms and 32 entries, of which every third
/// is for songs.
fn till() -> TillEntries {
    let entry = |entry: u8| (entry % 8, if entry % 3 == 2 { -40 } else { 100 });
    TillEntries::new(8, &(0..32).map(entry).collect::<Vec<_>>())
}

/// 4,096 rows of 8 threads with that till, most calls to lock write-locks; about one row
/// in six is a booking.
fn credit_file() -> Vec<u8> {
    let sizes = Sizes { nodes: 7, fan_out: 2, threads: 8 };
    let manner =
        Manner { writers: 70, lingering: 85, waiting: 5, routes: (0..7).collect(), ..Manner::default() };
    let (entries, file) = (till(), till().file());
    let till = (Till::new(&file).expect("the till is good"), &entries);
    let mut random = Random::new(11);
    let driven =
        credit_cases::drive(&mut random, sizes, till, MOST_ROWS, (&manner, 80), &mut credit_cases::tally());
    driven.expect("the claims hold").0.file()
}

/// The share of rows that are bookings, as a percentage; asks that all rows are taken.
fn bookings(file: &[u8]) -> f64 {
    let rows = rows_named(file);
    let (mut journal, till) = (vec![0; 2 * rows], till().file());
    let outcome = credit::run(file, &till, &mut journal);
    assert_eq!((outcome.answer, outcome.taken), (0, rows), "every row is taken");
    let booked = journal[..rows].iter().filter(|kind| **kind >= credit::kind::BOOKED).count();
    100.0 * booked as f64 / rows as f64
}

/// The rows of a record that is timed: 800 MB.
const RECORDED_ROWS: usize = 100_000_000;
/// N, F and T of these records.
const RECORDED_SIZES: [[u8; 3]; 2] = [[8, 3, SITE_THREADS], [32, 4, 64]];

/// A record of a site's shape, with every value: one call to lock in ten writes, and a
/// thread that would be held up waits without taking rows as a rule.
fn record_file([nodes, fan_out, threads]: [u8; 3], rows: usize) -> Vec<u8> {
    let sizes = Sizes { nodes, fan_out, threads };
    let routes = (0..nodes).collect();
    let manner = Manner { writers: 10, waiting: 5, routes, ..Manner::default() };
    record_cases::long_record(&mut Random::new(12), sizes, rows, &manner).file()
}

/// The share of a record's rows that are held up, as a percentage.
fn held_up_rows(record: &[u8]) -> f64 {
    let (_, rows) = record::parse(record).expect("the record is good");
    let held_up = rows.iter().filter(|row| row[2] == kind::HELD_UP).count();
    100.0 * held_up as f64 / rows.len() as f64
}

/// What a file is measured in, rows, steps given or turns, and the length of the
/// journal, or of the schedule's buffer, that it is run with.
fn measured(engine: Engine, file: &[u8]) -> (usize, usize) {
    match engine {
        Engine::Bench(_) | Engine::Plain(_) | Engine::Credit(_) => (rows_named(file), 2 * rows_named(file)),
        Engine::Dispatch(_) => (steps_given(file), LEAST_SCHEDULE),
        Engine::Draw(_) => (rows_named(&drawn(file)), LEAST_SCHEDULE),
        Engine::Site(_) => (SITE_TURNS, 0),
        Engine::Ticket(_) => (ticket::parse(file).map_or(0, |(_, numbers, _)| numbers.len()), 0),
        Engine::Record(_) => (record::parse(file).map_or(0, |(_, rows)| rows.len()), 0),
    }
}

/// Asks that every side holds the whole record and writes the same sheet.
fn check_held(sides: &[Engine], record: &[u8]) {
    let (rows, _) = measured(sides[0], record);
    let sheet = |side: &Engine| text_of(|page| side.run(record, &[], &mut [], page));
    let first = sheet(&sides[0]);
    assert!(first.starts_with(&format!("answer 0 at {rows}\n")), "{first}");
    for ours in &sides[1..] {
        assert_eq!(sheet(ours), first);
    }
}

/// Asks that both sides do the same with the file.
fn check_agreement(sides: &[Engine], file: &[u8]) {
    let (_, journal) = measured(sides[0], file);
    // The comparison copies its file, for which a long record is too large.
    if let Engine::Record(_) = sides[0] {
        return check_held(sides, file);
    }
    let (file, till) = (file.to_vec(), beside(sides[0], file));
    let case = Case { class: "timing", file, till, journal, sheet: LEAST_SHEET, fill: 0 };
    for ours in &sides[1..] {
        if let Err(difference) = compare(*ours, sides[0], &case) {
            panic!("{difference}");
        }
    }
}

/// Nanoseconds per row: the median and the least of all rounds.
struct Time {
    median: f64,
    least: f64,
}

/// How long this thread has run on a processor, which Linux notes every few
/// milliseconds. A round of a long record takes about a second, in which other work on
/// the machine would count in.
fn processor_time() -> Duration {
    let noted = fs::read_to_string("/proc/thread-self/schedstat").expect("Linux notes a thread's time");
    let nanoseconds = noted.split(' ').next().and_then(|first| first.parse().ok());
    Duration::from_nanos(nanoseconds.expect("its first number is the time in nanoseconds"))
}

/// Times each side, taking turns round by round.
fn time(sides: &[Engine], file: &[u8]) -> Vec<Time> {
    let (rows, length) = measured(sides[0], file);
    let calls = ROUND_ROWS.div_ceil(rows);
    let mut journal = vec![0; length];
    let mut sheet = vec![0; LEAST_SHEET];
    let till = beside(sides[0], file);
    let long = matches!(sides[0], Engine::Record(_));
    let count = if long { RECORD_ROUNDS } else { ROUNDS };
    let begun = Instant::now();
    let now = || if long { processor_time() } else { begun.elapsed() };
    let mut rounds = vec![Vec::with_capacity(count); sides.len()];
    for round in 0..count {
        for turn in 0..sides.len() {
            // Each side goes first in its share of the rounds.
            let side = (round + turn) % sides.len();
            let start = now();
            for _ in 0..calls {
                let (journal, sheet) = (black_box(&mut journal), black_box(&mut sheet));
                black_box(sides[side].run(black_box(file), black_box(&till), journal, sheet));
            }
            rounds[side].push((now() - start).as_nanos() as f64 / (calls * rows) as f64);
        }
    }
    rounds
        .into_iter()
        .map(|mut times| {
            times.sort_by(f64::total_cmp);
            Time { median: times[count / 2], least: times[0] }
        })
        .collect()
}

/// A file to be timed, with its name in the table.
type Timed = (String, Vec<u8>);

/// The files of the first table.
fn files() -> Vec<Timed> {
    let mixed = |rows| ("mixed".to_string(), mixed_file(rows));
    vec![
        ("wait".to_string(), wait_file()),
        ("read".to_string(), read_file()),
        mixed(MOST_ROWS),
        ("mixed, both locks".to_string(), two_locks_file()),
        ("mixed, N 1 and T 2".to_string(), small_file()),
        ("hand over".to_string(), hand_over_file()),
        (format!("{SITE_THREADS} threads, N 7, F 2"), site_file(SITE_THREADS)),
        mixed(16),
        mixed(64),
        mixed(256),
        mixed(1024),
        mixed(4096),
    ]
}

/// The files of the second table.
fn growing_files() -> Vec<Timed> {
    THREADS.iter().map(|&threads| (format!("T {threads}, N 7, F 2"), site_file(threads))).collect()
}

/// The files of the plain engine's table.
fn call_files() -> Vec<Timed> {
    vec![
        ("mixed calls, 8 threads".to_string(), call_file(8, 10)),
        ("readers' calls, 64 threads".to_string(), call_file(64, 0)),
    ]
}

/// The files of the dispatcher's table.
fn wanted_files() -> Vec<Timed> {
    let site = (format!("{SITE_THREADS} threads, N 7, F 2"), wanted_file(SITE_THREADS));
    let growing = THREADS.iter().map(|&threads| (format!("T {threads}, N 7, F 2"), wanted_file(threads)));
    [site].into_iter().chain(growing).collect()
}

/// The files of the sites' table.
fn turned_files() -> Vec<Timed> {
    let site = |name: String, threads, pauses| (name, turned_file(threads, pauses));
    let mut files = vec![
        site(format!("{SITE_THREADS} threads, N 7, F 2"), SITE_THREADS, [0, 0]),
        site(format!("{SITE_THREADS} threads, hold 2, think 20"), SITE_THREADS, [2, 20]),
    ];
    files.extend(THREADS.map(|threads| site(format!("T {threads}, N 7, F 2"), threads, [0, 0])));
    files
}

/// The files of the ticket lock's table.
fn ticket_files() -> Vec<Timed> {
    vec![
        ("ticket lock, 8 threads".to_string(), ticket_file(8, 60)),
        ("ticket lock, 64 threads".to_string(), ticket_file(64, 60)),
        ("ticket lock, 64 threads, waiting".to_string(), ticket_file(64, 0)),
    ]
}

/// The records of their table, each made when it is timed.
fn record_files() -> impl Iterator<Item = Timed> {
    RECORDED_SIZES.into_iter().map(|sizes @ [nodes, fan_out, threads]| {
        (format!("{threads} threads, N {nodes}, F {fan_out}"), record_file(sizes, RECORDED_ROWS))
    })
}

/// Prints a table of both sides, or of the first alone. Each line says what
/// share of the file's rows is of a certain kind.
fn print_table(
    heading: &str,
    files: impl IntoIterator<Item = Timed>,
    sides: &[Engine],
    share: fn(&[u8]) -> f64,
) {
    println!("| {heading} | Plain | Ours | Ours / plain |\n|---|---|---|---|---|---|");
    for (name, file) in files {
        let share = share(&file);
        check_agreement(sides, &file);
        let times = time(sides, &file);
        let shown = |time: &Time| format!("{:.2} ({:.2})", time.median, time.least);
        let (ours, ratio) = match times.get(1) {
            Some(ours) => (
                shown(ours),
                format!("{:.2} ({:.2})", ours.median / times[0].median, ours.least / times[0].least),
            ),
            None => ("-".to_string(), "-".to_string()),
        };
        println!(
            "| {name} | {} | {share:.0} % | {} | {ours} | {ratio} |",
            measured(sides[0], &file).0,
            shown(&times[0])
        );
    }
}

/// Prints all tables; without a library, the plain implementation's part of
/// them.
pub fn bench(plain: Engines, ours: Option<Engines>) {
    let sides = |engine: fn(Engines) -> Option<Engine>| -> Vec<Engine> {
        [plain].into_iter().chain(ours).filter_map(engine).collect()
    };
    let bench = sides(|engines| Some(Engine::Bench(engines.bench)));
    println!("Nanoseconds per row, the sheet included: the median of {ROUNDS} rounds (the least).\n");
    print_table("File | Rows | Held up", files(), &bench, held_up);
    println!("\nCost a row as T grows:\n");
    print_table("File | Rows | Held up", growing_files(), &bench, held_up);
    println!("\nThe plain engine, nanoseconds a call:\n");
    let calls = sides(|engines| Some(Engine::Plain(engines.plain)));
    print_table("File | Calls | Sleep", call_files(), &calls, sleeping);
    println!("\nThe dispatcher, nanoseconds a step given:\n");
    let given = sides(|engines| engines.dispatch.map(Engine::Dispatch));
    print_table("File | Steps | Held up", wanted_files(), &given, held_up_steps);
    println!("\nThe dispatcher at lent turns, nanoseconds a step given:\n");
    let drawn = sides(|engines| engines.draw.map(Engine::Draw));
    print_table("File | Steps | Held up", wanted_files(), &drawn, held_up_drawn);
    println!("\nThe site, nanoseconds a turn:\n");
    let sites = sides(|engines| engines.site.map(Engine::Site));
    print_table("File | Turns | Rows", turned_files(), &sites, turns_with_a_row);
    println!("\nThe ticket lock, nanoseconds a row:\n");
    let tickets = sides(|engines| engines.ticket.map(Engine::Ticket));
    print_table("File | Rows | In vain", ticket_files(), &tickets, compared_in_vain);
    println!("\nThe credit table, nanoseconds a row:\n");
    let credit = sides(|engines| engines.credit.map(Engine::Credit));
    print_table(
        "File | Rows | Bookings",
        [("credit, 8 threads, N 7, F 2".to_string(), credit_file())],
        &credit,
        bookings,
    );
    println!();
    print_records(plain, ours, record_files());
}

/// Prints the records' table of one record, which has more than 4,096 rows and is held.
pub fn bench_record(plain: Engines, ours: Option<Engines>, name: &str, file: Vec<u8>) {
    print_records(plain, ours, [(name.to_string(), file)]);
}

fn print_records(plain: Engines, ours: Option<Engines>, records: impl IntoIterator<Item = Timed>) {
    println!("The record, nanoseconds of the processor a row: the median of {RECORD_ROUNDS} rounds (the least).\n");
    let sides: Vec<Engine> =
        [plain].into_iter().chain(ours).filter_map(|engines| engines.record.map(Engine::Record)).collect();
    print_table("File | Rows | Held up", records, &sides, held_up_rows);
}

#[cfg(test)]
mod tests {
    use super::*;
    use crate::machine::word;

    #[test]
    fn shares_of_rows_held_up() {
        assert!((93.0..95.0).contains(&held_up(&wait_file())));
        assert_eq!(held_up(&read_file()), 0.0);
        assert!(
            (26.0..30.0).contains(&held_up(&mixed_file(MOST_ROWS))),
            "{}",
            held_up(&mixed_file(MOST_ROWS))
        );
        held_up(&small_file());
        assert_eq!(held_up(&hand_over_file()), 0.0);
        held_up(&mixed_file(16));
    }

    #[test]
    fn timed_records_are_held() {
        for sizes in RECORDED_SIZES {
            let record = record_file(sizes, 10_000);
            check_held(&[Engine::Record(record::record_sheet)], &record);
            assert!((5.0..60.0).contains(&held_up_rows(&record)), "{}", held_up_rows(&record));
        }
    }

    /// By the words of the journal, which have 64 added at the second lock.
    #[test]
    fn half_of_the_rows_are_of_the_second_lock() {
        let file = two_locks_file();
        let mut journal = vec![0; 2 * MOST_ROWS];
        machine::run(&file, &mut journal);
        let second = journal[MOST_ROWS..].iter().filter(|word| **word >= word::SECOND_LOCK).count();
        assert!((2000..2100).contains(&second), "{second}");
    }

    #[test]
    fn every_row_of_every_file_is_taken() {
        for (_, file) in files().into_iter().chain(growing_files()) {
            held_up(&file);
        }
        for (_, file) in call_files() {
            assert_eq!(rows_named(&file), MOST_ROWS);
        }
        assert!((5.0..50.0).contains(&sleeping(&call_file(8, 10))), "{}", sleeping(&call_file(8, 10)));
        assert_eq!(sleeping(&call_file(64, 0)), 0.0);
        let share = bookings(&credit_file());
        assert!((15.0..20.0).contains(&share), "{share}");
        for (name, file) in ticket_files() {
            assert_eq!(file.len(), 5 + 2 * MOST_ROWS);
            let share = compared_in_vain(&file);
            assert!(if name.ends_with("waiting") { share > 80.0 } else { share < 50.0 }, "{name}: {share}");
        }
    }

    /// Most turns of a site make a row; fewer where its threads sleep, hold and think.
    #[test]
    fn turned_sites_make_rows() {
        for (name, file) in turned_files() {
            let share = turns_with_a_row(&file);
            assert!((20.0..=100.0).contains(&share), "{name}: {share}");
        }
    }

    #[test]
    fn sites_have_4096_rows_and_one_writer_in_ten() {
        for threads in THREADS.into_iter().chain([SITE_THREADS]) {
            let file = site_file(threads);
            assert_eq!((&file[..3], rows_named(&file)), (&[7, 2, threads][..], MOST_ROWS));
            let orders = &file[5 + MOST_ROWS..];
            let writers = orders.iter().filter(|&&order| order == order::WRITE_LOCK).count();
            let readers = orders.iter().filter(|&&order| order >= order::READ_LOCK).count();
            let share = 100 * writers / (writers + readers);
            assert!((7..=13).contains(&share), "T {threads}: {share} %");
        }
    }
}
