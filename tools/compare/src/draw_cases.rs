//! Files of wanted calls and turns for them, what these reach, and what is claimed of
//! every schedule that is drawn.

use crate::cases::{Files, Named};
use crate::differ::{compare, BenchSheet, Case, DrawSheet, Engine};
use crate::dispatch_cases::{any_calls, edge_files, DispatchCases};
use crate::dispatcher::{dispatch_sheet, LEAST_SCHEDULE};
use crate::drawer::draw_sheet;
use crate::machine::{order, parse, refusal, Bench, Phase, Sizes, Which, LEAST_SHEET, MOST_ROWS};
use crate::random::Random;
use crate::schedule::{any_sizes, rows_named};
use crate::tally::{events, Tally};

events! {
    Begun = "turn: a call is begun",
    WentOn = "turn: a call goes on",
    SleeperPassed = "turn passed over: its thread sleeps",
    DonePassed = "turn passed over: its thread is done with its last call",
    NobodyPassed = "turn passed over: T or more",
    Woken = "turn: of a thread that was woken",
    UsedUp = "end: no turn is left, and a thread could move",
    AllRest = "end: no turn is left, and nobody could move",
    Limit = "end: 4,096 steps, turns left",
    Unsuited = "end: refusal 7",
    Refused = "refusal 5 or 6",
    Early = "refusal 1 to 4",
}

pub fn tally() -> Tally {
    Tally::new(Event::NAMES, Vec::new())
}

/// Turns for T threads: all alike, some threads more often than others, one thread for
/// long, round by number; with some of T or more among them.
pub fn any_turns(random: &mut Random, threads: u8, length: usize) -> Vec<u8> {
    let count = usize::from(threads.max(1));
    let (manner, strangers) = (random.below(4), random.pick(&[0, 0, 3, 30]));
    let favourite = random.below(count);
    let mut held = favourite;
    (0..length)
        .map(|turn| {
            if random.chance(strangers) {
                return random.byte();
            }
            let thread = match manner {
                0 => random.below(count),
                1 if random.chance(60) => favourite,
                2 => {
                    if random.chance(5) {
                        held = random.below(count);
                    }
                    held
                }
                3 => turn % count,
                _ => random.below(count),
            };
            thread as u8
        })
        .collect()
}

/// Follows what was drawn of a file at the turns, turn by turn: who is able to move gets
/// the step, every other turn is passed over; `bench` makes the sheet of the schedule.
pub fn follow(
    (file, turns): (&[u8], &[u8]),
    schedule: &[u8],
    text: &str,
    bench: BenchSheet,
    reached: &mut Tally,
) -> Result<(), String> {
    let mut count = |event: Event| reached.count(event as usize);
    let answer: u8 =
        text.split([' ', '\n']).nth(1).and_then(|word| word.parse().ok()).ok_or("the sheet has no answer")?;
    if (refusal::SHORT_FILE..=refusal::JOURNAL).contains(&answer) {
        count(Event::Early);
        return Ok(());
    }
    let (sizes, threads, orders) = parse(file).map_err(|_| "the file is refused")?;
    let schedule =
        schedule.get(..5 + 2 * rows_named(schedule)).ok_or("the schedule is longer than its buffer")?;
    let (_, step_threads, step_orders) = parse(schedule).map_err(|_| "the schedule is none")?;

    // The bench's sheet of it is the same but for the refusal number.
    let mut page = [0; LEAST_SHEET];
    let written = bench(schedule, &mut [0; 2 * MOST_ROWS], &mut page);
    let sheet = String::from_utf8_lossy(&page[..written]);
    if sheet.strip_prefix("answer 0 ") != text.strip_prefix(&format!("answer {answer} ")) {
        return Err(format!("the bench's sheet of the schedule is another:\n{sheet}"));
    }
    if [refusal::THREAD, refusal::ORDER].contains(&answer) {
        count(Event::Refused);
        return if step_threads.is_empty() { Ok(()) } else { Err("steps after 5 or 6".to_string()) };
    }

    let mut wanted = vec![Vec::new(); usize::from(sizes.threads)];
    for (&thread, &order) in threads.iter().zip(orders).rev() {
        wanted[usize::from(thread)].push(order);
    }
    let mut state = Bench::fresh(sizes);
    let mut slept = vec![false; usize::from(sizes.threads)];
    let able = |state: &Bench, wanted: &[Vec<u8>], thread: u8| match state.lock(Which::First).phase(thread) {
        Phase::Asleep => None,
        Phase::Idle | Phase::Reading { .. } | Phase::Writing => wanted[usize::from(thread)].last().copied(),
        _ => Some(order::GO_ON),
    };
    let mut step = 0;
    for (turn, &thread) in turns.iter().enumerate() {
        if step == MOST_ROWS {
            count(Event::Limit);
            return Ok(());
        }
        if thread >= sizes.threads {
            count(Event::NobodyPassed);
            continue;
        }
        let place = usize::from(thread);
        let Some(order) = able(&state, &wanted, thread) else {
            let asleep = state.lock(Which::First).phase(thread) == Phase::Asleep;
            slept[place] |= asleep;
            count(if asleep { Event::SleeperPassed } else { Event::DonePassed });
            continue;
        };
        if step == step_threads.len() && answer == refusal::UNSUITED {
            count(Event::Unsuited);
            let refused = state.row(thread, order) == Err(refusal::UNSUITED);
            return if refused { Ok(()) } else { Err(format!("turn {turn} is refused")) };
        }
        if (step_threads.get(step), step_orders.get(step)) != (Some(&thread), Some(&order)) {
            return Err(format!("turn {turn}: thread {thread} does not get its step, order {order}"));
        }
        if order != order::GO_ON {
            wanted[place].pop();
        }
        count(if order == order::GO_ON { Event::WentOn } else { Event::Begun });
        if std::mem::take(&mut slept[place]) {
            count(Event::Woken);
        }
        state.row(thread, order).map_err(|answer| format!("turn {turn}: {answer}"))?;
        step += 1;
    }
    if (answer, step) != (refusal::NONE, step_threads.len()) {
        return Err(format!("{} steps, of which {step} have turns", step_threads.len()));
    }
    let left = (0..sizes.threads).any(|thread| able(&state, &wanted, thread).is_some());
    count(if left { Event::UsedUp } else { Event::AllRest });
    Ok(())
}

/// A file of wanted calls: good ones, such as are refused, and ones on both sides of a limit.
fn any_file(random: &mut Random, refusing: &mut DispatchCases, edges: &[Named]) -> Vec<u8> {
    let (rows, writers) = (random.pick(&[0, 4, 20, 60, 200, 1_500]), random.pick(&[0, 5, 10, 40, 80]));
    match random.below(10) {
        0 => edges[random.below(edges.len())].1.clone(),
        1 | 2 => refusing.refused(random, rows.min(60)).file(),
        3 => {
            let mut file = refusing.refused(random, rows.min(60)).file();
            file.truncate(random.below(file.len()));
            file
        }
        _ => {
            let sizes = any_sizes(random);
            any_calls(random, sizes, rows, writers).file()
        }
    }
}

/// Cases of wanted calls and turns; buffers are too small now and then.
pub fn cases(count: u64, seed: u64) -> impl Iterator<Item = Case> {
    let mut random = Random::new(seed);
    let (mut refusing, edges) = (DispatchCases::new(), edge_files());
    (0..count).map(move |_| {
        let file = any_file(&mut random, &mut refusing, &edges);
        let threads = file.get(2).copied().unwrap_or(1);
        let length = random.pick(&[0, 1, 10, 200, 2_000, 12_000]);
        let till = any_turns(&mut random, threads, length);
        let journal = if random.chance(3) { LEAST_SCHEDULE - 1 } else { LEAST_SCHEDULE + random.below(3) };
        let sheet = if random.chance(3) { LEAST_SHEET - 1 } else { LEAST_SHEET + random.below(3) };
        Case { class: "drawn", file, till, journal, sheet, fill: random.next() }
    })
}

/// Compares an implementation with the plain one, and asks for the claims; a list of
/// turns that goes round by number is the dispatcher's. Gives what the cases reached.
pub fn check(draw: DrawSheet, bench: BenchSheet, count: u64, seed: u64) -> Result<Tally, String> {
    for case in cases(count, seed) {
        compare(Engine::Draw(draw), Engine::Draw(draw_sheet), &case).map_err(|found| found.to_string())?;
    }
    for number in 0..count / 20 {
        let mut random = Random::new(seed ^ number);
        let sizes = any_sizes(&mut random);
        round(draw, &any_calls(&mut random, sizes, 40, 20).file(), sizes)?;
    }
    claims(draw, bench, count, seed)
}

/// The claims alone.
pub fn claims(draw: DrawSheet, bench: BenchSheet, count: u64, seed: u64) -> Result<Tally, String> {
    let mut reached = tally();
    for case in cases(count, seed) {
        if case.sheet < LEAST_SHEET {
            continue;
        }
        let (mut schedule, mut page) = (vec![0; case.journal], vec![0; case.sheet]);
        let written = draw(&case.file, &case.till, &mut schedule, &mut page);
        let text = String::from_utf8_lossy(&page[..written]).into_owned();
        follow((&case.file, &case.till), &schedule, &text, bench, &mut reached)
            .map_err(|broken| format!("{broken}\nfile {:02x?}\nturns {:02x?}", case.file, case.till))?;
    }
    Ok(reached)
}

/// Turns round by number, as many as 4,096 steps may take, are the dispatcher's.
fn round(draw: DrawSheet, file: &[u8], sizes: Sizes) -> Result<(), String> {
    let turns: Vec<u8> = (0..sizes.threads).cycle().take(MOST_ROWS * usize::from(sizes.threads)).collect();
    let mut left = [(vec![0; LEAST_SCHEDULE], vec![0; LEAST_SHEET]), (vec![0; LEAST_SCHEDULE], vec![0; LEAST_SHEET])];
    let [(schedule, page), (rounds, pages)] = &mut left;
    let lengths = (draw(file, &turns, schedule, page), dispatch_sheet(file, rounds, pages));
    if lengths.0 != lengths.1 || left[0] != left[1] {
        return Err(format!("turns round by number are not the dispatcher's\nfile {file:02x?}"));
    }
    Ok(())
}
