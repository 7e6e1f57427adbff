//! The dispatcher of document 02's request Nine: "each row is a call that its
//! thread wants, in file order", and the dispatcher says whose turn it is.
//!
//! Comments in quotation marks are document 02's own words. The bench takes the
//! steps that are given, so what a step does is said there and not here.

use std::collections::VecDeque;

use crate::machine::{
    order, parse, refusal, sheet, Bench, Call, Outcome, Phase, Sizes, Which, LEAST_SHEET, MOST_ROWS,
};

/// "a lent buffer of 8,197 bytes or more": the longest schedule file.
pub const LEAST_SCHEDULE: usize = 5 + 2 * MOST_ROWS;

/// What the dispatcher came to: 0 or the refusal's number, the steps given and
/// the state that they left.
struct Dispatched {
    answer: u8,
    /// Each step's thread and order.
    steps: Vec<(u8, u8)>,
    bench: Bench,
}

/// "then 5 and 6 (order 0 counted in) row by row over all rows before the first
/// step"; 128 and up are no calls either, "the plain engine and the dispatcher
/// refuse 128 and up with 6".
pub fn refused(sizes: Sizes, threads: &[u8], orders: &[u8]) -> Option<u8> {
    for (&thread, &order) in threads.iter().zip(orders) {
        if thread >= sizes.threads {
            return Some(refusal::THREAD);
        }
        if Call::named(order, sizes.nodes).is_none() {
            return Some(refusal::ORDER);
        }
    }
    None
}

fn dispatch(sizes: Sizes, threads: &[u8], orders: &[u8]) -> Dispatched {
    let mut bench = Bench::fresh(sizes);
    let mut steps = Vec::new();
    if let Some(answer) = refused(sizes, threads, orders) {
        return Dispatched { answer, steps, bench };
    }
    let mut wanted = vec![VecDeque::new(); usize::from(sizes.threads)];
    for (&thread, &order) in threads.iter().zip(orders) {
        wanted[usize::from(thread)].push_back(order);
    }

    // "From thread 0 it goes round the threads by number and gives a step to each
    // that is neither asleep nor done with its last call"; a round in which none
    // was given is the last.
    let mut given = true;
    while given {
        given = false;
        for thread in 0..sizes.threads {
            // "up to 4,096 steps in all, after which no turn comes"
            if steps.len() == MOST_ROWS {
                return Dispatched { answer: refusal::NONE, steps, bench };
            }
            let order = match bench.lock(Which::First).phase(thread) {
                Phase::Asleep => continue,
                Phase::Idle | Phase::Reading { .. } | Phase::Writing => {
                    match wanted[usize::from(thread)].pop_front() {
                        Some(call) => call,
                        None => continue,
                    }
                }
                _ => order::GO_ON,
            };
            // "an unsuitable call, 7, when its turn comes"
            if let Err(answer) = bench.row(thread, order) {
                return Dispatched { answer, steps, bench };
            }
            steps.push((thread, order));
            given = true;
        }
    }
    Dispatched { answer: refusal::NONE, steps, bench }
}

/// "The steps given come back as a schedule [...], untouched behind it"
pub fn write(schedule: &mut [u8], sizes: Sizes, steps: &[(u8, u8)]) {
    let (head, arrays) = schedule.split_at_mut(5);
    let [low, high] = (steps.len() as u16).to_le_bytes();
    head.copy_from_slice(&[sizes.nodes, sizes.fan_out, sizes.threads, low, high]);
    let (threads, orders) = arrays[..2 * steps.len()].split_at_mut(steps.len());
    for (place, &(thread, order)) in steps.iter().enumerate() {
        threads[place] = thread;
        orders[place] = order;
    }
}

/// Dispatches a file of calls from the fresh lock and writes the steps given.
fn run(file: &[u8], schedule: &mut [u8]) -> Outcome {
    let (sizes, threads, orders) = match parse(file) {
        Ok(calls) => calls,
        Err(answer) => return Outcome { answer, taken: 0, state: None },
    };
    // "by 4 for a smaller buffer"
    if schedule.len() < LEAST_SCHEDULE {
        return Outcome { answer: refusal::JOURNAL, taken: 0, state: None };
    }
    let Dispatched { answer, steps, bench } = dispatch(sizes, threads, orders);
    write(schedule, sizes, &steps);
    Outcome { answer, taken: steps.len(), state: Some(bench) }
}

/// Dispatches a file, writes the schedule and the sheet, and returns the sheet's
/// length, or 0 for a sheet buffer that is too small. "A sheet buffer that 9
/// would refuse gets nothing, whatever the number", and the schedule is untouched
/// "after 1 to 4 and 9".
pub fn dispatch_sheet(file: &[u8], schedule: &mut [u8], page: &mut [u8]) -> usize {
    if page.len() < LEAST_SHEET {
        return 0;
    }
    sheet(&run(file, schedule), page)
}
