//! The dispatcher at lent turns: "a turn names a thread; where that thread is able to
//! move it gets the step, else the turn is passed over, as is a turn of T or more". What
//! it takes, refuses and gives back is the dispatcher's.

use std::collections::VecDeque;

use crate::dispatcher::{refused, write, LEAST_SCHEDULE};
use crate::machine::{order, parse, refusal, sheet, Bench, Outcome, Phase, Which, LEAST_SHEET, MOST_ROWS};

/// Gives steps at the turns to a file of calls, from the fresh lock, and writes them.
fn run(file: &[u8], turns: &[u8], schedule: &mut [u8]) -> Outcome {
    let (sizes, threads, orders) = match parse(file) {
        Ok(calls) => calls,
        Err(answer) => return Outcome { answer, taken: 0, state: None },
    };
    if schedule.len() < LEAST_SCHEDULE {
        return Outcome { answer: refusal::JOURNAL, taken: 0, state: None };
    }
    let mut bench = Bench::fresh(sizes);
    let mut steps = Vec::new();
    let mut answer = refusal::NONE;
    let mut left = turns.iter();
    if let Some(refused) = refused(sizes, threads, orders) {
        answer = refused;
        left = [].iter();
    }
    let mut wanted = vec![VecDeque::new(); 256];
    for (&thread, &order) in threads.iter().zip(orders) {
        wanted[usize::from(thread)].push_back(order);
    }
    for &thread in left {
        // "up to 4,096 steps"
        if steps.len() == MOST_ROWS {
            break;
        }
        if thread >= sizes.threads {
            continue;
        }
        let order = match bench.lock(Which::First).phase(thread) {
            Phase::Asleep => None,
            Phase::Idle | Phase::Reading { .. } | Phase::Writing => wanted[usize::from(thread)].pop_front(),
            _ => Some(order::GO_ON),
        };
        let Some(order) = order else {
            continue;
        };
        if let Err(unsuited) = bench.row(thread, order) {
            answer = unsuited;
            break;
        }
        steps.push((thread, order));
    }
    write(schedule, sizes, &steps);
    Outcome { answer, taken: steps.len(), state: Some(bench) }
}

/// Draws a file's schedule at the turns, writes it and the sheet, and returns the sheet's
/// length, or 0 for a sheet buffer that is too small.
pub fn draw_sheet(file: &[u8], turns: &[u8], schedule: &mut [u8], page: &mut [u8]) -> usize {
    if page.len() < LEAST_SHEET {
        return 0;
    }
    sheet(&run(file, turns, schedule), page)
}
