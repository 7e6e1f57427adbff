//! Locks that are explored by two implementations: the same states, each with a schedule
//! that is as short as any.

use std::collections::HashSet;

use crate::differ::{ExploreLock, Explored};
use crate::explore::{answer, sizes_of, Found, Rows, State};
use crate::machine::parse;

/// N, F and T of the locks that every comparison explores: some hundred to some ten
/// thousand states each.
const COMPARED: [[usize; 3]; 9] =
    [[1, 1, 1], [8, 2, 1], [8, 1, 1], [1, 1, 2], [1, 16, 2], [2, 1, 2], [3, 1, 2], [3, 2, 2], [1, 1, 3]];

/// Sizes on the far side of each limit.
const REFUSED: [[usize; 3]; 7] =
    [[0, 1, 1], [9, 1, 1], [1, 0, 1], [1, 17, 1], [1, 257, 1], [1, 1, 0], [1, 1, 9]];

/// Runs a state's schedule on the bench: the state that it leads to, and its rows.
fn led_to(sizes: [usize; 3], schedule: &[u8]) -> Result<(State, usize), String> {
    let (head, threads, orders) = parse(schedule).map_err(|_| "no schedule".to_string())?;
    if [head.nodes, head.fan_out, head.threads].map(usize::from) != sizes {
        return Err("a schedule of other sizes".to_string());
    }
    let mut rows = Rows::fresh(head);
    for (&thread, &order) in threads.iter().zip(orders) {
        rows.row(thread, order).map_err(|answer| format!("a schedule with refusal {answer}"))?;
    }
    Ok((State::of(&rows), threads.len()))
}

/// Asks that an exploration in room for so many states finds states that there are, each
/// once and by as few rows as any, in the order of their rows; and all of them where there
/// is room.
pub fn compare_in(
    explore: ExploreLock,
    sizes: [usize; 3],
    found: &Found,
    room: usize,
) -> Result<Explored, String> {
    let mut seen = HashSet::new();
    let (mut broken, mut deepest) = (None, 0);
    let explored = explore(sizes, room, &mut |number, schedule| {
        let told = led_to(sizes, schedule).and_then(|(state, rows)| match found.number(&state) {
            None => Err("no state of the lock".to_string()),
            Some(state) if found.depth(state) != rows => {
                Err(format!("{rows} rows where {} do", found.depth(state)))
            }
            Some(state) if !seen.insert(state) => Err("found before".to_string()),
            Some(_) if rows < deepest => Err(format!("{rows} rows behind a state that needs {deepest}")),
            Some(_) => Ok(deepest = rows),
        });
        if let (Err(why), None) = (told, &broken) {
            broken = Some(format!("state {number}: {why}"));
        }
    });
    let whole = found.explored();
    let expected = if room >= whole.states {
        whole
    } else {
        let depth = room.checked_sub(1).map_or(0, |last| found.depth(last));
        Explored { answer: answer::TOO_SMALL, states: room, depth }
    };
    if broken.is_none() && (explored, seen.len()) != (expected, expected.states) {
        broken = Some(format!("{explored:?} with {} schedules, expected {expected:?}", seen.len()));
    }
    match broken {
        None => Ok(explored),
        Some(why) => Err(format!("N, F, T {sizes:?} in room for {room} states: {why}")),
    }
}

/// Compares the explorations of one lock, in room for all its states.
pub fn compare_one(explore: ExploreLock, sizes: [usize; 3]) -> Result<Explored, String> {
    let found = Found::explore(sizes_of(sizes).ok_or("a size is out of range")?, usize::MAX);
    compare_in(explore, sizes, &found, found.explored().states)
}

/// Compares the explorations of small locks, also in less room and in more, and of sizes
/// that are refused. Gives N, F and T with what was found.
pub fn check(explore: ExploreLock) -> Result<Vec<([usize; 3], Explored)>, String> {
    let mut compared = Vec::new();
    for sizes in COMPARED {
        let found = Found::explore(sizes_of(sizes).expect("the sizes are in range"), usize::MAX);
        let states = found.explored().states;
        for room in [1, 10, states / 2, states - 1, states + 1] {
            compare_in(explore, sizes, &found, room)?;
        }
        compared.push((sizes, compare_in(explore, sizes, &found, states)?));
    }
    for sizes in REFUSED {
        let refused = explore(sizes, 100, &mut |_, _| ());
        if refused != (Explored { answer: answer::SIZE, states: 0, depth: 0 }) {
            return Err(format!("N, F, T {sizes:?}: {refused:?}"));
        }
    }
    Ok(compared)
}

/// Prints what was found as a table in Markdown.
pub fn print(compared: &[([usize; 3], Explored)]) {
    println!("| N F T | States | Depth |\n|---|---|---|");
    for ([nodes, fan_out, threads], Explored { states, depth, .. }) in compared {
        println!("| {nodes} {fan_out} {threads} | {states} | {depth} |");
    }
}

#[cfg(test)]
mod tests {
    use super::*;

    /// The states and depths that docs/BENCHMARK.md gives.
    #[test]
    fn states_and_depths() {
        for (sizes, states, depth) in
            [([1, 1, 2], 613, 18), ([2, 1, 2], 3_573, 39), ([1, 1, 3], 16_521, 30), ([3, 2, 2], 7_837, 44)]
        {
            let found = Found::explore(sizes_of(sizes).unwrap(), usize::MAX).explored();
            assert_eq!(found, Explored { answer: answer::COMPLETE, states, depth }, "{sizes:?}");
        }
    }
}
