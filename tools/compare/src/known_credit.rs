//! Runs and small inputs of document 02's request Twelve, with their sheets worked out
//! by hand.

use crate::credit_cases::TillEntries;
use crate::schedule::{rows_named, Schedule};

/// A schedule and a till with the sheet that they must give.
pub struct KnownCredit {
    pub name: &'static str,
    pub file: Vec<u8>,
    pub till: Vec<u8>,
    pub journal: usize,
    pub sheet: String,
}

/// A run by so many threads over locks of one node.
fn run(name: &'static str, threads: u8, rows: &str, till: &TillEntries, sheet: &str) -> KnownCredit {
    let file = Schedule::new(1, 1, threads).rows(rows).file();
    let journal = 2 * rows_named(&file);
    KnownCredit { name, file, till: till.file(), journal, sheet: sheet.to_string() }
}

/// One thread's lines of a lock: the root's state and the thread's standing.
fn lock(state: &str, standing: &str) -> String {
    format!("root {state}\nqueue free 0 0\nthread 0 {standing} 0\n")
}

fn fresh() -> String {
    lock("0 0 open", "idle -")
}

fn writing() -> String {
    lock("0 0 closed", "writing -")
}

/// Balances of the first rooms.
fn rooms(balances: &[u32]) -> String {
    balances.iter().enumerate().map(|(room, balance)| format!("room {room} {balance}\n")).collect()
}

/// Thread 0 writes the first lock, then come rows of its own, all taken; the run ends
/// with these balances.
fn books(name: &'static str, orders: &str, till: &TillEntries, balances: &[u32]) -> KnownCredit {
    let rows = 3 + orders.split(',').count();
    let sheet = format!("answer 0 at {rows}\n{}{}{}", writing(), fresh(), rooms(balances));
    run(name, 1, &format!("0:1,0,0,{orders}"), till, &sheet)
}

/// A top-up of 50, songs for 30, songs for 21.
fn small_till() -> TillEntries {
    TillEntries::new(1, &[(0, 50), (0, -30), (0, -21)])
}

/// The three kinds, and the limits of amounts and balances.
fn bookings() -> Vec<KnownCredit> {
    let small = small_till();
    let limits = TillEntries::new(1, &[(0, i16::MAX), (0, i16::MIN), (0, 1)]);
    let three = TillEntries::new(3, &[(2, 5), (0, 9), (1, -1)]);
    let most = TillEntries::new(32, &[(31, i16::MAX); 32]);
    let mut richest = [0; 32];
    richest[31] = 32 * 32_767;
    let each: Vec<(u8, i16)> = (0..32).map(|entry| (31 - entry, i16::from(entry))).collect();
    let all = (96..128).map(|order: u8| order.to_string()).collect::<Vec<_>>().join(",");
    vec![
        books("booked", "96", &small, &[50]),
        books("repeated", "96,96", &small, &[50]),
        books("denied", "97", &small, &[0]),
        books("booked-to-20", "96,97", &small, &[20]),
        // "denied and may come again": 21 of 20 are denied; of 50 they are booked, and
        // then 30 are denied.
        books("denied-at-20", "96,97,98", &small, &[20]),
        books("denied-at-29", "96,98,97", &small, &[29]),
        books("denied-then-booked", "97,96,97,97", &small, &[20]),
        books("booked-to-0", "96,97", &TillEntries::new(1, &[(0, 7), (0, -7)]), &[0]),
        books("booked-nothing", "96,96", &TillEntries::new(1, &[(0, 0)]), &[0]),
        books("amount-32767", "96", &limits, &[32_767]),
        // 32,768 of 32,767 are denied; with 1 more they are booked.
        books("amount-32768-denied", "96,97", &limits, &[32_767]),
        books("amount-32768", "96,97,98", &limits, &[32_768]),
        books("amount-32768-booked", "96,97,98,97,97", &limits, &[0]),
        books("rooms", "96,97,98", &three, &[9, 0, 5]),
        books("largest-balance", &all, &most, &richest),
        books(
            "every-room",
            &all,
            &TillEntries::new(32, &each),
            &std::array::from_fn::<u32, 32, _>(|room| 31 - room as u32),
        ),
        run(
            "no-entry",
            1,
            "",
            &TillEntries::new(2, &[]),
            &format!("answer 0 at 0\n{}{}{}", fresh(), fresh(), rooms(&[0, 0])),
        ),
    ]
}

/// Who may book: "a thread that is writing the first lock, in no call and not asleep".
fn threads() -> Vec<KnownCredit> {
    let till = small_till();
    let one = |name, rows: &str, answer: &str, locks: [String; 2], balance| {
        run(name, 1, rows, &till, &format!("{answer}\n{}{}room 0 {balance}\n", locks[0], locks[1]))
    };
    let two = |name, rows: &str, sheet: &str| run(name, 2, rows, &till, sheet);
    let reading = || lock("1 0 open", "reading 0");
    vec![
        one("by-an-idle-thread", "0:96", "answer 7 at 0", [fresh(), fresh()], 0),
        one("by-a-reader", "0:64,0,0,96", "answer 7 at 3", [reading(), fresh()], 0),
        one("in-a-call", "0:1,0,96", "answer 7 at 2", [lock("0 0 open", "calling -"), fresh()], 0),
        one(
            "in-an-unlock",
            "0:1,0,0,96,2,96",
            "answer 7 at 5",
            [lock("0 0 closed", "calling -"), fresh()],
            50,
        ),
        one(
            "in-a-call-of-second",
            "0:1,0,0,129,96",
            "answer 7 at 4",
            [writing(), lock("0 0 open", "calling -")],
            0,
        ),
        one("by-a-writer-of-second", "0:129,0,0,96", "answer 7 at 3", [fresh(), writing()], 0),
        one("by-a-writer-of-both", "0:1,0,0,129,0,0,96", "answer 0 at 7", [writing(), writing()], 50),
        one("by-a-reader-of-second", "0:1,0,0,192,0,0,96", "answer 0 at 7", [writing(), reading()], 50),
        one("after-an-upgrade", "0:64,0,0,3,0,0,96", "answer 0 at 7", [writing(), fresh()], 50),
        one("after-a-downgrade", "0:1,0,0,96,4,0,0,0,0,97", "answer 7 at 9", [reading(), fresh()], 50),
        // Thread 0 sleeps in the first lock, which thread 1 writes.
        two(
            "by-a-sleeper",
            "1:1,0,0 0:64,0,0,0,0,0 1:96 0:97",
            "answer 7 at 10\nroot 0 0 closed\nqueue free 1 0\nthread 0 asleep - 0\nthread 1 writing - 0\n\
             root 0 0 open\nqueue free 0 0\nthread 0 idle - 0\nthread 1 idle - 0\nroom 0 50\n",
        ),
        // Thread 0 writes the first lock and sleeps in the second.
        two(
            "by-a-sleeper-in-second",
            "1:129,0,0 0:1,0,0,96 0:192,0,0,0,0,0 0:97",
            "answer 7 at 13\nroot 0 0 closed\nqueue free 0 0\nthread 0 writing - 0\nthread 1 idle - 0\n\
             root 0 0 closed\nqueue free 1 0\nthread 0 asleep - 0\nthread 1 writing - 0\nroom 0 50\n",
        ),
        // Thread 1 finds entry 0 booked, books entry 1, and thread 0's row is refused.
        two(
            "writers-in-turn",
            "0:1,0,0,96 0:2,0,0,0,0 1:1,0,0,96,97 0:98",
            "answer 7 at 14\nroot 0 0 closed\nqueue free 0 0\nthread 0 idle - 0\nthread 1 writing - 0\n\
             root 0 0 open\nqueue free 0 0\nthread 0 idle - 0\nthread 1 idle - 0\nroom 0 20\n",
        ),
    ]
}

/// Rows that are refused with 5 and 6, and the order of these and 7.
fn refused_rows() -> Vec<KnownCredit> {
    let till = small_till();
    let full = TillEntries::new(1, &[(0, 1); 32]);
    let row = |name, rows: &str, till: &TillEntries, answer: &str, first: String| {
        run(name, 1, rows, till, &format!("{answer}\n{first}{}room 0 0\n", fresh()))
    };
    vec![
        row("refusal-5-with-till", "1:96", &till, "answer 5 at 0", fresh()),
        row("refusal-5-before-6", "1:99", &till, "answer 5 at 0", fresh()),
        row("refusal-6-entry", "0:1,0,0,99", &till, "answer 6 at 3", writing()),
        row(
            "refusal-6-entry-31",
            "0:1,0,0,127",
            &TillEntries::new(1, &[(0, 1); 31]),
            "answer 6 at 3",
            writing(),
        ),
        row("refusal-6-before-7", "0:99", &till, "answer 6 at 0", fresh()),
        // "a booking with 128 added"
        row("refusal-6-128-added", "0:1,0,0,224", &full, "answer 6 at 3", writing()),
        row("refusal-6-128-added-last", "0:1,0,0,255", &full, "answer 6 at 3", writing()),
        row("refusal-7-order-0", "0:1,0,0,0", &full, "answer 7 at 3", writing()),
    ]
}

/// Refusal 10 of each cause, "after 3 and before 4".
fn refused_tills() -> Vec<KnownCredit> {
    let small = |name, file: &[u8], till: &[u8], journal, answer: u8| KnownCredit {
        name,
        file: file.to_vec(),
        till: till.to_vec(),
        journal,
        sheet: format!("answer {answer} at 0\n"),
    };
    let one_row = [1, 1, 1, 1, 0, 0, 0x40];
    let too_many = TillEntries::new(1, &[(0, 1); 33]).file();
    vec![
        small("refusal-10-empty", &one_row, &[], 2, 10),
        small("refusal-10-one-byte", &one_row, &[1], 2, 10),
        small("refusal-10-no-room", &one_row, &[0, 0], 2, 10),
        small("refusal-10-33-rooms", &one_row, &[33, 0], 2, 10),
        small("refusal-10-33-entries", &one_row, &too_many, 2, 10),
        small("refusal-10-short", &one_row, &[1, 1, 0, 5], 2, 10),
        small("refusal-10-long", &one_row, &[1, 1, 0, 5, 0, 0], 2, 10),
        small("refusal-10-room", &one_row, &[1, 1, 1, 5, 0], 2, 10),
        small("refusal-10-second-room", &one_row, &[2, 2, 1, 2, 5, 0, 5, 0], 2, 10),
        small("refusal-1-before-10", &[1, 1, 1], &[], 0, 1),
        small("refusal-2-before-10", &[0, 1, 1, 0, 0], &[], 0, 2),
        small("refusal-3-before-10", &[1, 1, 1, 1, 0, 0], &[], 0, 3),
        small("refusal-10-before-4", &one_row, &[], 1, 10),
        small("refusal-4-with-till", &one_row, &[1, 0], 1, 4),
        small("refusal-10-before-5", &[1, 1, 1, 1, 0, 1, 0x60], &[0, 0], 2, 10),
    ]
}

/// All runs and small inputs of the credit table.
pub fn all() -> Vec<KnownCredit> {
    bookings().into_iter().chain(threads()).chain(refused_rows()).chain(refused_tills()).collect()
}

#[cfg(test)]
mod tests {
    use super::*;
    use crate::credit;

    /// The entries of the rows that end the run.
    fn ends(name: &str, tail: &[(u8, u8)]) {
        let known = all().into_iter().find(|known| known.name == name).unwrap();
        let mut journal = vec![0xee; known.journal];
        let taken = credit::run(&known.file, &known.till, &mut journal).taken;
        let rows = rows_named(&known.file);
        let entries: Vec<_> = (0..taken).map(|row| (journal[row], journal[rows + row])).collect();
        assert_eq!(&entries[taken - tail.len()..], tail, "{name}");
    }

    /// "The journal has kinds 11 booked, 12 repeated, 13 denied, on word 33."
    #[test]
    fn bookings_are_journalled() {
        ends("booked", &[(0, 33), (1, 0), (2, 0), (11, 33)]);
        ends("repeated", &[(11, 33), (12, 33)]);
        ends("denied", &[(13, 33)]);
        ends("denied-at-20", &[(11, 33), (11, 33), (13, 33)]);
        ends("denied-then-booked", &[(13, 33), (11, 33), (11, 33), (12, 33)]);
        ends("booked-nothing", &[(11, 33), (12, 33)]);
        ends("amount-32768-booked", &[(11, 33), (13, 33), (11, 33), (11, 33), (12, 33)]);
        ends("by-a-writer-of-both", &[(0, 97), (1, 64), (2, 64), (11, 33)]);
        ends("writers-in-turn", &[(0, 33), (1, 0), (2, 0), (12, 33), (11, 33)]);
    }
}
