//! Runs and small inputs of document 02's request Eleven, with their sheets worked
//! out by hand.

use crate::cases::Rows;
use crate::known::Known;
use crate::ticket::Head;
use crate::ticket_cases::TicketRows;

fn run(name: &'static str, threads: u8, start: u16, rows: &str, sheet: &str) -> Known {
    let file = TicketRows::new(Head { threads, start }).rows(rows).file();
    Known { name, file, journal: 0, sheet: sheet.to_string() }
}

fn runs() -> Vec<Known> {
    vec![
        run("fresh", 1, 0, "", "answer 0 at 0\nticket 0\ngrant 0\nthread 0 idle\n"),
        run("fresh-start", 2, 770, "", "answer 0 at 0\nticket 770\ngrant 770\nthread 0 idle\nthread 1 idle\n"),
        // A waiter whose ticket is the grant waits until it compares.
        run("takes", 1, 0, "0:1", "answer 0 at 1\nticket 1\ngrant 0\nthread 0 near\n"),
        run("holds", 1, 0, "0:1,0", "answer 0 at 2\nticket 1\ngrant 0\nthread 0 holding\n"),
        run("releases", 1, 0, "0:1,0,2", "answer 0 at 3\nticket 1\ngrant 1\nthread 0 idle\n"),
        run(
            "near-and-far",
            4,
            0,
            "0:1 1:1 2:1 0:0",
            "answer 0 at 4\nticket 3\ngrant 0\nthread 0 holding\nthread 1 near\nthread 2 far\nthread 3 idle\n",
        ),
        run(
            "near-and-far-released",
            4,
            0,
            "0:1 1:1 2:1 0:0,2",
            "answer 0 at 5\nticket 3\ngrant 1\nthread 0 idle\nthread 1 near\nthread 2 near\nthread 3 idle\n",
        ),
        run(
            "compares-in-vain",
            2,
            9,
            "0:1 1:1 1:0,0",
            "answer 0 at 4\nticket 11\ngrant 9\nthread 0 near\nthread 1 near\n",
        ),
        // The order is that of the tickets, not of the thread numbers.
        run(
            "order-of-tickets",
            3,
            5,
            "2:1 0:1 1:1 1:0 2:0,2 1:0 0:0",
            "answer 0 at 8\nticket 8\ngrant 6\nthread 0 holding\nthread 1 near\nthread 2 idle\n",
        ),
        // Tickets 65,535, 0 and 1.
        run(
            "wrap-of-tickets",
            3,
            65_535,
            "0:1 1:1 2:1",
            "answer 0 at 3\nticket 2\ngrant 65535\nthread 0 near\nthread 1 near\nthread 2 far\n",
        ),
        run(
            "wrap-of-grant",
            3,
            65_535,
            "0:1 1:1 2:1 0:0,2 1:0",
            "answer 0 at 6\nticket 2\ngrant 0\nthread 0 idle\nthread 1 holding\nthread 2 near\n",
        ),
        run(
            "wrap-of-both",
            2,
            65_534,
            "0:1 1:1 0:0,2 1:0,2",
            "answer 0 at 6\nticket 0\ngrant 0\nthread 0 idle\nthread 1 idle\n",
        ),
        run(
            "wrap-beyond",
            2,
            65_534,
            "0:1,0,2 1:1,0,2 0:1,0",
            "answer 0 at 8\nticket 1\ngrant 0\nthread 0 holding\nthread 1 idle\n",
        ),
        run(
            "five-digits",
            3,
            9_999,
            "0:1 1:1 2:1 0:0,2",
            "answer 0 at 5\nticket 10002\ngrant 10000\nthread 0 idle\nthread 1 near\nthread 2 near\n",
        ),
    ]
}

/// "It refuses by 1 to 3, 5 to 7 and 9".
fn refusals() -> Vec<Known> {
    let small = |name, file: &[u8], sheet: &str| Known {
        name,
        file: file.to_vec(),
        journal: 0,
        sheet: sheet.to_string(),
    };
    let refused = |name, rows: &str, answer: &str, ticket: u16, standing: &str| {
        run(name, 1, 3, rows, &format!("{answer}\nticket {ticket}\ngrant 3\nthread 0 {standing}\n"))
    };
    vec![
        small("refusal-1", &[1, 0, 0, 0], "answer 1 at 0\n"),
        small("refusal-1-empty", &[], "answer 1 at 0\n"),
        small("refusal-2", &[0, 0, 0, 0, 0], "answer 2 at 0\n"),
        small("refusal-2-rows", &[1, 1, 16, 0, 0], "answer 2 at 0\n"),
        small("refusal-3", &[1, 1, 0, 0, 0, 0], "answer 3 at 0\n"),
        refused("refusal-5", "1:1", "answer 5 at 0", 3, "idle"),
        refused("refusal-5-before-6", "1:3", "answer 5 at 0", 3, "idle"),
        refused("refusal-6", "0:3", "answer 6 at 0", 3, "idle"),
        refused("refusal-6-before-7", "0:1,64", "answer 6 at 1", 4, "near"),
        refused("refusal-7-compare-idle", "0:0", "answer 7 at 0", 3, "idle"),
        refused("refusal-7-release-idle", "0:2", "answer 7 at 0", 3, "idle"),
        // "a waiter's repeated order 1 under 7"
        refused("refusal-7-take-waiting", "0:1,1,0", "answer 7 at 1", 4, "near"),
        refused("refusal-7-release-waiting", "0:1,2", "answer 7 at 1", 4, "near"),
        refused("refusal-7-compare-holding", "0:1,0,0", "answer 7 at 2", 4, "holding"),
        refused("refusal-7-take-holding", "0:1,0,1", "answer 7 at 2", 4, "holding"),
    ]
}

/// All runs and small inputs of the ticket lock.
pub fn all() -> Vec<Known> {
    runs().into_iter().chain(refusals()).collect()
}
