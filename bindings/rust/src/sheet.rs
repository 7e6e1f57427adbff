//! Sheets as values: what the library writes of a run, parsed, and printed back byte for
//! byte. Nothing here computes a state of a lock.

use std::fmt::{self, Display, Formatter};
use std::str::FromStr;

/// A sheet of the bench, of the plain engine, of the dispatcher or of a record.
#[derive(Clone, Debug, Eq, PartialEq)]
pub struct Sheet {
    /// 0, or the number of the refusal ([`crate::refusal`]).
    pub answer: u8,
    /// The number of rows taken, steps given or rows held.
    pub taken: u32,
    /// What the bench gives for the row of a record that differs (refusals 11 and 12).
    pub expected: Option<Expected>,
    /// The locks: none after a refused file, one of the plain engine, else two.
    pub locks: Vec<Lock>,
    /// The balances of the rooms, where there is a till.
    pub rooms: Vec<u32>,
}

/// An entry and a value that the bench gives where a record has another.
#[derive(Clone, Copy, Debug, Eq, PartialEq)]
pub struct Expected {
    pub kind: u8,
    pub word: u8,
    /// The value of the word after the row, where the word has one.
    pub value: Option<u32>,
}

/// A lock: its root, the counts of the nodes 1 to N - 1, its queue and its threads.
#[derive(Clone, Debug, Eq, PartialEq)]
pub struct Lock {
    pub root: Root,
    pub nodes: Vec<u32>,
    pub queue: Queue,
    pub threads: Vec<Thread>,
}

/// The root word.
#[derive(Clone, Copy, Debug, Eq, PartialEq)]
pub struct Root {
    /// Arrivals straight at the root.
    pub direct: u32,
    /// Arrivals from nodes; the plain engine has one count and so none of these.
    pub tree: Option<u32>,
    pub closed: bool,
}

/// The queue and its mutex.
#[derive(Clone, Copy, Debug, Eq, PartialEq)]
pub struct Queue {
    /// The thread that has the mutex, if one has it.
    pub mutex: Option<u8>,
    /// The groups that wait.
    pub groups: u32,
    /// The writers among them.
    pub writers: u32,
}

/// A thread at a lock.
#[derive(Clone, Copy, Debug, Eq, PartialEq)]
pub struct Thread {
    pub standing: Standing,
    /// The node of its ticket while it reads; the plain engine shows none.
    pub ticket: Option<u8>,
    /// Its failed swaps.
    pub failures: u32,
}

/// A sheet of the ticket lock.
#[derive(Clone, Debug, Eq, PartialEq)]
pub struct TicketSheet {
    /// 0, or the number of the refusal ([`crate::refusal`]).
    pub answer: u8,
    /// The number of rows taken.
    pub taken: u32,
    /// The ticket that is taken next, and the grant; none after a refused file.
    pub counters: Option<(u16, u16)>,
    pub threads: Vec<TicketStanding>,
}

/// A sheet of a site.
#[derive(Clone, Debug, Eq, PartialEq)]
pub struct SiteSheet {
    /// 0, or the number of the refusal ([`crate::refusal`]).
    pub answer: u8,
    /// The rows made, those of the warm-up too.
    pub rows: u64,
    /// What was measured; none after a refusal before the first turn.
    pub measured: Option<Measured>,
}

/// What a site's turns behind the warm-up cost.
#[derive(Clone, Debug, Eq, PartialEq)]
pub struct Measured {
    /// The turns used, and of these such as were passed over, spent holding and thinking;
    /// the others made a row.
    pub turns: u64,
    pub passed: u64,
    pub holding: u64,
    pub thinking: u64,
    /// The calls finished, and those unfinished at the end.
    pub finished: u64,
    pub unfinished: u64,
    /// The rows made, and of these failed swaps, rows on the root word and rows held up.
    pub rows: u64,
    pub failed: u64,
    pub root: u64,
    pub held_up: u64,
    pub write_locks: Waits,
    pub read_locks: Waits,
    pub threads: Vec<SiteThread>,
}

/// How long threads waited for write-locks, or for read-locks.
#[derive(Clone, Copy, Debug, Eq, PartialEq)]
pub struct Waits {
    /// The locks got.
    pub got: u64,
    /// The rows waited in all, also for locks that were not got.
    pub waited: u64,
    /// The rows of the longest wait for a lock that was got.
    pub longest: u64,
    /// The threads that wait at the end.
    pub waiting: u64,
}

/// A thread of a site: its calls finished and its failed swaps.
#[derive(Clone, Copy, Debug, Eq, PartialEq)]
pub struct SiteThread {
    pub finished: u64,
    pub failed: u64,
}

/// Makes a type of words, each printed and parsed as the sheet has it.
macro_rules! words {
    ($(#[$text:meta])* $name:ident { $($case:ident = $word:literal),* }) => {
        $(#[$text])*
        #[derive(Clone, Copy, Debug, Eq, PartialEq)]
        pub enum $name {
            $($case),*
        }

        impl Display for $name {
            fn fmt(&self, f: &mut Formatter<'_>) -> fmt::Result {
                f.write_str(match self {
                    $($name::$case => $word),*
                })
            }
        }

        impl Field for $name {
            fn field(word: &str) -> Option<Self> {
                match word {
                    $($word => Some($name::$case),)*
                    _ => None,
                }
            }
        }
    };
}

words! {
    /// A thread's standing at a lock.
    Standing {
        Idle = "idle", Reading = "reading", Writing = "writing", Calling = "calling", Asleep = "asleep"
    }
}

words! {
    /// A thread's standing at the ticket lock.
    TicketStanding { Idle = "idle", Near = "near", Far = "far", Holding = "holding" }
}

/// A text that is no sheet: the number of its first line that is none, from 1 on.
#[derive(Clone, Copy, Debug, Eq, PartialEq)]
pub struct SheetError {
    pub line: usize,
}

impl Display for SheetError {
    fn fmt(&self, f: &mut Formatter<'_>) -> fmt::Result {
        write!(f, "line {} is none of a sheet", self.line)
    }
}

impl std::error::Error for SheetError {}

/// A field of a line.
trait Field: Sized {
    fn field(word: &str) -> Option<Self>;
}

/// Numbers as they are printed: digits, with no 0 before others and no sign.
macro_rules! numbers {
    ($($number:ty),*) => {
        $(impl Field for $number {
            fn field(word: &str) -> Option<Self> {
                let digits = word.bytes().all(|byte| byte.is_ascii_digit());
                if digits && (word == "0" || !word.starts_with('0')) { word.parse().ok() } else { None }
            }
        })*
    };
}

numbers!(u8, u16, u32, u64);

/// A number, or the word for none.
fn or<N: Field>(word: &str, none: &str) -> Option<Option<N>> {
    if word == none {
        Some(None)
    } else {
        N::field(word).map(Some)
    }
}

/// Prints a number, or the word for none.
fn shown<N: Display>(value: Option<N>, none: &str) -> String {
    value.map_or_else(|| none.to_string(), |value| value.to_string())
}

/// The lines of a sheet, each ended by a newline, as they are read.
struct Lines<'a> {
    lines: Vec<Vec<&'a str>>,
    at: usize,
}

impl<'a> Lines<'a> {
    fn of(text: &'a str) -> Result<Lines<'a>, SheetError> {
        let Some(whole) = text.strip_suffix('\n') else {
            return Err(SheetError { line: text.split('\n').count() });
        };
        Ok(Lines { lines: whole.split('\n').map(|line| line.split(' ').collect()).collect(), at: 0 })
    }

    /// The fields behind the words that a line begins with, if the next line does.
    fn next(&mut self, start: &[&str]) -> Option<Vec<&'a str>> {
        let line = self.lines.get(self.at)?;
        if !line.starts_with(start) {
            return None;
        }
        self.at += 1;
        Some(line[start.len()..].to_vec())
    }

    /// What the fields of the line that was read last give.
    fn read<T>(&self, value: Option<T>) -> Result<T, SheetError> {
        value.ok_or(SheetError { line: self.at })
    }

    /// A line that is due.
    fn due<T>(&mut self, start: &[&str], read: impl Fn(&[&str]) -> Option<T>) -> Result<T, SheetError> {
        let fields = self.next(start).ok_or(SheetError { line: self.at + 1 })?;
        self.read(read(&fields))
    }

    /// The lines of this name, numbered from a number on.
    fn numbered<T>(
        &mut self,
        name: &str,
        first: usize,
        read: impl Fn(&[&str]) -> Option<T>,
    ) -> Result<Vec<T>, SheetError> {
        let mut found = Vec::new();
        while self.lines.get(self.at).is_some_and(|line| line[0] == name) {
            found.push(self.due(&[name, &(first + found.len()).to_string()], &read)?);
        }
        Ok(found)
    }

    fn end<T>(self, value: T) -> Result<T, SheetError> {
        if self.at == self.lines.len() {
            Ok(value)
        } else {
            Err(SheetError { line: self.at + 1 })
        }
    }

    fn answer<N: Field>(&mut self) -> Result<(u8, N), SheetError> {
        self.due(&["answer"], |fields| match fields {
            [answer, "at", taken] => Some((Field::field(answer)?, Field::field(taken)?)),
            _ => None,
        })
    }
}

fn root(fields: &[&str]) -> Option<Root> {
    let (direct, tree, state) = match fields {
        [direct, state] => (direct, None, state),
        [direct, tree, state] => (direct, Some(u32::field(tree)?), state),
        _ => return None,
    };
    let closed = match *state {
        "open" => false,
        "closed" => true,
        _ => return None,
    };
    Some(Root { direct: u32::field(direct)?, tree, closed })
}

fn queue(fields: &[&str]) -> Option<Queue> {
    let [mutex, groups, writers] = fields else { return None };
    Some(Queue { mutex: or(mutex, "free")?, groups: Field::field(groups)?, writers: Field::field(writers)? })
}

fn thread(fields: &[&str]) -> Option<Thread> {
    let [standing, ticket, failures] = fields else { return None };
    Some(Thread {
        standing: Field::field(standing)?,
        ticket: or(ticket, "-")?,
        failures: Field::field(failures)?,
    })
}

fn expected(fields: &[&str]) -> Option<Expected> {
    let [kind, word, value] = fields else { return None };
    Some(Expected { kind: Field::field(kind)?, word: Field::field(word)?, value: or(value, "-")? })
}

/// A line of one field.
fn single<T: Field>(fields: &[&str]) -> Option<T> {
    let [field] = fields else { return None };
    T::field(field)
}

/// A line of so many numbers.
fn counts<const N: usize>(fields: &[&str]) -> Option<[u64; N]> {
    let counts: Vec<u64> = fields.iter().map(|field| Field::field(field)).collect::<Option<_>>()?;
    counts.try_into().ok()
}

impl FromStr for SiteSheet {
    type Err = SheetError;

    fn from_str(text: &str) -> Result<SiteSheet, SheetError> {
        let mut lines = Lines::of(text)?;
        let (answer, rows) = lines.answer()?;
        let measured = match lines.next(&["turns"]) {
            Some(fields) => {
                let turns = lines.read(counts(&fields))?;
                Some(measured(&mut lines, turns)?)
            }
            None => None,
        };
        lines.end(SiteSheet { answer, rows, measured })
    }
}

/// What was measured, from the line behind that of the turns on.
fn measured(
    lines: &mut Lines<'_>,
    [turns, passed, holding, thinking]: [u64; 4],
) -> Result<Measured, SheetError> {
    let [finished, unfinished] = lines.due(&["calls"], counts)?;
    let [rows, failed, root, held_up] = lines.due(&["rows"], counts)?;
    let waits = |[got, waited, longest, waiting]: [u64; 4]| Waits { got, waited, longest, waiting };
    let write_locks = waits(lines.due(&["write-locks"], counts)?);
    let read_locks = waits(lines.due(&["read-locks"], counts)?);
    let thread = |fields: &[&str]| counts(fields).map(|[finished, failed]| SiteThread { finished, failed });
    let threads = lines.numbered("thread", 0, thread)?;
    Ok(Measured {
        turns,
        passed,
        holding,
        thinking,
        finished,
        unfinished,
        rows,
        failed,
        root,
        held_up,
        write_locks,
        read_locks,
        threads,
    })
}

impl FromStr for Sheet {
    type Err = SheetError;

    fn from_str(text: &str) -> Result<Sheet, SheetError> {
        let mut lines = Lines::of(text)?;
        let (answer, taken) = lines.answer()?;
        let expected = match lines.next(&["entry"]) {
            Some(fields) => Some(lines.read(expected(&fields))?),
            None => None,
        };
        let mut locks = Vec::new();
        while let Some(fields) = lines.next(&["root"]) {
            locks.push(Lock {
                root: lines.read(root(&fields))?,
                nodes: lines.numbered("node", 1, single)?,
                queue: lines.due(&["queue"], queue)?,
                threads: lines.numbered("thread", 0, thread)?,
            });
        }
        let rooms = lines.numbered("room", 0, single)?;
        lines.end(Sheet { answer, taken, expected, locks, rooms })
    }
}

impl FromStr for TicketSheet {
    type Err = SheetError;

    fn from_str(text: &str) -> Result<TicketSheet, SheetError> {
        let mut lines = Lines::of(text)?;
        let (answer, taken) = lines.answer()?;
        let counters = match lines.next(&["ticket"]) {
            Some(fields) => Some((lines.read(single(&fields))?, lines.due(&["grant"], single)?)),
            None => None,
        };
        let threads = if counters.is_some() { lines.numbered("thread", 0, single)? } else { Vec::new() };
        lines.end(TicketSheet { answer, taken, counters, threads })
    }
}

impl Display for Root {
    fn fmt(&self, f: &mut Formatter<'_>) -> fmt::Result {
        let tree = self.tree.map_or_else(String::new, |tree| format!(" {tree}"));
        writeln!(f, "root {}{tree} {}", self.direct, if self.closed { "closed" } else { "open" })
    }
}

impl Display for Lock {
    fn fmt(&self, f: &mut Formatter<'_>) -> fmt::Result {
        write!(f, "{}", self.root)?;
        for (number, count) in self.nodes.iter().enumerate() {
            writeln!(f, "node {} {count}", number + 1)?;
        }
        let Queue { mutex, groups, writers } = self.queue;
        writeln!(f, "queue {} {groups} {writers}", shown(mutex, "free"))?;
        for (number, Thread { standing, ticket, failures }) in self.threads.iter().enumerate() {
            writeln!(f, "thread {number} {standing} {} {failures}", shown(*ticket, "-"))?;
        }
        Ok(())
    }
}

impl Display for Sheet {
    fn fmt(&self, f: &mut Formatter<'_>) -> fmt::Result {
        writeln!(f, "answer {} at {}", self.answer, self.taken)?;
        if let Some(Expected { kind, word, value }) = self.expected {
            writeln!(f, "entry {kind} {word} {}", shown(value, "-"))?;
        }
        for lock in &self.locks {
            write!(f, "{lock}")?;
        }
        for (number, balance) in self.rooms.iter().enumerate() {
            writeln!(f, "room {number} {balance}")?;
        }
        Ok(())
    }
}

impl Display for Waits {
    fn fmt(&self, f: &mut Formatter<'_>) -> fmt::Result {
        write!(f, "{} {} {} {}", self.got, self.waited, self.longest, self.waiting)
    }
}

impl Display for Measured {
    fn fmt(&self, f: &mut Formatter<'_>) -> fmt::Result {
        writeln!(f, "turns {} {} {} {}", self.turns, self.passed, self.holding, self.thinking)?;
        writeln!(f, "calls {} {}", self.finished, self.unfinished)?;
        writeln!(f, "rows {} {} {} {}", self.rows, self.failed, self.root, self.held_up)?;
        writeln!(f, "write-locks {}\nread-locks {}", self.write_locks, self.read_locks)?;
        for (number, SiteThread { finished, failed }) in self.threads.iter().enumerate() {
            writeln!(f, "thread {number} {finished} {failed}")?;
        }
        Ok(())
    }
}

impl Display for SiteSheet {
    fn fmt(&self, f: &mut Formatter<'_>) -> fmt::Result {
        writeln!(f, "answer {} at {}", self.answer, self.rows)?;
        self.measured.as_ref().map_or(Ok(()), |measured| write!(f, "{measured}"))
    }
}

impl Display for TicketSheet {
    fn fmt(&self, f: &mut Formatter<'_>) -> fmt::Result {
        writeln!(f, "answer {} at {}", self.answer, self.taken)?;
        if let Some((ticket, grant)) = self.counters {
            writeln!(f, "ticket {ticket}\ngrant {grant}")?;
        }
        for (number, standing) in self.threads.iter().enumerate() {
            writeln!(f, "thread {number} {standing}")?;
        }
        Ok(())
    }
}

#[cfg(test)]
mod tests {
    use super::*;

    const TWO: &str = "answer 7 at 12\nroot 1 2 closed\nnode 1 2\nnode 2 0\nqueue 1 2 1\n\
                       thread 0 reading 1 0\nthread 1 calling - 3\n\
                       root 0 0 open\nnode 1 0\nnode 2 0\nqueue free 0 0\n\
                       thread 0 idle - 0\nthread 1 asleep - 0\nroom 0 5\nroom 1 0\n";

    const TICKETS: &str =
        "answer 0 at 4\nticket 2\ngrant 65535\nthread 0 holding\nthread 1 near\nthread 2 far\n\
                           thread 3 idle\n";

    const SITE: &str = "answer 7 at 9876543210\nturns 16 1 2 3\ncalls 4 5\nrows 10 6 7 8\n\
                        write-locks 1 9 10 2\nread-locks 3 11 12 4\nthread 0 13 14\nthread 1 0 15\n";

    #[test]
    fn fields_of_a_site() {
        let sheet: SiteSheet = SITE.parse().unwrap();
        let measured = Measured {
            turns: 16,
            passed: 1,
            holding: 2,
            thinking: 3,
            finished: 4,
            unfinished: 5,
            rows: 10,
            failed: 6,
            root: 7,
            held_up: 8,
            write_locks: Waits { got: 1, waited: 9, longest: 10, waiting: 2 },
            read_locks: Waits { got: 3, waited: 11, longest: 12, waiting: 4 },
            threads: vec![SiteThread { finished: 13, failed: 14 }, SiteThread { finished: 0, failed: 15 }],
        };
        let answer = crate::refusal::UNSUITABLE;
        assert_eq!(sheet, SiteSheet { answer, rows: 9_876_543_210, measured: Some(measured) });
    }

    #[test]
    fn fields() {
        let sheet: Sheet = TWO.parse().unwrap();
        assert_eq!((sheet.answer, sheet.taken, sheet.expected), (crate::refusal::UNSUITABLE, 12, None));
        assert_eq!(sheet.locks.len(), 2);
        let first = &sheet.locks[0];
        assert_eq!(first.root, Root { direct: 1, tree: Some(2), closed: true });
        assert_eq!(first.nodes, [2, 0]);
        assert_eq!(first.queue, Queue { mutex: Some(1), groups: 2, writers: 1 });
        let reading = Thread { standing: Standing::Reading, ticket: Some(1), failures: 0 };
        assert_eq!(
            first.threads,
            [reading, Thread { standing: Standing::Calling, ticket: None, failures: 3 }]
        );
        assert_eq!(sheet.rooms, [5, 0]);
    }

    #[test]
    fn printed_back() {
        for text in [
            TWO,
            "answer 3 at 0\n",
            "answer 12 at 2\nentry 2 0 1\nroot 0 0 open\nqueue free 0 0\nthread 0 calling - 0\n",
            "answer 11 at 4294967294\nentry 6 32 -\nroot 0 0 open\nqueue free 0 0\nthread 0 writing - 0\n",
            "answer 0 at 3\nroot 1 open\nqueue free 0 0\nthread 0 idle - 0\nthread 1 reading - 0\n",
        ] {
            assert_eq!(text.parse::<Sheet>().unwrap().to_string(), text);
        }
        for text in [TICKETS, "answer 2 at 0\n"] {
            assert_eq!(text.parse::<TicketSheet>().unwrap().to_string(), text);
        }
    }

    /// Each line changed so that it is none of a sheet is named by its number.
    #[test]
    fn the_first_wrong_line_is_named() {
        let lines: Vec<&str> = TWO.lines().collect();
        for number in 0..lines.len() {
            for (from, to) in [(" ", "  "), (" ", " 0"), ("o", "O"), ("e", "é")] {
                let mut changed: Vec<String> = lines.iter().map(ToString::to_string).collect();
                changed[number] = lines[number].replacen(from, to, 1);
                if changed[number] == lines[number] {
                    continue;
                }
                let text = changed.join("\n") + "\n";
                assert_eq!(text.parse::<Sheet>(), Err(SheetError { line: number + 1 }), "{text}");
            }
        }
        for (text, line) in [
            ("", 1),
            ("answer 0 at 0", 1),
            ("answer 0 at 0\n\n", 2),
            ("answer 256 at 0\n", 1),
            ("answer 0 at +1\n", 1),
            ("answer 0 at 00\n", 1),
            ("answer 0 at 0\nroot 0 0 open\n", 3),
            ("answer 0 at 0\nroot 0 0 open\nqueue free 0 0\nthread 1 idle - 0\n", 4),
            ("answer 0 at 0\nqueue free 0 0\n", 2),
        ] {
            assert_eq!(text.parse::<Sheet>(), Err(SheetError { line }), "{text}");
        }
        for (text, line) in [
            ("answer 0 at 0\nticket 65536\n", 2),
            ("answer 0 at 0\nticket 1\n", 3),
            ("answer 0 at 0\nticket 1\ngrant 1\nthread 0 asleep\n", 4),
            ("answer 0 at 0\nthread 0 idle\n", 2),
        ] {
            assert_eq!(text.parse::<TicketSheet>(), Err(SheetError { line }), "{text}");
        }
    }

    #[test]
    fn sites_printed_back() {
        for text in [SITE, "answer 3 at 0\n"] {
            assert_eq!(text.parse::<SiteSheet>().unwrap().to_string(), text);
        }
    }

    #[test]
    fn the_first_wrong_line_of_a_site_is_named() {
        let lines: Vec<&str> = SITE.lines().collect();
        for number in 0..lines.len() {
            let without: String = lines
                .iter()
                .enumerate()
                .filter(|line| line.0 != number)
                .fold(String::new(), |text, (_, line)| text + line + "\n");
            // The last thread's line may be missing: nothing says how many there are.
            let line = if number + 1 == lines.len() { None } else { Some(number + 1) };
            assert_eq!(without.parse::<SiteSheet>().err(), line.map(|line| SheetError { line }), "{without}");
            for end in ["", " 1", " x"] {
                let cut = lines[number].rsplit_once(' ').unwrap().0;
                let changed = if end.is_empty() { cut.to_string() } else { lines[number].to_string() + end };
                let text = SITE.replace(lines[number], &changed);
                assert_eq!(text.parse::<SiteSheet>(), Err(SheetError { line: number + 1 }), "{text}");
            }
        }
    }
}
