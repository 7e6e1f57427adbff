//! Counts how often each of a list of named events was reached.

/// Declares a list of events with the names they are printed by, for the
/// [`Tally`] of `Event::NAMES`.
macro_rules! events {
    ($($event:ident = $name:literal,)*) => {
        #[derive(Clone, Copy, Debug, PartialEq, Eq)]
        pub enum Event { $($event,)* }

        impl Event {
            pub const NAMES: &'static [&'static str] = &[$($name,)*];
        }
    };
}
pub(crate) use events;

/// How often each event was reached.
pub struct Tally {
    names: &'static [&'static str],
    /// The events that no run reaches, by their numbers.
    unreached: Vec<usize>,
    counts: Vec<u64>,
}

impl Tally {
    pub fn new(names: &'static [&'static str], unreached: Vec<usize>) -> Tally {
        Tally { names, unreached, counts: vec![0; names.len()] }
    }

    pub fn count(&mut self, event: usize) {
        self.counts[event] += 1;
    }

    /// How often the event was reached.
    #[cfg(test)]
    pub fn of(&self, event: usize) -> u64 {
        self.counts[event]
    }

    /// The names of events that were or were not reached, and can or cannot be.
    fn named(&self, reached: bool, reachable: bool) -> Vec<&'static str> {
        (0..self.names.len())
            .filter(|event| (self.counts[*event] > 0) == reached)
            .filter(|event| self.unreached.contains(event) != reachable)
            .map(|event| self.names[event])
            .collect()
    }

    /// The names of what was never reached though it can be.
    pub fn missing(&self) -> Vec<&'static str> {
        self.named(false, true)
    }

    /// The names of what was reached though no run should reach it.
    pub fn unexpected(&self) -> Vec<&'static str> {
        self.named(true, false)
    }

    /// Prints a table in Markdown.
    pub fn print(&self, title: &str) {
        println!("| {title} | Rows |\n|---|---|");
        for (event, name) in self.names.iter().enumerate() {
            let note = if self.unreached.contains(&event) { " (no run reaches it)" } else { "" };
            println!("| {name}{note} | {} |", self.counts[event]);
        }
    }
}
