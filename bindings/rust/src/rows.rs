//! The rows of a schedule file and the entries of a journal, one after the other.

use std::iter::Zip;
use std::slice::Iter;

/// A row of a schedule file: its thread, and its order ([`crate::order`]).
#[derive(Clone, Copy, Debug, Eq, PartialEq)]
pub struct Row {
    pub thread: u8,
    pub order: u8,
}

/// The rows of a schedule file, in order.
#[derive(Clone, Debug)]
pub struct Rows<'a>(Zip<Iter<'a, u8>, Iter<'a, u8>>);

impl<'a> Rows<'a> {
    /// The rows of a file; none of a file with refusal 1 or 3.
    pub fn of(file: &'a [u8]) -> Rows<'a> {
        let (threads, orders) = halves(file).unwrap_or_default();
        Rows(threads.iter().zip(orders))
    }
}

/// Thread numbers and orders of a file whose length is that which its rows ask for.
fn halves(file: &[u8]) -> Option<(&[u8], &[u8])> {
    let rows = usize::from(u16::from_le_bytes([*file.get(3)?, *file.get(4)?]));
    (file.len() == 5 + 2 * rows).then(|| file[5..].split_at(rows))
}

impl Iterator for Rows<'_> {
    type Item = Row;

    fn next(&mut self) -> Option<Row> {
        self.0.next().map(|(&thread, &order)| Row { thread, order })
    }

    fn size_hint(&self) -> (usize, Option<usize>) {
        self.0.size_hint()
    }
}

impl ExactSizeIterator for Rows<'_> {}

/// An entry of a journal: what a row did ([`crate::kind`]), and on which word
/// ([`crate::word`]).
#[derive(Clone, Copy, Debug, Eq, PartialEq)]
pub struct Entry {
    pub kind: u8,
    pub word: u8,
}

/// The entries of a journal, in order.
#[derive(Clone, Debug)]
pub struct Entries<'a>(Zip<Iter<'a, u8>, Iter<'a, u8>>);

impl<'a> Entries<'a> {
    /// The entries in the journal of a schedule of so many rows, of which so many were
    /// taken. None where more were taken than there are, or the journal is below 2 × rows
    /// bytes.
    pub fn of(journal: &'a [u8], rows: usize, taken: usize) -> Entries<'a> {
        let (kinds, words) = if taken <= rows && rows <= journal.len() / 2 {
            (&journal[..taken], &journal[rows..rows + taken])
        } else {
            Default::default()
        };
        Entries(kinds.iter().zip(words))
    }
}

impl Iterator for Entries<'_> {
    type Item = Entry;

    fn next(&mut self) -> Option<Entry> {
        self.0.next().map(|(&kind, &word)| Entry { kind, word })
    }

    fn size_hint(&self) -> (usize, Option<usize>) {
        self.0.size_hint()
    }
}

impl ExactSizeIterator for Entries<'_> {}

#[cfg(test)]
mod tests {
    use super::*;

    #[test]
    fn rows_of_a_file() {
        let file = [1, 1, 2, 2, 0, 0, 1, 64, 1];
        let rows = Rows::of(&file);
        assert_eq!(rows.len(), 2);
        assert!(rows.eq([Row { thread: 0, order: 64 }, Row { thread: 1, order: 1 }]));
        for refused in [&file[..4], &file[..8], &[&file[..], &[0]].concat()[..], &[]] {
            assert_eq!(Rows::of(refused).count(), 0);
        }
    }

    #[test]
    fn entries_of_a_journal() {
        let journal = [0, 1, 0xee, 33, 0, 0xee, 0xee];
        assert!(Entries::of(&journal, 3, 2).eq([Entry { kind: 0, word: 33 }, Entry { kind: 1, word: 0 }]));
        assert_eq!(Entries::of(&journal, 3, 3).len(), 3);
        for (rows, taken) in [(3, 4), (4, 2), (usize::MAX, 1), (0, 0)] {
            assert_eq!(Entries::of(&journal, rows, taken).count(), 0);
        }
    }
}
