//! Sheets, rows and entries as values, over the examples; and which library is linked.

use lock_bench::{kind, word, Entries, Lock, Rows, Sheet, TicketSheet, LEAST_SHEET, LONGEST_JOURNAL};
use std::path::{Path, PathBuf};
use std::process::Command;
use std::{env, fs};

fn root() -> PathBuf {
    Path::new(env!("CARGO_MANIFEST_DIR")).join("../..")
}

/// The files of `examples` with this ending, at least one.
fn examples(ending: &str) -> Vec<PathBuf> {
    let entries = fs::read_dir(root().join("examples")).unwrap().map(|entry| entry.unwrap().path());
    let files: Vec<_> =
        entries.filter(|path| path.extension().is_some_and(|found| found == ending)).collect();
    assert!(!files.is_empty(), "no example ends in {ending}");
    files
}

fn text(page: &[u8], length: Option<usize>) -> &str {
    std::str::from_utf8(&page[..length.unwrap()]).unwrap()
}

/// A thread's failures are its entries of kind 3 at that lock, as the claims have it.
#[test]
fn failures_are_entries() {
    for path in examples("schedule") {
        let file = fs::read(path).unwrap();
        let (mut journal, mut page) = ([0; LONGEST_JOURNAL], [0; LEAST_SHEET]);
        let sheet: Sheet = {
            let length = lock_bench::bench_sheet(&file, &mut journal, &mut page);
            text(&page, length).parse().unwrap()
        };
        let rows = Rows::of(&file);
        let entries = Entries::of(&journal, rows.len(), sheet.taken as usize);
        assert_eq!(entries.len(), sheet.taken as usize);
        for (number, Lock { threads, .. }) in sheet.locks.iter().enumerate() {
            for (thread, line) in threads.iter().enumerate() {
                let failed = rows.clone().zip(entries.clone()).filter(|(row, entry)| {
                    usize::from(row.thread) == thread
                        && usize::from(entry.word / word::SECOND) == number
                        && entry.kind == kind::FAILED
                });
                assert_eq!(failed.count(), line.failures as usize);
            }
        }
    }
}

/// Every example's sheet is read as values, and printed back byte for byte.
#[test]
fn sheets_are_printed_back() {
    let mut page = [0; LEAST_SHEET];
    for path in examples("schedule") {
        let file = fs::read(path).unwrap();
        let length = lock_bench::bench_sheet(&file, &mut [0; LONGEST_JOURNAL], &mut page);
        assert_eq!(text(&page, length).parse::<Sheet>().unwrap().to_string(), text(&page, length));
    }
    for path in examples("calls") {
        let file = fs::read(path).unwrap();
        let length = lock_bench::plain_sheet(&file, &mut page);
        assert_eq!(text(&page, length).parse::<Sheet>().unwrap().to_string(), text(&page, length));
    }
    for path in examples("tickets") {
        let file = fs::read(path).unwrap();
        let length = lock_bench::ticket_sheet(&file, &mut page);
        assert_eq!(text(&page, length).parse::<TicketSheet>().unwrap().to_string(), text(&page, length));
    }
    for path in examples("bookings") {
        let (file, till) = (fs::read(&path).unwrap(), fs::read(path.with_extension("till")).unwrap());
        let length = lock_bench::credit_sheet(&file, &till, &mut [0; LONGEST_JOURNAL], &mut page);
        let sheet: Sheet = text(&page, length).parse().unwrap();
        assert_eq!(sheet.rooms.len(), usize::from(till[0]));
        assert_eq!(sheet.to_string(), text(&page, length));
    }
}

/// The library that is linked has this version; where no folder was named, it is that of the sources as they
/// are.
#[test]
fn the_linked_library_is_current() {
    let identity = lock_bench::identity();
    assert!(identity.starts_with(concat!("version ", env!("CARGO_PKG_VERSION"), "\nsources ")), "{identity}");
    if option_env!("BENCH_LIB_DIR").is_none() {
        let told = Command::new(root().join("bench")).args(["build", "--check"]).output().unwrap();
        let folder = String::from_utf8(told.stdout).unwrap();
        assert_eq!(identity, fs::read_to_string(Path::new(folder.trim_end()).join("identity")).unwrap());
    }
}
