//! Prints what each row of a schedule file did: its number, its thread, its order, and the
//! kind and the word of its entry. The last line is the sheet's first.

use lock_bench::{bench_sheet, Entries, Rows, Sheet, LEAST_SHEET, LONGEST_JOURNAL};
use std::error::Error;
use std::{env, fs};

fn main() -> Result<(), Box<dyn Error>> {
    let path = env::args_os().nth(1).ok_or("usage: rows FILE")?;
    let file = fs::read(path)?;
    let (mut journal, mut page) = ([0; LONGEST_JOURNAL], [0; LEAST_SHEET]);
    let length = bench_sheet(&file, &mut journal, &mut page).ok_or("the buffer is too small")?;
    let sheet: Sheet = std::str::from_utf8(&page[..length])?.parse()?;
    let rows = Rows::of(&file);
    let entries = Entries::of(&journal, rows.len(), sheet.taken as usize);
    for (number, (row, entry)) in rows.zip(entries).enumerate() {
        println!("{number} {} {} {} {}", row.thread, row.order, entry.kind, entry.word);
    }
    println!("answer {} at {}", sheet.answer, sheet.taken);
    Ok(())
}
