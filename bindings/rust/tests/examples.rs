//! The sheets that `examples/README.md` shows are those of the library.

use std::fs;
use std::path::Path;

/// The example's name and the sheet that its section shows.
fn shown(section: &str) -> (&str, &str) {
    let (name, rest) = section.split_once('\n').expect("a section has a title");
    let (_, block) = rest.split_once("```\n").expect("a section has a block");
    let (sheet, _) = block.split_once("```").expect("a block ends");
    (name, sheet)
}

/// How many files of `folder` have the extension `kind`.
fn files(folder: &Path, kind: &str) -> usize {
    let entries = fs::read_dir(folder).unwrap();
    entries.filter(|e| e.as_ref().unwrap().path().extension().is_some_and(|x| x == kind)).count()
}

#[test]
fn shown_sheets_are_those_of_the_library() {
    let folder = Path::new(env!("CARGO_MANIFEST_DIR")).join("../../examples");
    let text = fs::read_to_string(folder.join("README.md")).unwrap();
    let sections: Vec<_> = text.split("\n## ").skip(1).map(shown).collect();
    assert_eq!(sections.len(), files(&folder, "schedule"));
    for (name, expected) in sections {
        let file = fs::read(folder.join(format!("{name}.schedule"))).unwrap();
        let mut journal = [0; lock_bench::LONGEST_JOURNAL];
        let mut page = [0; lock_bench::LEAST_SHEET];
        let length = lock_bench::bench_sheet(&file, &mut journal, &mut page).unwrap();
        assert_eq!(std::str::from_utf8(&page[..length]).unwrap(), expected, "{name}");
    }
}

#[test]
fn shown_sheets_of_calls_are_those_of_the_library() {
    let folder = Path::new(env!("CARGO_MANIFEST_DIR")).join("../../examples");
    let text = fs::read_to_string(folder.join("README.md")).unwrap();
    let sections: Vec<_> = text.split("\n### ").skip(1).map(shown).collect();
    assert_eq!(sections.len(), files(&folder, "calls"));
    for (name, expected) in sections {
        let file = fs::read(folder.join(format!("{name}.calls"))).unwrap();
        let mut page = [0; lock_bench::LEAST_SHEET];
        let length = lock_bench::plain_sheet(&file, &mut page).unwrap();
        assert_eq!(std::str::from_utf8(&page[..length]).unwrap(), expected, "{name}");
    }
}

#[test]
fn shown_sheets_of_tickets_are_those_of_the_library() {
    let folder = Path::new(env!("CARGO_MANIFEST_DIR")).join("../../examples");
    let text = fs::read_to_string(folder.join("README.md")).unwrap();
    let sections: Vec<_> = text.split("\n##### ").skip(1).map(shown).collect();
    assert_eq!(sections.len(), files(&folder, "tickets"));
    for (name, expected) in sections {
        let file = fs::read(folder.join(format!("{name}.tickets"))).unwrap();
        let mut page = [0; lock_bench::LEAST_SHEET];
        let length = lock_bench::ticket_sheet(&file, &mut page).unwrap();
        assert_eq!(std::str::from_utf8(&page[..length]).unwrap(), expected, "{name}");
    }
}

#[test]
fn shown_sheets_of_bookings_are_those_of_the_library() {
    let folder = Path::new(env!("CARGO_MANIFEST_DIR")).join("../../examples");
    let text = fs::read_to_string(folder.join("README.md")).unwrap();
    let sections: Vec<_> = text.split("\n###### ").skip(1).map(shown).collect();
    assert_eq!(sections.len(), files(&folder, "bookings"));
    assert_eq!(sections.len(), files(&folder, "till"));
    for (name, expected) in sections {
        let file = fs::read(folder.join(format!("{name}.bookings"))).unwrap();
        let till = fs::read(folder.join(format!("{name}.till"))).unwrap();
        let mut journal = [0; lock_bench::LONGEST_JOURNAL];
        let mut page = [0; lock_bench::LEAST_SHEET];
        let length = lock_bench::credit_sheet(&file, &till, &mut journal, &mut page).unwrap();
        assert_eq!(std::str::from_utf8(&page[..length]).unwrap(), expected, "{name}");
    }
}

/// The lines of a sheet below its first, which has the refusal number.
fn below_the_answer(sheet: &str) -> &str {
    sheet.split_once('\n').expect("a sheet has a first line").1
}

/// The bench's sheet of the schedule that comes back is the same but for the number.
#[test]
fn shown_sheets_of_wants_are_those_of_the_library() {
    let folder = Path::new(env!("CARGO_MANIFEST_DIR")).join("../../examples");
    let text = fs::read_to_string(folder.join("README.md")).unwrap();
    let sections: Vec<_> = text.split("\n#### ").skip(1).map(shown).collect();
    assert_eq!(sections.len(), files(&folder, "wants"));
    for (name, expected) in sections {
        let file = fs::read(folder.join(format!("{name}.wants"))).unwrap();
        let mut schedule = [0; lock_bench::LEAST_SCHEDULE];
        let mut page = [0; lock_bench::LEAST_SHEET];
        let length = lock_bench::dispatch_sheet(&file, &mut schedule, &mut page).unwrap();
        assert_eq!(std::str::from_utf8(&page[..length]).unwrap(), expected, "{name}");

        let steps = usize::from(u16::from_le_bytes([schedule[3], schedule[4]]));
        let mut journal = [0; lock_bench::LONGEST_JOURNAL];
        let length = lock_bench::bench_sheet(&schedule[..5 + 2 * steps], &mut journal, &mut page).unwrap();
        let sheet = std::str::from_utf8(&page[..length]).unwrap();
        assert!(sheet.starts_with(&format!("answer 0 at {steps}\n")), "{name}");
        assert_eq!(below_the_answer(sheet), below_the_answer(expected), "{name}");
    }
}
