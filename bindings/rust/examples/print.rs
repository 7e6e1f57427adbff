//! Prints the sheet of a schedule file: `print FILE`, `print --till TILL FILE` with a
//! till beside it, `print --plain FILE` for the plain engine's, or `print --dispatch
//! FILE` for the dispatcher's; or that of a ticket file: `print --ticket FILE`.

use std::io::{self, Write};
use std::process::ExitCode;
use std::{env, fs};

/// What runs the file.
enum Engine {
    Bench,
    /// The bench with the till of this file's bytes.
    Credit(Vec<u8>),
    Plain,
    Dispatcher,
    Ticket,
}

fn print(path: &str, engine: Engine) -> io::Result<()> {
    let file = fs::read(path)?;
    let mut page = [0; lock_bench::LEAST_SHEET];
    let length = match engine {
        Engine::Bench => lock_bench::bench_sheet(&file, &mut [0; lock_bench::LONGEST_JOURNAL], &mut page),
        Engine::Credit(till) => {
            lock_bench::credit_sheet(&file, &till, &mut [0; lock_bench::LONGEST_JOURNAL], &mut page)
        }
        Engine::Plain => lock_bench::plain_sheet(&file, &mut page),
        Engine::Dispatcher => {
            lock_bench::dispatch_sheet(&file, &mut [0; lock_bench::LEAST_SCHEDULE], &mut page)
        }
        Engine::Ticket => lock_bench::ticket_sheet(&file, &mut page),
    };
    io::stdout().write_all(&page[..length.expect("the buffer is large enough")])
}

fn main() -> ExitCode {
    let arguments: Vec<String> = env::args().skip(1).collect();
    let arguments: Vec<&str> = arguments.iter().map(String::as_str).collect();
    let (path, engine) = match arguments[..] {
        ["--plain", path] => (path, Engine::Plain),
        ["--dispatch", path] => (path, Engine::Dispatcher),
        ["--ticket", path] => (path, Engine::Ticket),
        ["--till", till, path] => match fs::read(till) {
            Ok(till) => (path, Engine::Credit(till)),
            Err(error) => {
                eprintln!("{till}: {error}");
                return ExitCode::from(2);
            }
        },
        [path] => (path, Engine::Bench),
        _ => {
            eprintln!("usage: print [--till TILL | --plain | --dispatch | --ticket] FILE");
            return ExitCode::from(2);
        }
    };
    match print(path, engine) {
        Ok(()) => ExitCode::SUCCESS,
        Err(error) => {
            eprintln!("{path}: {error}");
            ExitCode::from(2)
        }
    }
}
