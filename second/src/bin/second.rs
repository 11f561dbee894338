//! Reads a sheet from standard input and prints the record of `rehearse`;
//! `--coverage` adds counts of answers, events and rules on standard error,
//! `--places` the messages that each step sends, below its line.

use std::io::{self, Read, Write};
use std::process::ExitCode;

#[derive(PartialEq)]
enum More {
    Nothing,
    Coverage,
    Places,
}

fn main() -> ExitCode {
    let words: Vec<String> = std::env::args().skip(1).collect();
    let more = match words.as_slice() {
        [] => More::Nothing,
        [word] if word == "--coverage" => More::Coverage,
        [word] if word == "--places" => More::Places,
        _ => {
            eprintln!("second [--coverage | --places] < sheet");
            return ExitCode::from(2);
        }
    };
    match run(more) {
        Ok(()) => ExitCode::SUCCESS,
        Err(error) => {
            eprintln!("second: {error}");
            ExitCode::FAILURE
        }
    }
}

fn run(more: More) -> io::Result<()> {
    let mut bytes = Vec::new();
    io::stdin().lock().read_to_end(&mut bytes)?;
    if more == More::Places {
        return io::stdout()
            .lock()
            .write_all(second::places::told(&bytes).as_bytes());
    }
    let (text, coverage) = second::record::rehearse(&bytes);
    io::stdout().lock().write_all(text.as_bytes())?;
    if more == More::Coverage {
        io::stderr().lock().write_all(coverage.text().as_bytes())?;
    }
    Ok(())
}
