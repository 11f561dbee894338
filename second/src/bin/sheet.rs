//! Turns the text form of a sheet into its bytes and back.

use second::{sheet, text};
use std::io::{self, Read, Write};
use std::process::ExitCode;

type Turn = fn(&[u8]) -> Result<Vec<u8>, String>;

fn main() -> ExitCode {
    let words: Vec<String> = std::env::args().skip(1).collect();
    let words: Vec<&str> = words.iter().map(String::as_str).collect();
    let (turn, file): (Turn, _) = match words[..] {
        ["--help"] => return ended(say(text::HELP.as_bytes())),
        ["write"] => (write, None),
        ["write", file] => (write, Some(file)),
        ["read"] => (read, None),
        ["read", file] => (read, Some(file)),
        _ => {
            eprintln!("sheet write [FILE] | sheet read [FILE] | sheet --help");
            return ExitCode::from(2);
        }
    };
    // All is read and turned before a byte is written, so an error leaves nothing.
    ended(
        contents(file)
            .and_then(|bytes| turn(&bytes))
            .and_then(|turned| say(&turned)),
    )
}

fn ended(done: Result<(), String>) -> ExitCode {
    match done {
        Ok(()) => ExitCode::SUCCESS,
        Err(why) => {
            eprintln!("{why}");
            ExitCode::FAILURE
        }
    }
}

fn write(bytes: &[u8]) -> Result<Vec<u8>, String> {
    let parsed = text::parse(bytes).map_err(|error| error.to_string())?;
    Ok(sheet::bytes_unchecked(&parsed))
}

fn read(bytes: &[u8]) -> Result<Vec<u8>, String> {
    let why = |_| text::fault(bytes).expect("a sheet that isn't read breaks a sentence");
    let sheet = sheet::read(bytes).map_err(why)?;
    Ok(text::print(&sheet).into_bytes())
}

fn contents(file: Option<&str>) -> Result<Vec<u8>, String> {
    match file {
        Some(name) => std::fs::read(name).map_err(|error| format!("{name}: {error}")),
        None => {
            let mut bytes = Vec::new();
            let read = io::stdin().lock().read_to_end(&mut bytes);
            read.map(|_| bytes)
                .map_err(|error| format!("standard input: {error}"))
        }
    }
}

fn say(bytes: &[u8]) -> Result<(), String> {
    let mut out = io::stdout().lock();
    let said = out.write_all(bytes).and_then(|()| out.flush());
    said.map_err(|error| format!("standard output: {error}"))
}
