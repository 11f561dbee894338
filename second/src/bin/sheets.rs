//! Makes sheets up: `sheets FLAVOUR SEED [STEPS]`, or `sheets --list`.

use second::generate;
use std::io::{self, Write};
use std::process::ExitCode;

const USAGE: &str = "sheets FLAVOUR SEED [STEPS] | sheets --list";

fn main() -> ExitCode {
    let words: Vec<String> = std::env::args().skip(1).collect();
    let Some(bytes) = made(&words) else {
        eprintln!("{USAGE}");
        return ExitCode::from(2);
    };
    match io::stdout().lock().write_all(&bytes) {
        Ok(()) => ExitCode::SUCCESS,
        Err(error) => {
            eprintln!("sheets: {error}");
            ExitCode::FAILURE
        }
    }
}

fn made(words: &[String]) -> Option<Vec<u8>> {
    match words {
        [word] if word == "--list" => {
            let lines = generate::names()
                .into_iter()
                .map(|name| format!("{name}\n"));
            Some(lines.collect::<String>().into_bytes())
        }
        [name, seed] => generate::sheet(name, seed.parse().ok()?, None),
        [name, seed, steps] => generate::sheet(name, seed.parse().ok()?, Some(steps.parse().ok()?)),
        _ => None,
    }
}
