//! beside [SEED_FROM SEED_TO] [--damaged N] [--made N]
//!
//! Runs the engine next to the second program. The last line is 'N passed, M failed'.

use beside::tally::Tally;
use beside::{by_hand, damaged, edges, made, sheets};
use std::process::ExitCode;

const USAGE: &str = "usage: beside [SEED_FROM SEED_TO] [--damaged N] [--made N]";

struct Wanted {
    seeds: (u64, u64),
    damaged: usize,
    made: usize,
}

fn wanted(mut words: impl Iterator<Item = String>) -> Option<Wanted> {
    let mut wanted = Wanted {
        seeds: (1, 8),
        damaged: 12_600,
        made: 2_000,
    };
    while let Some(word) = words.next() {
        let next = words.next()?;
        match word.as_str() {
            "--damaged" => wanted.damaged = next.parse().ok()?,
            "--made" => wanted.made = next.parse().ok()?,
            #[cfg(feature = "stub")]
            "--fault" => {
                let faults = beside::stub::Fault::ALL.iter();
                let fault = faults.copied().find(|fault| fault.name() == next)?;
                beside::stub::set(Some(fault));
            }
            from => wanted.seeds = (from.parse().ok()?, next.parse().ok()?),
        }
    }
    (wanted.seeds.0 <= wanted.seeds.1).then_some(wanted)
}

fn main() -> ExitCode {
    let Some(Wanted {
        seeds,
        damaged,
        made,
    }) = wanted(std::env::args().skip(1))
    else {
        eprintln!("{USAGE}");
        return ExitCode::from(2);
    };
    if cfg!(feature = "stub") {
        println!("STUB: the second program stands in for the engine, which is not tested");
    }
    let (from, to) = seeds;
    let mut tally = Tally::default();
    tally.part("starts and lengths", edges::all);
    tally.part("worlds by hand", by_hand::all);
    tally.part("sheets", |tally| sheets::all(from..=to, tally));
    tally.part("made worlds", |tally| made::all(made, tally));
    tally.part("damaged worlds", |tally| damaged::all(damaged, from, tally));
    tally.part("what was met", Tally::check_met);
    tally.print();
    let told = if cfg!(feature = "stub") {
        " of the stub"
    } else {
        ""
    };
    println!("{} passed, {} failed{told}", tally.passed, tally.failed);
    ExitCode::from(u8::from(tally.failed > 0))
}
