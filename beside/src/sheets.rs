//! Made sheets of every flavour, step by step in both programs, and whole.

use crate::both::Both;
use crate::rehearsed;
use crate::tally::Tally;
use second::generate;
use second::sheet::{read, Sheet};
use std::ops::RangeInclusive;

/// Made whole, these take as long as all others together: the range's first seed only.
const LONG: &[&str] = &["long", "transfers", "tries", "steps-8000", "steps-8001"];

/// Sheets damaged by bytes.
const DAMAGED: u64 = 400;

pub fn all(seeds: RangeInclusive<u64>, tally: &mut Tally) {
    for seed in seeds.clone() {
        for flavour in generate::names() {
            if seed == *seeds.start() || !LONG.contains(&flavour) {
                one(flavour, seed, tally);
            }
        }
    }
    for seed in 1..=DAMAGED {
        let bytes = generate::sheet("damaged", seed, None).expect("a flavour's name");
        tally.check(&format!("damaged sheet {seed}"), rehearsed::one(&bytes));
    }
    for steps in [0, 1, 7_999, 8_000, 8_001] {
        tally.check(&format!("{steps} steps written"), rehearsed::long(steps));
    }
}

/// A sheet that is BAD SHEET never reaches a world.
pub fn one(flavour: &str, seed: u64, tally: &mut Tally) {
    let bytes = generate::sheet(flavour, seed, None).expect("a flavour's name");
    let whole = rehearsed::one(&bytes);
    tally.check(&format!("sheet {flavour}, seed {seed}, whole"), whole);
    if let Ok(sheet) = read(&bytes) {
        let result = run(&sheet, tally);
        tally.check(&format!("sheet {flavour}, seed {seed}"), result);
    }
}

fn run(sheet: &Sheet, tally: &mut Tally) -> Result<(), String> {
    let mut both = Both::start(sheet.mask)?;
    both.good()?;
    for (index, &asked) in sheet.steps.iter().enumerate() {
        both.step(asked, tally)
            .map_err(|why| format!("step {}, {why}", index + 1))?;
    }
    both.good()
}
