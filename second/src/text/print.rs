//! From a sheet to its canonical text: the mask as a number, one step a line.

use super::words::{FORMS, START, STEP};
use crate::sheet::Sheet;
use crate::step::{Step, CRASH, WRITE};

pub fn print(sheet: &Sheet) -> String {
    let steps = sheet.steps.iter().map(|&step| line(step) + "\n");
    format!("{START} {}\n", sheet.mask) + &steps.collect::<String>()
}

/// By its word where the word can say it, else by its numbers.
fn line(step: Step) -> String {
    let Step { kind, id, value } = step;
    let sayable = FORMS
        .iter()
        .find(|form| form.kind == kind && id <= form.highest && (value == 0 || form.kind == WRITE));
    match sayable.map(|form| form.word) {
        None => format!("{STEP} {kind} {id} {value}"),
        Some(word) if kind == WRITE => format!("{word} {id} {value}"),
        Some(word) if kind == CRASH && id < 8 => format!("{word} relay {id}"),
        Some(word) if kind == CRASH => format!("{word} desk {}", id - 8),
        Some(word) => format!("{word} {id}"),
    }
}
