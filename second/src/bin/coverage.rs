//! Adds up what `second --coverage` printed over many runs, and fails where a
//! rule that some sheet can meet was never seen.

use second::rules::{Coverage, Rule};
use std::collections::BTreeMap;
use std::io::Read;
use std::process::ExitCode;

fn main() -> ExitCode {
    let mut text = String::new();
    if let Err(error) = std::io::stdin().read_to_string(&mut text) {
        eprintln!("coverage: {error}");
        return ExitCode::FAILURE;
    }
    let Some(totals) = add_up(&text) else {
        eprintln!("coverage: a line is not of `second --coverage`");
        return ExitCode::FAILURE;
    };
    for (name, _) in Coverage::default().lines() {
        println!("{name} {}", totals[&name]);
    }
    let faults = faults(&totals);
    for fault in &faults {
        println!("{fault}");
    }
    if faults.is_empty() {
        ExitCode::SUCCESS
    } else {
        ExitCode::FAILURE
    }
}

fn add_up(text: &str) -> Option<BTreeMap<String, u64>> {
    let names = Coverage::default().lines().into_iter();
    let mut totals: BTreeMap<String, u64> = names.collect();
    for line in text.lines() {
        let (name, count) = line.rsplit_once(' ')?;
        *totals.get_mut(name)? += count.parse::<u64>().ok()?;
    }
    Some(totals)
}

fn faults(totals: &BTreeMap<String, u64>) -> Vec<String> {
    let fault = |&rule: &Rule| {
        let name = rule.name();
        match (totals[&format!("rule {name}")], rule.beyond_sheets()) {
            (0, None) => Some(format!("never met: {name}")),
            (1.., Some(reason)) => Some(format!("met against its reason: {name}: {reason}")),
            _ => None,
        }
    };
    Rule::ALL.iter().filter_map(fault).collect()
}
