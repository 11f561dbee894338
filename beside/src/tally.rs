//! What passed, what failed, and what was met on the way.

use second::rules::{Coverage, Rule};
use second::step::Report;
use std::collections::BTreeMap;
use std::time::Instant;

/// A broken engine fails everywhere; the first failures of each part tell enough.
const SHOWN: usize = 20;

/// Of a whole run; a sheet of which one step is taken counts as much as one of 8,000.
const LEAST_STEPS: u64 = 130_000;

/// Of each answer 0 to 8 in a whole run: steps that are all refused compare little.
const LEAST: [u64; 9] = [
    105_000, 11_000, 1_600, 6_400, 1_700, 10_000, 3_800, 170, 1_200,
];

#[derive(Default)]
pub struct Tally {
    pub passed: usize,
    pub failed: usize,
    pub steps: u64,
    pub coverage: Coverage,
    pub classes: BTreeMap<&'static str, Verdicts>,
    quiet: bool,
    shown: usize,
}

#[derive(Clone, Copy, Default)]
pub struct Verdicts {
    pub good: usize,
    pub bad: usize,
}

impl Tally {
    /// Failures are counted, and not told.
    pub fn quiet() -> Tally {
        Tally {
            quiet: true,
            ..Tally::default()
        }
    }

    pub fn part(&mut self, name: &str, run: impl FnOnce(&mut Tally)) {
        let (begun, passed, failed, steps) = (Instant::now(), self.passed, self.failed, self.steps);
        self.shown = 0;
        run(self);
        println!(
            "{name}: {} passed, {} failed; {} steps; {:.1} s",
            self.passed - passed,
            self.failed - failed,
            self.steps - steps,
            begun.elapsed().as_secs_f64()
        );
    }

    pub fn check(&mut self, name: &str, result: Result<(), String>) {
        match result {
            Ok(()) => self.passed += 1,
            Err(why) => {
                self.failed += 1;
                self.shown += 1;
                if !self.quiet && self.shown <= SHOWN {
                    println!("FAILED {name}: {why}");
                }
            }
        }
    }

    pub fn count(&mut self, report: &Report) {
        self.steps += 1;
        self.coverage
            .count(report.answer, report.event, &report.rules);
    }

    /// An answer that no step of the second program gives, as BAD WORLD.
    pub fn answered(&mut self, number: u8) {
        self.coverage.answers[usize::from(number)] += 1;
    }

    pub fn verdict(&mut self, class: &'static str, good: bool) {
        let verdicts = self.classes.entry(class).or_default();
        if good {
            verdicts.good += 1;
        } else {
            verdicts.bad += 1;
        }
    }

    /// Comparisons that met nothing compare nothing.
    pub fn check_met(&mut self) {
        let enough = self.steps >= LEAST_STEPS;
        let result = enough.then_some(()).ok_or(format!("only {}", self.steps));
        self.check("steps", result);
        for (answer, &least) in LEAST.iter().enumerate() {
            let met = self.coverage.answers[answer];
            let enough = met >= least;
            let result = enough.then_some(()).ok_or(format!("met {met} times only"));
            self.check(&format!("answer {answer}"), result);
        }
        for event in 0..=3 {
            let met = self.coverage.events[event] > 0;
            let result = met.then_some(()).ok_or("never met".to_string());
            self.check(&format!("event {event}"), result);
        }
        for (class, verdicts) in self.classes.clone() {
            let met = verdicts.bad > 0;
            let result = met
                .then_some(())
                .ok_or("never gave a bad world".to_string());
            self.check(&format!("damage {class}"), result);
        }
    }

    pub fn print(&self) {
        println!("steps taken in both: {}", self.steps);
        println!("answers 0 to 8: {:?}", &self.coverage.answers[..9]);
        println!("events 0 to 3: {:?}", self.coverage.events);
        let unmet = |rule: &&Rule| self.coverage.of(**rule) == 0;
        let unmet: Vec<&str> = Rule::ALL
            .iter()
            .filter(unmet)
            .map(|rule| rule.name())
            .collect();
        println!(
            "rules met: {} of {}",
            Rule::ALL.len() - unmet.len(),
            Rule::ALL.len()
        );
        if !unmet.is_empty() {
            println!("rules not met: {}", unmet.join(", "));
        }
        let sum = |of: fn(&Verdicts) -> usize| self.classes.values().map(of).sum::<usize>();
        println!(
            "damaged worlds: {} good, {} bad, {} classes",
            sum(|verdicts| verdicts.good),
            sum(|verdicts| verdicts.bad),
            self.classes.len()
        );
        for (class, Verdicts { good, bad }) in &self.classes {
            println!("  {class:<36} good {good:>5}  bad {bad:>5}");
        }
    }
}
