//! The printed record of a run.

use crate::plan::Event;
use crate::refusal::Answer;
use crate::rules::Coverage;
use crate::sheet;
use crate::step::{step, Report, Step, DELIVER, DROP};
use crate::world::World;
use std::fmt::Write;

/// "messages sent, delivered, dropped, waiting. The first three are counted from
/// the accepted steps, waiting from the last world"
#[derive(Clone, Copy, PartialEq, Eq, Debug, Default)]
pub struct Totals {
    pub sent: usize,
    pub delivered: usize,
    pub dropped: usize,
}

impl Totals {
    pub fn count(&mut self, asked: Step, report: &Report) {
        if report.answer != Answer::Done {
            return;
        }
        self.sent += report.placed.len();
        self.delivered += usize::from(asked.kind == DELIVER);
        self.dropped += usize::from(asked.kind == DROP);
    }
}

/// "number from 1, answer, event, who, stamp count, stamp desk ..., and value
/// (events 2, 3) or view (event 1), zeros where none"
fn line(number: usize, report: &Report) -> String {
    let (who, count, desk, last) = match report.event {
        Event::None => (0, 0, 0, 0),
        Event::Opened { relay, view } => (relay, 0, 0, u32::from(view.0)),
        Event::ReadEnded { desk, stamp, value } | Event::WriteEnded { desk, stamp, value } => {
            (desk, stamp.count, stamp.desk, value)
        }
    };
    let (answer, event) = (report.answer.number(), report.event.number());
    format!("{number} {answer} {event} {who} {count} {desk} {last}\n")
}

pub fn rehearse(bytes: &[u8]) -> (String, Coverage) {
    rehearse_with(bytes, |_, _| String::new())
}

/// The record, with what `below` says of each step below its line.
pub fn rehearse_with(
    bytes: &[u8],
    below: impl Fn(&World, &Report) -> String,
) -> (String, Coverage) {
    let mut coverage = Coverage::default();
    let read = sheet::read(bytes).ok();
    let begun = read.and_then(|sheet| World::start(sheet.mask).map(|world| (sheet, world)));
    let Some((sheet, mut world)) = begun else {
        coverage.answers[usize::from(Answer::BadSheet.number())] += 1;
        return ("bad 9\n".to_string(), coverage);
    };
    let mut totals = Totals::default();
    let mut text = format!("start {}\n", sheet.mask);
    for (index, &asked) in sheet.steps.iter().enumerate() {
        let report = step(&mut world, asked);
        totals.count(asked, &report);
        coverage.count(report.answer, report.event, &report.rules);
        text.push_str(&line(index + 1, &report));
        text.push_str(&below(&world, &report));
    }
    let Totals {
        sent,
        delivered,
        dropped,
    } = totals;
    let waiting = world.waiting();
    writeln!(text, "end {sent} {delivered} {dropped} {waiting}").expect("a string takes all");
    (text, coverage)
}
