//! Made-up runs: good worlds stay good, refusals change nothing, totals agree,
//! and every rule that a sheet can meet is met.

mod common;

use common::start;
use second::generate;
use second::good::is_good;
use second::message::Body;
use second::record::{rehearse, Totals};
use second::refusal::Answer;
use second::rules::Coverage;
use second::sets::View;
use second::sheet::{read, Sheet};
use second::step::step;

fn made(name: &str, seed: u64) -> Option<Sheet> {
    read(&generate::sheet(name, seed, None).expect("a flavour")).ok()
}

#[test]
fn good_worlds_stay_good() {
    for name in [
        "conflict",
        "late",
        "desks",
        "crash",
        "mixed",
        "clogged",
        "wild",
        "generators",
    ] {
        for seed in 1..=3 {
            let sheet = made(name, seed).expect("a good sheet");
            let mut world = start(sheet.mask);
            for (index, &asked) in sheet.steps.iter().enumerate() {
                step(&mut world, asked);
                assert!(is_good(&world), "{name} {seed} step {}", index + 1);
            }
        }
    }
}

#[test]
fn bad_worlds_are_told_from_good_ones() {
    let mut inactive_member = start(1);
    inactive_member.relays[0].active = false;
    assert!(is_good(&inactive_member));
    let mut stranger = start(1);
    stranger.relays[1].active = true;
    let mut viewless = start(1);
    viewless.relays[0].view = View::EMPTY;
    let mut idle_value = start(1);
    idle_value.desks[0].value = 1;
    let mut misdirected = start(1);
    let body = Body::Get {
        try_number: 1,
        view: View(1),
    };
    misdirected.place(common::from_relay(0, 0, body));
    for world in [stranger, viewless, idle_value, misdirected] {
        assert!(!is_good(&world));
    }
}

#[test]
fn refusals_change_nothing_and_totals_agree() {
    for name in ["wild", "noise", "clogged", "crash"] {
        let sheet = made(name, 4).expect("a good sheet");
        let mut world = start(sheet.mask);
        let mut totals = Totals::default();
        for &asked in &sheet.steps {
            let before = world.clone();
            let report = step(&mut world, asked);
            totals.count(asked, &report);
            if report.answer != Answer::Done {
                assert_eq!(world, before, "{name} {asked:?}");
                assert_eq!((report.event.number(), report.placed.len()), (0, 0));
            }
            let Totals {
                sent,
                delivered,
                dropped,
            } = totals;
            assert_eq!(sent, delivered + dropped + world.waiting());
        }
    }
}

#[test]
fn every_rule_of_a_sheet_is_met() {
    let mut total = Coverage::default();
    for name in generate::names() {
        let long = name == "long" || name == "tries" || name.starts_with("steps-");
        for seed in 1..=if long { 2 } else { 25 } {
            let bytes = generate::sheet(name, seed, None).expect("a flavour");
            let (_, coverage) = rehearse(&bytes);
            let sums = total.rules.iter_mut().zip(&coverage.rules);
            sums.for_each(|(sum, met)| *sum += met);
        }
    }
    for &rule in second::rules::Rule::ALL {
        let met = total.of(rule) > 0;
        assert_eq!(met, rule.beyond_sheets().is_none(), "{}", rule.name());
    }
}
