//! The marked classroom examples, and what students will try.

mod common;

use common::*;
use second::generator::{hear, Heard};
use second::message::{Body, Party};
use second::refusal::Answer;
use second::rules::Rule;
use second::sets::View;
use second::stamp::Stamp;

#[test]
fn quorums() {
    for (mask, quorum) in [(1, 1), (3, 2), (7, 2), (15, 3), (255, 5)] {
        assert_eq!(View::of_joins(mask).quorum(), quorum, "mask {mask}");
    }
    assert_eq!(View::EMPTY.quorum(), 1);
    assert!(!View::EMPTY.is_quorum(|_| true));
}

#[test]
fn view_1031_has_members_0_and_1() {
    let members: Vec<u8> = View(1031).members().collect();
    assert_eq!(members, [0, 1]);
}

#[test]
fn what_is_heard_gives_own() {
    type Views = &'static [u16];
    let examples: [(Views, Views, Views, Views); 6] = [
        (&[3], &[], &[5], &[7]),
        (&[3], &[3], &[5], &[3, 7]),
        (&[7], &[], &[3], &[3, 7]),
        (&[3], &[], &[3, 7], &[3, 7]),
        (&[3, 11], &[3], &[5], &[3, 15]),
        (&[3, 7], &[], &[7], &[3, 7]),
    ];
    for (own, converged, heard, expected) in examples {
        let after = match hear(&seq(own), &seq(converged), &seq(heard)) {
            Heard::NothingNew => seq(own),
            Heard::Union(after) | Heard::Conflict(after) => after,
        };
        assert_eq!(after, seq(expected), "{own:?} / {converged:?} / {heard:?}");
    }
    assert_eq!(
        hear(&seq(&[3, 7]), &seq(&[]), &seq(&[7])),
        Heard::NothingNew
    );
}

#[test]
fn stamps_compare_by_count_and_then_desk() {
    let (low, high) = (Stamp::new(2, 0), Stamp::new(2, 1));
    assert_eq!(
        (high.compare(low), low.compare(high), low.compare(low)),
        (1, -1, 0)
    );
    assert_eq!(Stamp::new(3, 0).compare(Stamp::new(2, 3)), 1);
}

#[test]
fn inside_is_strict_and_equal_views_do_not_conflict() {
    assert!(View(3).inside(View(7)));
    assert!(!View(7).inside(View(7)));
    assert!(!View(7).conflicts(View(7)));
    assert!(View(3).conflicts(View(5)));
}

#[test]
fn a_grown_sequence_is_no_repeat() {
    let mut world = start(1);
    let first = hand_in(&mut world, from_relay(0, 0, converged(1, &[7])));
    let grown = hand_in(&mut world, from_relay(0, 0, converged(1, &[3, 7])));
    assert_eq!(first.rules.last(), Some(&Rule::ConvergenceRaised));
    assert_eq!(grown.rules.last(), Some(&Rule::ConvergenceRaisedOther));
}

#[test]
fn nobody_hands_on_state_before_entering() {
    let mut world = start(1);
    let joiner = hand_in(&mut world, from_relay(0, 1, install(1, &[3])));
    assert_eq!(joiner.answer, Answer::Done);
    assert_eq!(joiner.placed, Vec::<usize>::new());
    let later = hand_in(&mut world, from_relay(1, 1, install(3, &[7])));
    refused(&later, Answer::NotYet, Rule::InstallNotYet);
}

#[test]
fn state_of_another_pair_does_not_count() {
    let mut world = start(1);
    hand_in(&mut world, from_relay(0, 1, install(1, &[3])));
    hand_in(&mut world, from_relay(0, 1, state(1, 7, rec(1, 0, 5), 0)));
    assert!(!world.relays[1].entered);
    hand_in(&mut world, from_relay(0, 1, state(1, 3, rec(1, 0, 5), 0)));
    assert!(world.relays[1].active);
    assert_eq!(
        (world.relays[1].view, world.relays[1].record),
        (View(3), rec(1, 0, 5))
    );
}

#[test]
fn a_reply_of_an_older_try_completes_no_quorum() {
    let mut world = start(7);
    run(&mut world, &[r(0)]);
    let answer = |try_number| Body::GetReply {
        try_number,
        record: rec(0, 0, 0),
    };
    let late = hand_in(&mut world, reply(0, 0, answer(0)));
    assert_eq!(late.rules, [Rule::DeskLateReply]);
    hand_in(&mut world, reply(1, 0, answer(1)));
    let before = hand_in(&mut world, reply(0, 0, answer(0)));
    assert_eq!(before.event.number(), 0);
    let now = hand_in(&mut world, reply(2, 0, answer(1)));
    assert_eq!(now.event.number(), 2);
}

#[test]
fn a_relay_compares_desks_too_when_it_stores() {
    let mut world = start(1);
    let put = |desk, record| second::message::Message {
        from: Party::Desk(desk),
        to: Party::Relay(0),
        body: Body::Put {
            try_number: 1,
            view: View(1),
            record,
        },
    };
    hand_in(&mut world, put(1, rec(2, 1, 10)));
    hand_in(&mut world, put(0, rec(2, 0, 20)));
    assert_eq!(world.relays[0].record, rec(2, 1, 10));
    hand_in(&mut world, put(2, rec(2, 2, 30)));
    assert_eq!(world.relays[0].record, rec(2, 2, 30));
}
