//! The rules that no sheet can meet, each met in a world built by hand.

mod common;

use common::*;
use second::desk::Phase;
use second::message::Body;
use second::refusal::Answer;
use second::rules::Rule;
use second::sets::View;
use second::step::step;
use second::world::World;
use std::collections::BTreeSet;

fn waiting_desk(phase: Phase) -> World {
    let mut world = start(3);
    let desk = &mut world.desks[0];
    (desk.phase, desk.try_number) = (phase, 4);
    world
}

fn does_nothing(mut world: World, from: u8, body: Body) -> Vec<Rule> {
    let before = world.clone();
    let report = hand_in(&mut world, reply(from, 0, body));
    assert_eq!((report.answer, report.placed.len()), (Answer::Done, 0));
    assert_eq!(world, before);
    report.rules
}

fn already_in_view() -> Vec<Rule> {
    let mut world = start(3);
    let body = Body::Request {
        update: View::join(1),
        view: View(3),
    };
    let report = hand_in(&mut world, from_relay(1, 0, body));
    assert_eq!(world.relays[0].pending, View::EMPTY);
    report.rules
}

fn worn(try_number: u16, count: u16) -> Vec<Rule> {
    let mut world = start(1);
    let desk = &mut world.desks[0];
    (desk.phase, desk.try_number) = (Phase::Write1, try_number);
    let body = Body::GetReply {
        try_number,
        record: rec(count, 0, 1),
    };
    let place = world.place(reply(0, 0, body)) as u8;
    let before = world.clone();
    let report = step(&mut world, d(place));
    assert_eq!(report.answer, Answer::Worn);
    assert_eq!(world, before);
    report.rules
}

#[test]
fn each_of_them_is_met_by_hand() {
    let acknowledgement = Body::Acknowledgement { try_number: 4 };
    let get_reply = Body::GetReply {
        try_number: 4,
        record: rec(1, 0, 1),
    };
    let equal_view = Body::ViewReply {
        try_number: 4,
        view: View(3),
    };
    let other_view = Body::ViewReply {
        try_number: 4,
        view: View(5),
    };
    let met = [
        already_in_view(),
        does_nothing(waiting_desk(Phase::Read1), 1, acknowledgement),
        does_nothing(waiting_desk(Phase::Write2), 1, get_reply.clone()),
        does_nothing(waiting_desk(Phase::Read1), 2, get_reply),
        does_nothing(waiting_desk(Phase::Write1), 1, equal_view),
        does_nothing(waiting_desk(Phase::Read2), 1, other_view),
        worn(65_535, 0),
        worn(1, 65_535),
    ];
    let met: BTreeSet<Rule> = met.concat().into_iter().collect();
    let all = Rule::ALL.iter().copied();
    let beyond: BTreeSet<Rule> = all.filter(|rule| rule.beyond_sheets().is_some()).collect();
    assert_eq!(met, beyond);
}
