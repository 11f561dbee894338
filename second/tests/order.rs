//! "Checked in this order, the first that applies": steps to which two refusals apply.

mod common;

use common::*;
use second::desk::Phase;
use second::message::Body;
use second::refusal::Answer;
use second::rules::Rule;
use second::sets::View;
use second::step::{step, Step, DELIVER, JOIN, READ};

#[test]
fn bad_step_comes_before_empty_and_dead() {
    let mut world = start(3);
    run(&mut world, &[crash(0), crash(8)]);
    let steps = [DELIVER, JOIN, READ].map(|kind| Step {
        kind,
        id: 0,
        value: 1,
    });
    assert_eq!(run(&mut world, &steps), [Answer::BadStep; 3]);
}

#[test]
fn dead_comes_before_not_yet() {
    let mut world = start(3);
    world.relays[0].active = false;
    run(&mut world, &[r(0)]);
    refused(
        &step(&mut world, d(0)),
        Answer::NotYet,
        Rule::GetNotYetNotActive,
    );
    run(&mut world, &[crash(0)]);
    refused(&step(&mut world, d(0)), Answer::Dead, Rule::DeadReceiver);
}

#[test]
fn not_now_comes_before_worn_and_no_room() {
    let mut world = start(255);
    let desk = &mut world.desks[0];
    (desk.phase, desk.try_number) = (Phase::Read1, 65_535);
    fill_places(&mut world, 0);
    refused(&step(&mut world, r(0)), Answer::NotNow, Rule::ReadNotNow);
    refused(
        &step(&mut world, w(0, 3)),
        Answer::NotNow,
        Rule::WriteNotNow,
    );
    refused(
        &step(&mut world, j(0)),
        Answer::NotNow,
        Rule::JoinNotNowEntered,
    );
    refused(
        &step(&mut world, t(0)),
        Answer::NotNow,
        Rule::TimerNotNowNothingPending,
    );
    refused(
        &step(&mut world, l(0)),
        Answer::NoRoom,
        Rule::NoRoomMessages,
    );
}

#[test]
fn not_yet_comes_before_no_room() {
    let mut world = start(3);
    let place = world.place(from_relay(0, 1, install(7, &[15]))) as u8;
    fill_places(&mut world, 0);
    refused(
        &step(&mut world, d(place)),
        Answer::NotYet,
        Rule::InstallNotYet,
    );
    world.relays[1].view = View(7);
    refused(
        &step(&mut world, d(place)),
        Answer::NoRoom,
        Rule::NoRoomMessages,
    );
}

#[test]
fn worn_comes_before_no_room_at_a_read() {
    let mut world = start(255);
    world.desks[3].try_number = 65_535;
    fill_places(&mut world, 0);
    refused(&step(&mut world, r(3)), Answer::Worn, Rule::WornTry);
    refused(
        &step(&mut world, r(2)),
        Answer::NoRoom,
        Rule::NoRoomMessages,
    );
}

#[test]
fn a_get_ahead_of_the_relay_waits_and_one_behind_is_told() {
    let mut world = start(3);
    let get = |view| second::message::Message {
        from: second::message::Party::Desk(0),
        to: second::message::Party::Relay(1),
        body: Body::Get {
            try_number: 1,
            view: View(view),
        },
    };
    refused(
        &hand_in(&mut world, get(7)),
        Answer::NotYet,
        Rule::GetNotYetView,
    );
    refused(
        &hand_in(&mut world, get(10)),
        Answer::NotYet,
        Rule::GetNotYetView,
    );
    let told = hand_in(&mut world, get(2));
    let view = Body::ViewReply {
        try_number: 1,
        view: View(3),
    };
    assert_eq!(sent(&world, &told), [reply(1, 0, view)]);
}

#[test]
fn new_messages_take_the_lowest_free_places() {
    let mut world = start(7);
    run(&mut world, &[l(0), l(1), drop(4), drop(1)]);
    let read = step(&mut world, r(0));
    assert_eq!(read.placed, [1, 4, 6]);
    let delivered = step(&mut world, d(4));
    assert_eq!(delivered.placed, [4]);
}
