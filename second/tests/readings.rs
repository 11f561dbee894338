//! The readings of unclear sentences, by their numbers in docs/DECISIONS.md.

mod common;

use common::*;
use second::desk::Phase;
use second::message::{Body, Party};
use second::plan::Event;
use second::refusal::Answer;
use second::rules::Rule;
use second::sets::View;
use second::step::{step, Step};

#[test]
fn reading_1_event_1_prints_no_stamp() {
    let steps = [
        w(0, 7),
        d(0),
        d(0),
        d(0),
        d(0),
        j(1),
        d(0),
        t(0),
        d(0),
        d(0),
        d(0),
        d(0),
    ];
    let text = record_of(1, &steps);
    assert_eq!(text.lines().nth(12), Some("12 0 1 0 0 0 3"));
}

#[test]
fn reading_2_a_timer_whose_generator_has_begun() {
    let mut world = start(1);
    run(&mut world, &[j(1), d(0), t(0)]);
    let before = world.clone();
    let again = step(&mut world, t(0));
    assert_eq!((again.answer, again.placed.len()), (Answer::Done, 0));
    assert_eq!(world, before);
}

#[test]
fn reading_3_a_conflict_without_a_change_is_sent_all_the_same() {
    let mut world = start(7);
    hand_in(&mut world, from_relay(1, 0, proposal(7, &[23, 31])));
    let settled = hand_in(&mut world, from_relay(2, 0, proposal(7, &[23, 31])));
    assert!(settled.rules.contains(&Rule::ConvergedSet));
    let report = hand_in(&mut world, from_relay(1, 0, proposal(7, &[15, 31])));
    assert!(report.rules.contains(&Rule::ProposalConflictOwnUnchanged));
    let messages = sent(&world, &report);
    assert_eq!(receivers(&messages), relays(&[0, 1, 2]));
    assert!(messages
        .iter()
        .all(|message| message.body == proposal(7, &[23, 31])));
}

#[test]
fn reading_4_only_the_last_raised_counts() {
    let mut world = start(7);
    let notes: [(u8, &[u16], bool); 5] = [
        (0, &[23], false),
        (1, &[23], true),
        (0, &[23, 31], false),
        (2, &[23, 31], true),
        (2, &[23], true),
    ];
    for (index, (from, q, raises)) in notes.into_iter().enumerate() {
        let report = hand_in(&mut world, from_relay(from, 0, converged(7, q)));
        assert_eq!(!report.placed.is_empty(), raises, "note {index}");
    }
    let again = hand_in(&mut world, from_relay(1, 0, converged(7, &[23])));
    assert_eq!(again.rules, [Rule::ConvergenceAgainNotRaised]);
}

#[test]
fn reading_5_an_install_goes_once_to_each() {
    let mut world = start(3);
    hand_in(&mut world, from_relay(0, 1, converged(3, &[263])));
    let report = hand_in(&mut world, from_relay(1, 1, converged(3, &[263])));
    let messages = sent(&world, &report);
    assert_eq!(receivers(&messages), relays(&[0, 1, 2]));
    assert!(messages
        .iter()
        .all(|message| message.body == install(3, &[263])));
}

#[test]
fn readings_6_and_14_an_adopted_view_starts_the_same_phase_again() {
    for phase in [Phase::Read1, Phase::Read2, Phase::Write1, Phase::Write2] {
        let mut world = start(3);
        let desk = &mut world.desks[1];
        (desk.phase, desk.try_number) = (phase, 5);
        let second = matches!(phase, Phase::Read2 | Phase::Write2);
        if second {
            (desk.stamp, desk.value) = (rec(4, 1, 0).stamp, 9);
        }
        desk.replied.insert(1);
        let body = Body::ViewReply {
            try_number: 5,
            view: View(11),
        };
        let report = hand_in(&mut world, reply(0, 1, body));
        let expected = if second {
            Body::Put {
                try_number: 6,
                view: View(11),
                record: rec(4, 1, 9),
            }
        } else {
            Body::Get {
                try_number: 6,
                view: View(11),
            }
        };
        let messages = sent(&world, &report);
        assert_eq!(receivers(&messages), relays(&[0, 1, 3]), "{phase:?}");
        assert!(
            messages.iter().all(|message| message.body == expected),
            "{phase:?}"
        );
        let desk = &world.desks[1];
        assert_eq!((desk.phase, desk.view), (phase, View(11)));
        assert!(desk.replied.is_empty());
    }
}

#[test]
fn reading_8_a_generator_counts_only_where_it_is_taken() {
    let mut world = start(1);
    for other in 1..=7u16 {
        let view = 1 | 1 << other;
        hand_in(&mut world, from_relay(0, 0, converged(view, &[255])));
    }
    hand_in(&mut world, from_relay(0, 0, converged(1, &[3])));
    assert_eq!(world.relays[0].generators.len(), 8);
    fill_places(&mut world, 40);
    let known = hand_in(&mut world, from_relay(0, 0, proposal(3, &[7])));
    assert_eq!(known.answer, Answer::Done);
    let ninth = hand_in(&mut world, from_relay(0, 0, proposal(7, &[15])));
    assert_eq!(
        ninth.rules,
        [Rule::NoRoomGenerators, Rule::NoRoomGeneratorsProposal]
    );
}

#[test]
fn reading_9_dead_ones() {
    let mut world = start(3);
    let answers = run(
        &mut world,
        &[l(0), crash(0), d(0), drop(0), crash(0), j(0), t(0)],
    );
    use Answer::{Dead, Done};
    assert_eq!(answers, [Done, Done, Dead, Done, Dead, Dead, Dead]);
    let desks = run(&mut world, &[r(3), crash(11), r(3), w(3, 1), crash(11)]);
    assert_eq!(desks, [Done, Done, Dead, Dead, Dead]);
}

#[test]
fn reading_10_bad_steps_are_no_bad_sheet() {
    let bad = [
        (0, 0),
        (9, 0),
        (255, 0),
        (1, 8),
        (2, 8),
        (3, 8),
        (4, 4),
        (5, 4),
        (8, 12),
    ];
    let mut steps: Vec<Step> = bad.map(|(kind, id)| Step::new(kind, id)).to_vec();
    let valued = [1, 2, 3, 4, 6, 7, 8].map(|kind| Step {
        kind,
        id: 0,
        value: 1,
    });
    steps.extend(valued);
    let text = record_of(1, &steps);
    for (number, line) in text.lines().enumerate().skip(1).take(steps.len()) {
        assert_eq!(line, format!("{number} 2 0 0 0 0 0"));
    }
    let mut world = start(1);
    use Answer::{Done, Empty};
    assert_eq!(
        run(&mut world, &[d(255), drop(255), crash(11)]),
        [Empty, Empty, Done]
    );
}

#[test]
fn reading_12_asking_again_sends_again() {
    let mut world = start(3);
    for _ in 0..2 {
        let leave = step(&mut world, l(0));
        assert_eq!(receivers(&sent(&world, &leave)), relays(&[0, 1]));
        let join = step(&mut world, j(5));
        assert_eq!(receivers(&sent(&world, &join)), relays(&[0, 1]));
    }
}

#[test]
fn a_join_that_is_known_is_not_now() {
    let mut world = start(1);
    let told = hand_in(&mut world, from_relay(0, 1, Body::View { view: View(3) }));
    assert_eq!(told.rules, [Rule::ViewKept]);
    refused(
        &step(&mut world, j(1)),
        Answer::NotNow,
        Rule::JoinNotNowKnown,
    );
    let other = hand_in(&mut world, from_relay(0, 1, Body::View { view: View(5) }));
    assert_eq!(other.rules, [Rule::ViewNotKept]);
    assert_eq!(world.relays[1].known, View(3));
}

#[test]
fn reading_13_a_stopped_relay_still_adds_to_pending() {
    let mut world = start(1);
    hand_in(&mut world, from_relay(0, 0, install(1, &[3])));
    assert!(!world.relays[0].active);
    let body = Body::Request {
        update: View::join(4),
        view: View(1),
    };
    hand_in(&mut world, from_relay(4, 0, body));
    assert_eq!(world.relays[0].pending, View::join(4));
}

#[test]
fn reading_16_a_proposal_before_entering() {
    let mut world = start(1);
    let report = hand_in(&mut world, from_relay(0, 1, proposal(3, &[7, 15])));
    assert_eq!(receivers(&sent(&world, &report)), relays(&[0, 1]));
    assert_eq!(world.relays[1].generators[0].own, seq(&[7, 15]));
    assert!(!world.relays[1].entered);
}

#[test]
fn reading_17_the_test_follows_a_proposal_that_brings_nothing_new() {
    let mut world = start(3);
    let first = hand_in(&mut world, from_relay(0, 0, proposal(3, &[7])));
    assert!(first.rules.contains(&Rule::ConvergedNoQuorum));
    let second = hand_in(&mut world, from_relay(1, 0, proposal(3, &[7])));
    assert_eq!(second.rules, [Rule::ProposalNothingNew, Rule::ConvergedSet]);
    let messages = sent(&world, &second);
    assert!(messages
        .iter()
        .all(|message| message.body == converged(3, &[7])));
    assert_eq!(receivers(&messages), relays(&[0, 1]));
}

#[test]
fn reading_17_only_the_last_note_of_a_sender_counts() {
    let mut world = start(7);
    hand_in(&mut world, from_relay(1, 0, proposal(7, &[31])));
    hand_in(&mut world, from_relay(1, 0, proposal(7, &[23, 31])));
    hand_in(&mut world, from_relay(2, 0, proposal(7, &[31])));
    assert!(world.relays[0].generators[0].converged.is_empty());
}

#[test]
fn reading_18_a_second_install_keeps_the_first_sequence() {
    let mut world = start(3);
    let first = hand_in(&mut world, from_relay(0, 0, install(3, &[7])));
    let second = hand_in(&mut world, from_relay(1, 0, install(3, &[7, 15])));
    assert!(second.rules.contains(&Rule::InstallKeptAlready));
    assert_eq!(world.relays[0].transfers[0].install, seq(&[7]));
    assert_eq!((first.placed.len(), second.placed.len()), (3, 3));
}

/// Relay 0 has gathered its state of the pair (1, 3) before the install comes.
fn about_to_enter() -> second::world::World {
    let mut world = start(1);
    hand_in(
        &mut world,
        from_relay(0, 0, state(1, 3, rec(5, 1, 50), 0b10010)),
    );
    world.relays[0].record = rec(9, 0, 90);
    world.relays[0].pending = View(0b01010);
    world
}

#[test]
fn readings_19_and_20_state_goes_before_the_entrys_proposal() {
    let mut world = about_to_enter();
    let report = hand_in(&mut world, from_relay(0, 0, install(1, &[3, 7])));
    let messages = sent(&world, &report);
    assert_eq!(receivers(&messages), relays(&[0, 1, 0, 1]));
    assert_eq!(messages[0].body, state(1, 3, rec(9, 0, 90), 0b01010));
    assert_eq!(messages[2].body, proposal(3, &[7]));
    let relay = &world.relays[0];
    assert_eq!(
        (relay.view, relay.known, relay.active),
        (View(3), View(3), false)
    );
    assert_eq!(relay.record, rec(5, 1, 50));
    assert_eq!(relay.pending, View(0b11000));
    assert!(relay.transfers.is_empty());
}

#[test]
fn reading_21_an_entry_whose_generator_has_begun_proposes_nothing() {
    let mut world = about_to_enter();
    hand_in(&mut world, from_relay(1, 0, proposal(3, &[15])));
    let report = hand_in(&mut world, from_relay(0, 0, install(1, &[3, 7])));
    assert!(report.rules.contains(&Rule::EntryGeneratorBegunAlready));
    assert_eq!(report.placed.len(), 2);
    assert_eq!(report.event, Event::None);
    assert!(!world.relays[0].active);
    assert_eq!(world.relays[0].generators[0].own, seq(&[15]));
}

#[test]
fn an_entry_with_nothing_above_is_event_1() {
    let mut world = about_to_enter();
    let report = hand_in(&mut world, from_relay(0, 0, install(1, &[3])));
    assert_eq!(
        report.event,
        Event::Opened {
            relay: 0,
            view: View(3)
        }
    );
    assert!(world.relays[0].active);
}

#[test]
fn reading_22_a_generator_taken_for_a_note_has_no_own_sequence() {
    let mut world = start(3);
    hand_in(&mut world, from_relay(1, 0, converged(3, &[7])));
    assert!(world.relays[0].generators[0].own.is_empty());
    let body = Body::Request {
        update: View::join(2),
        view: View(3),
    };
    hand_in(&mut world, from_relay(2, 0, body));
    let timer = step(&mut world, t(0));
    assert!(timer.rules.contains(&Rule::ProposeBegun));
    assert!(!timer.rules.contains(&Rule::GeneratorTaken));
}

#[test]
fn reading_23_a_first_reply_of_stamp_zero_leaves_value_zero() {
    let mut world = start(1);
    run(&mut world, &[r(0)]);
    let body = Body::GetReply {
        try_number: 1,
        record: rec(0, 0, 5),
    };
    let report = hand_in(&mut world, reply(0, 0, body));
    let stamp = rec(0, 0, 0).stamp;
    assert_eq!(
        report.event,
        Event::ReadEnded {
            desk: 0,
            stamp,
            value: 0
        }
    );
}

#[test]
fn transfers_above_the_entered_view_move_down_in_their_order() {
    let mut world = about_to_enter();
    for new in [15, 5, 7] {
        hand_in(&mut world, from_relay(0, 0, state(1, new, rec(1, 0, 1), 0)));
    }
    hand_in(&mut world, from_relay(0, 0, install(1, &[3])));
    let pairs = world.relays[0].transfers.iter();
    let news: Vec<View> = pairs.map(|transfer| transfer.new).collect();
    assert_eq!(news, [View(15), View(7)]);
}

#[test]
fn a_read_with_differing_stamps_puts_the_greatest_back() {
    let mut world = start(7);
    run(&mut world, &[r(2)]);
    let answer = |record| Body::GetReply {
        try_number: 1,
        record,
    };
    hand_in(&mut world, reply(0, 2, answer(rec(3, 1, 31))));
    let report = hand_in(&mut world, reply(1, 2, answer(rec(3, 0, 30))));
    let put = Body::Put {
        try_number: 2,
        view: View(7),
        record: rec(3, 1, 31),
    };
    let messages = sent(&world, &report);
    assert_eq!(receivers(&messages), relays(&[0, 1, 2]));
    assert!(messages
        .iter()
        .all(|m| m.body == put && m.from == Party::Desk(2)));
    let desk = &world.desks[2];
    assert_eq!(
        (desk.best, desk.agreed, desk.replied.len()),
        (rec(0, 0, 0), false, 0)
    );
}
