//! "Run only": the limits, by sheets where a sheet can reach them.

mod common;

use common::*;
use second::desk::Phase;
use second::generate;
use second::message::Body;
use second::plan::Event;
use second::record::rehearse;
use second::refusal::Answer;
use second::rules::Rule;
use second::sets::View;
use second::stamp::Stamp;
use second::step::{step, Step};

fn leaves(times: usize) -> Vec<Step> {
    (0..times).map(|n| l((n % 8) as u8)).collect()
}

fn line(text: &str, number: usize) -> &str {
    text.lines().nth(number).expect("the record has that line")
}

#[test]
fn a_read_over_eight_with_248_waiting_is_done() {
    let text = record_of(255, &[leaves(31), vec![r(2)]].concat());
    assert_eq!(line(&text, 32), "32 0 0 0 0 0 0");
    assert_eq!(line(&text, 33), "end 256 0 0 256");
}

#[test]
fn a_read_over_eight_with_249_waiting_has_no_room() {
    let drops: Vec<Step> = (0..7).map(drop).collect();
    let text = record_of(255, &[leaves(32), drops, vec![r(2)]].concat());
    assert_eq!(line(&text, 40), "40 8 0 0 0 0 0");
    assert_eq!(line(&text, 41), "end 256 0 7 249");
}

#[test]
fn a_delivered_place_counts_as_free() {
    let mut world = start(255);
    run(&mut world, &[r(0)]);
    run(&mut world, &leaves(31));
    assert_eq!(world.free(), 0);
    let report = step(&mut world, d(0));
    assert_eq!((report.answer, report.placed), (Answer::Done, vec![0]));
    assert!(report.rules.contains(&Rule::DeliveredPlaceCounted));
}

#[test]
fn the_ninth_generator_has_no_room() {
    let mut wanted = Vec::new();
    for seed in 1..=12 {
        let bytes = generate::sheet("generators", seed, None).expect("a flavour");
        let (_, coverage) = rehearse(&bytes);
        assert!(coverage.of(Rule::NoRoomGenerators) > 0, "seed {seed}");
        wanted.push(coverage.of(Rule::NoRoomGeneratorsEntry));
    }
    assert!(wanted.iter().any(|&times| times > 0));
}

/// One relay whose neighbour joins and leaves: eight views with a generator each.
#[test]
fn the_ninth_generator_step_by_step() {
    let mut world = start(1);
    for other in 1..=4 {
        for ask in [j(other), l(other)] {
            run(&mut world, &[ask]);
            deliver_all(&mut world);
            if !world.relays[0].view.holds(world.relays[0].pending) {
                assert_eq!(run(&mut world, &[t(0)]), [Answer::Done]);
            } else {
                assert_eq!(run(&mut world, &[ask, d(0), t(0)]), [Answer::Done; 3]);
            }
            deliver_all(&mut world);
        }
    }
    assert_eq!(world.relays[0].generators.len(), 8);
    run(&mut world, &[j(5), d(0), d(0), j(5), d(0)]);
    let ninth = step(&mut world, t(0));
    assert_eq!(ninth.answer, Answer::NoRoom);
    assert_eq!(
        ninth.rules,
        [Rule::NoRoomGenerators, Rule::NoRoomGeneratorsTimer]
    );
}

fn deliver_all(world: &mut second::world::World) {
    while let Some(place) = world.places.iter().position(Option::is_some) {
        assert_eq!(run(world, &[d(place as u8)]), [Answer::Done]);
    }
}

#[test]
fn the_ninth_transfer_has_no_room() {
    let bytes = generate::sheet("transfers", 1, None).expect("a flavour");
    let (_, coverage) = rehearse(&bytes);
    assert!(coverage.of(Rule::NoRoomTransfersInstall) > 0);
    assert!(coverage.of(Rule::NoRoomTransfersState) > 0);
}

#[test]
fn eight_thousand_steps_and_one_more() {
    let text = record_of(1, &vec![d(0); 8000]);
    assert_eq!(line(&text, 8000), "8000 3 0 0 0 0 0");
    assert_eq!(text.lines().count(), 8002);
    assert_eq!(record_of(1, &vec![d(0); 8001]), "bad 9\n");
    let made = |name| rehearse(&generate::sheet(name, 1, None).expect("a flavour")).0;
    assert_eq!(made("steps-8000").lines().count(), 8002);
    assert_eq!(made("steps-8001"), "bad 9\n");
}

/// No sheet comes near: each step adds at most 1 to a try.
#[test]
fn a_read_at_try_65534_and_at_65535() {
    let mut world = start(1);
    world.desks[0].try_number = 65_534;
    world.desks[1].try_number = 65_535;
    assert_eq!(run(&mut world, &[r(0)]), [Answer::Done]);
    assert_eq!(world.desks[0].try_number, 65_535);
    refused(&step(&mut world, r(1)), Answer::Worn, Rule::WornTry);
    refused(&step(&mut world, w(1, 7)), Answer::Worn, Rule::WornTry);
}

#[test]
fn most_tries_of_a_sheet() {
    let bytes = generate::sheet("tries", 1, None).expect("a flavour");
    let text = rehearse(&bytes).0;
    let last_write = line(&text, 8000).split(' ').nth(4);
    assert_eq!(last_write, Some("1600"));
}

/// docs/DECISIONS.md, 7: the message keeps waiting, and WORN comes before NO ROOM.
#[test]
fn worn_at_a_reply() {
    let mut world = start(1);
    let desk = &mut world.desks[0];
    (desk.phase, desk.try_number) = (Phase::Write1, 65_535);
    let same = Body::GetReply {
        try_number: 65_535,
        record: rec(0, 0, 0),
    };
    let wider = Body::ViewReply {
        try_number: 65_535,
        view: View(3),
    };
    let quorum = world.place(reply(0, 0, same)) as u8;
    let view = world.place(reply(0, 0, wider)) as u8;
    fill_places(&mut world, 0);
    let before = world.clone();
    refused(&step(&mut world, d(quorum)), Answer::Worn, Rule::WornTry);
    refused(&step(&mut world, d(view)), Answer::Worn, Rule::WornTry);
    assert_eq!(world, before);
}

#[test]
fn a_read_that_ends_at_the_last_try_is_not_worn() {
    let mut world = start(1);
    let desk = &mut world.desks[0];
    (desk.phase, desk.try_number) = (Phase::Read1, 65_535);
    let body = Body::GetReply {
        try_number: 65_535,
        record: rec(4, 2, 6),
    };
    let report = hand_in(&mut world, reply(0, 0, body));
    let stamp = Stamp::new(4, 2);
    assert_eq!(
        report.event,
        Event::ReadEnded {
            desk: 0,
            stamp,
            value: 6
        }
    );
}

#[test]
fn worn_count() {
    for (count, answer) in [(65_534, Answer::Done), (65_535, Answer::Worn)] {
        let mut world = start(1);
        run(&mut world, &[w(0, 7)]);
        let body = Body::GetReply {
            try_number: 1,
            record: rec(count, 3, 6),
        };
        let report = hand_in(&mut world, reply(0, 0, body));
        assert_eq!(report.answer, answer);
        let expected = if answer == Answer::Done {
            Stamp::new(65_535, 0)
        } else {
            Stamp::default()
        };
        assert_eq!(world.desks[0].stamp, expected);
    }
}
