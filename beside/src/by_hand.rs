//! Worlds that no sheet comes to: WORN at try 65,534 and 65,535 and at the greatest
//! count, and replies that no run sends.

use crate::both::Both;
use crate::tally::Tally;
use second::desk::Phase;
use second::good::is_good;
use second::hand::{fill_places, from_relay, rec, reply, start};
use second::message::{Body, Message};
use second::refusal::Answer::{self, Done, NotNow, Worn};
use second::sets::View;
use second::step::{Step, DELIVER, READ};
use second::world::World;

const PHASES: [Phase; 4] = [Phase::Read1, Phase::Read2, Phase::Write1, Phase::Write2];

pub fn all(tally: &mut Tally) {
    zeros(tally);
    tries(tally);
    counts(tally);
    wider_views(tally);
    disagreeing(tally);
    replies_that_no_run_sends(tally);
}

fn case(name: &str, world: World, asked: Step, answer: Answer, tally: &mut Tally) {
    let result = expect(world, asked, answer, tally);
    tally.check(name, result);
}

fn expect(world: World, asked: Step, answer: Answer, tally: &mut Tally) -> Result<(), String> {
    if !is_good(&world) {
        return Err("the world made by hand is not good".to_string());
    }
    let mut both = Both::of(world);
    both.good()?;
    let report = both.step(asked, tally)?;
    if report.answer != answer {
        return Err(format!("both answer {:?}, not {answer:?}", report.answer));
    }
    both.good()
}

/// Nobody alive, nothing known: 65,536 zeros are good, and every step is refused.
fn zeros(tally: &mut Tally) {
    let mut world = start(1);
    for relay in &mut world.relays {
        (relay.alive, relay.entered, relay.active) = (false, false, false);
        (relay.view, relay.known) = (View::EMPTY, View::EMPTY);
    }
    for desk in &mut world.desks {
        (desk.alive, desk.view) = (false, View::EMPTY);
    }
    case("zeros", world, Step::new(READ, 0), Answer::Dead, tally);
}

fn with_try(mask: u8, try_number: u16) -> World {
    let mut world = start(mask);
    world.desks[1].try_number = try_number;
    world
}

fn tries(tally: &mut Tally) {
    for (try_number, answer) in [(0, Done), (65_533, Done), (65_534, Done), (65_535, Worn)] {
        for mask in [1, 7, 255] {
            for asked in [Step::new(READ, 1), Step::write(1, 7)] {
                let name = format!("try {try_number}, mask {mask}, kind {}", asked.kind);
                case(&name, with_try(mask, try_number), asked, answer, tally);
            }
        }
    }
    let mut full = with_try(255, 65_535);
    fill_places(&mut full, 0);
    case(
        "try 65535, no room",
        full.clone(),
        Step::new(READ, 1),
        Worn,
        tally,
    );
    full.desks[1].phase = Phase::Read1;
    case(
        "try 65535, not idle",
        full,
        Step::new(READ, 1),
        NotNow,
        tally,
    );
}

/// Desk 1 in a phase at that try, and one reply in place 0.
fn replied(mask: u8, phase: Phase, try_number: u16, said: Message) -> World {
    let mut world = with_try(mask, try_number);
    let desk = &mut world.desks[1];
    desk.phase = phase;
    if phase != Phase::Read1 {
        desk.value = 77;
    }
    if matches!(phase, Phase::Read2 | Phase::Write2) {
        desk.stamp = rec(3, 1, 0).stamp;
    }
    world.place(said);
    world
}

fn got(from: u8, try_number: u16, count: u16) -> Message {
    let record = rec(count, 3, 6);
    reply(from, 1, Body::GetReply { try_number, record })
}

/// "write 1 takes (greatest count + 1, own number)", and its try grows by 1 too.
fn counts(tally: &mut Tally) {
    let cases = [
        (1, 65_534, Done),
        (1, 65_535, Worn),
        (65_534, 65_534, Done),
        (65_534, 65_535, Worn),
        (65_535, 0, Worn),
        (65_535, 65_534, Worn),
        (65_535, 65_535, Worn),
    ];
    for (try_number, count, answer) in cases {
        for full in [false, true] {
            let said = got(0, try_number, count);
            let mut world = replied(1, Phase::Write1, try_number, said);
            if full {
                fill_places(&mut world, 0);
            }
            let name = format!("write 1 at try {try_number}, count {count}, full {full}");
            case(&name, world, Step::new(DELIVER, 0), answer, tally);
        }
    }
    // An end of a read or a write starts no phase.
    let said = got(0, 65_535, 65_535);
    let world = replied(1, Phase::Read1, 65_535, said);
    case(
        "read 1 ends at the last try",
        world,
        Step::new(DELIVER, 0),
        Done,
        tally,
    );
    let try_number = 65_535;
    for phase in [Phase::Read2, Phase::Write2] {
        let said = reply(0, 1, Body::Acknowledgement { try_number });
        let world = replied(1, phase, try_number, said);
        let name = format!("{phase:?} ends at the last try");
        case(&name, world, Step::new(DELIVER, 0), Done, tally);
    }
}

/// A wider view starts the phase again, in each phase.
fn wider_views(tally: &mut Tally) {
    for phase in PHASES {
        for (try_number, answer) in [(65_534, Done), (65_535, Worn)] {
            let view = View(7);
            let said = reply(0, 1, Body::ViewReply { try_number, view });
            let world = replied(3, phase, try_number, said);
            let name = format!("{phase:?} at try {try_number} hears a wider view");
            case(&name, world, Step::new(DELIVER, 0), answer, tally);
        }
    }
}

/// Two of three stamps differ: read 1 would put back, which is a phase more.
fn disagreeing(tally: &mut Tally) {
    for (try_number, answer) in [(65_534, Done), (65_535, Worn)] {
        let said = got(2, try_number, 9);
        let mut world = replied(7, Phase::Read1, try_number, said);
        let desk = &mut world.desks[1];
        (desk.best, desk.agreed) = (rec(8, 0, 5), true);
        desk.replied.insert(0);
        let name = format!("read 1 disagrees at try {try_number}");
        case(&name, world, Step::new(DELIVER, 0), answer, tally);
    }
}

/// Of the other phase's kind, from no member, a view that is not wider, a request
/// whose update is in the view already.
fn replies_that_no_run_sends(tally: &mut Tally) {
    let try_number = 4;
    let asked = Step::new(DELIVER, 0);
    for phase in PHASES {
        let mut said = vec![
            reply(0, 1, Body::Acknowledgement { try_number }),
            got(0, try_number, 2),
            got(5, try_number, 2),
            reply(5, 1, Body::Acknowledgement { try_number }),
        ];
        for view in [0, 1, 3, 5, 7, 0x0103] {
            let view = View(view);
            said.push(reply(0, 1, Body::ViewReply { try_number, view }));
            said.push(reply(5, 1, Body::ViewReply { try_number, view }));
        }
        for message in said {
            let name = format!("{phase:?} hears {message:?}");
            case(
                &name,
                replied(3, phase, try_number, message),
                asked,
                Done,
                tally,
            );
        }
    }
    for update in [View::join(1), View::leave(1)] {
        let mut world = start(3);
        let view = world.relays[1].view.less(View::join(1));
        let view = if update == View::join(1) {
            view
        } else {
            View(3)
        };
        world.relays[0].view = view.union(update);
        world.place(from_relay(1, 0, Body::Request { update, view }));
        case("a request of another view", world, asked, Done, tally);
    }
    let mut world = start(3);
    let update = View::join(1);
    world.place(from_relay(
        1,
        0,
        Body::Request {
            update,
            view: View(1),
        },
    ));
    world.relays[0].view = View(1);
    world.relays[0].pending = View(2);
    case("a request pending already", world, asked, Done, tally);
}
