//! The limits of document 01, each reached from a start.
//!
//! Try 65,534 and 65,535 and a stamp count of 65,535 are not among them: a step
//! adds at most 1 to one desk's try and at most 1 to the greatest count, and a
//! sheet has at most 8,000 steps. `most_tries` goes as far as a sheet does; the
//! tests show the two limits on worlds that are built by hand.

use super::maker::Maker;
use super::random::Random;
use super::rich::{any_temper, go_on, Temper};
use crate::message::{Body, Message, Party};
use crate::sets::View;
use crate::sheet::{Sheet, MOST_STEPS};
use crate::step::{Step, DELIVER, DROP, JOIN, LEAVE, READ, TIMER};

/// "a READ over eight members with 248 waiting is done": 31 leaves at 8 requests each.
pub fn read_248(random: &mut Random, steps: usize) -> Sheet {
    let mut maker = Maker::new(random, 255, steps);
    clog(&mut maker, 31);
    read_and_go_on(maker)
}

/// "with 249 NO ROOM": 32 leaves fill all places, and seven are dropped.
pub fn read_249(random: &mut Random, steps: usize) -> Sheet {
    let mut maker = Maker::new(random, 255, steps);
    clog(&mut maker, 32);
    for _ in 0..7 {
        let places = maker.places(|_| true);
        let place = maker.random.pick(&places).unwrap_or_default();
        maker.take(Step::new(DROP, place));
    }
    read_and_go_on(maker)
}

fn clog(maker: &mut Maker<'_>, leaves: usize) {
    for _ in 0..leaves {
        let relay = maker.random.below(8) as u8;
        maker.take(Step::new(LEAVE, relay));
    }
}

fn read_and_go_on(mut maker: Maker<'_>) -> Sheet {
    let desk = maker.random.below(4) as u8;
    maker.take(Step::new(READ, desk));
    let temper = Temper {
        crowd: 250,
        crash: 0,
        ..any_temper(maker.random)
    };
    go_on(&mut maker, &temper);
    maker.sheet()
}

/// One relay stays while the others join and leave again, so that it proposes in
/// view after view; a generator is never freed. Where two joins come as one
/// sequence of two views, the second generator is wanted by the entry test.
pub fn ninth_generator(random: &mut Random, steps: usize) -> Sheet {
    let stays = random.below(8) as u8;
    let mut maker = Maker::new(random, 1 << stays, steps);
    for _ in 0..14 {
        let view = maker.world.relays[usize::from(stays)].view;
        let members: Vec<u8> = view.members().filter(|&relay| relay != stays).collect();
        let joined = |relay: u8| view.holds(View::join(relay));
        let outside: Vec<u8> = (0..8).filter(|&relay| !joined(relay)).collect();
        let coin = maker.random.per_mille(500);
        match (&members[..], &outside[..]) {
            (&[other], &[first, second, ..]) if coin => {
                join_two(&mut maker, (stays, other), first, second)
            }
            (_, &[first, ..]) if members.is_empty() || (coin && members.len() < 3) => {
                change(&mut maker, JOIN, first, stays)
            }
            (&[first, ..], _) => change(&mut maker, LEAVE, first, stays),
            _ => break,
        }
    }
    let temper = any_temper(maker.random);
    go_on(&mut maker, &temper);
    maker.sheet()
}

fn change(maker: &mut Maker<'_>, kind: u8, who: u8, stays: u8) {
    ask_until_pending(maker, kind, who, stays, None);
    take_if_room(maker, Step::new(TIMER, stays));
    maker.deliver_all(|_| true);
}

/// The one proposes both joins at once and the other the first of them, which
/// ends as a sequence of two views.
fn join_two(maker: &mut Maker<'_>, (stays, other): (u8, u8), first: u8, second: u8) {
    ask_until_pending(maker, JOIN, first, stays, None);
    ask_until_pending(maker, JOIN, second, stays, Some(other));
    take_if_room(maker, Step::new(TIMER, stays));
    take_if_room(maker, Step::new(TIMER, other));
    maker.deliver_all(|_| true);
}

fn take_if_room(maker: &mut Maker<'_>, asked: Step) {
    if !maker.full() {
        maker.take(asked);
    }
}

/// A joiner whose known view is old is told the newer one and asks again.
fn ask_until_pending(maker: &mut Maker<'_>, kind: u8, who: u8, at: u8, deaf: Option<u8>) {
    let update = if kind == JOIN {
        View::join(who)
    } else {
        View::leave(who)
    };
    let to_deaf = |message: &Message| deaf.is_some_and(|relay| is_for(message, relay));
    for _ in 0..3 {
        if maker.opens(Step::new(kind, who)) {
            take_if_room(maker, Step::new(kind, who));
        }
        maker.drop_all(|message| to_deaf(message) && is_request(message));
        maker.deliver_all(|message| !to_deaf(message));
        if maker.world.relays[usize::from(at)].pending.holds(update) {
            break;
        }
    }
}

fn is_for(message: &Message, relay: u8) -> bool {
    message.to == Party::Relay(relay)
}

fn is_request(message: &Message) -> bool {
    matches!(message.body, Body::Request { .. })
}

/// Relay 7 hears nothing but state while nine views follow one another: four
/// relays join, then the three first leave, then two more. The first pair's mail
/// is kept back until eight other transfers are taken; then its install and its
/// state both need a ninth. Relays that came later run the later generators, as
/// none has room for more than eight.
pub fn ninth_transfer(random: &mut Random, steps: usize) -> Sheet {
    let start = View::of_joins(0b1000_0111);
    let mut maker = Maker::new(random, 0b1000_0111, steps);
    let joins = [3, 4, 5, 6].map(|relay| (JOIN, relay));
    let leaves = [0, 1, 2, 3, 4].map(|relay| (LEAVE, relay));
    for (kind, who) in joins.into_iter().chain(leaves) {
        change_without_7(&mut maker, kind, who, start);
    }
    let last = maker.places(|message| is_for(message, 7));
    for place in last {
        take_if_room(&mut maker, Step::new(DELIVER, place));
    }
    let temper = any_temper(maker.random);
    maker.limit = maker.limit.min(maker.steps.len() + 200);
    go_on(&mut maker, &temper);
    maker.sheet()
}

fn change_without_7(maker: &mut Maker<'_>, kind: u8, who: u8, start: View) {
    let proposer = if kind == JOIN { 0 } else { who };
    ask_until_pending(maker, kind, who, proposer, Some(7));
    take_if_room(maker, Step::new(TIMER, proposer));
    let first = |message: &Message| match message.body {
        Body::Install { old, .. } | Body::State { old, .. } => old == start,
        _ => false,
    };
    let state = |message: &Message| matches!(message.body, Body::State { .. });
    let wanted = |message: &Message| !is_for(message, 7) || (state(message) && !first(message));
    let mut before = usize::MAX;
    while !maker.full() && before != maker.steps.len() {
        before = maker.steps.len();
        deliver_once(maker, wanted);
        maker.drop_all(|message| is_for(message, 7) && !state(message) && !first(message));
    }
    drop_repeats(maker, first);
}

/// Everyone raises an install for everyone: one for each receiver is enough, and
/// the others' answers would fill the places.
fn deliver_once(maker: &mut Maker<'_>, wanted: impl Fn(&Message) -> bool) {
    let places = maker.places(wanted).into_iter();
    let mut steps = places.map(|place| Step::new(DELIVER, place));
    let Some(asked) = steps.find(|&asked| maker.opens(asked)) else {
        return;
    };
    let message = maker.message(asked.id).clone();
    maker.take(asked);
    if matches!(message.body, Body::Install { .. }) {
        maker.drop_all(|other| other.to == message.to && other.body == message.body);
    }
}

/// Of the mail that is kept back, one install and one state stay.
fn drop_repeats(maker: &mut Maker<'_>, kept: impl Fn(&Message) -> bool) {
    for install in [false, true] {
        let fits = |message: &Message| matches!(message.body, Body::Install { .. }) == install;
        let places = maker.places(|message| is_for(message, 7) && kept(message) && fits(message));
        for place in places.into_iter().skip(1) {
            take_if_room(maker, Step::new(DROP, place));
        }
    }
}

/// One relay and one desk: five steps for a write of two tries, so that a sheet
/// of 8,000 steps comes to try 3,200 and count 1,600.
pub fn most_tries(random: &mut Random, steps: usize) -> Sheet {
    let mask = random.mask(1);
    let desk = random.below(4) as u8;
    let mut maker = Maker::new(random, mask, steps);
    while !maker.full() {
        let value = maker.random.value();
        maker.take(Step::write(desk, value));
        maker.deliver_all(|_| true);
    }
    maker.sheet()
}

pub fn steps_8000(random: &mut Random, _steps: usize) -> Sheet {
    exactly(random, MOST_STEPS)
}

pub fn steps_8001(random: &mut Random, _steps: usize) -> Sheet {
    exactly(random, MOST_STEPS + 1)
}

fn exactly(random: &mut Random, steps: usize) -> Sheet {
    let temper = Temper {
        members: (1, 3),
        ..any_temper(random)
    };
    let mask = random.mask(temper.members.1);
    let mut maker = Maker::new(random, mask, steps);
    while !maker.full() {
        go_on(&mut maker, &temper);
    }
    maker.sheet()
}
