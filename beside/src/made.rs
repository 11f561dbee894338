//! Good worlds that no run need come to, made field by field: "every accepted step
//! from a good world gives a good one", and both programs must agree on them too.

use crate::both::Both;
use crate::tally::Tally;
use second::desk::{Desk, Phase};
use second::generate::Random;
use second::generator::Generator;
use second::good::is_good;
use second::hand::{from_desk, from_relay, reply};
use second::message::{Body, Message};
use second::relay::Relay;
use second::sets::{Sequence, View};
use second::stamp::{Record, Stamp};
use second::step::{Step, DELIVER, JOIN, LEAVE, READ, TIMER};
use second::transfer::Transfer;
use second::world::World;
use std::rc::Rc;

const STEPS: usize = 6;

pub fn all(count: usize, tally: &mut Tally) {
    for seed in 0..count as u64 {
        let mut random = Random::seeded("made", seed);
        let made = world(&mut random);
        let result = if is_good(&made) {
            run(&mut random, made, tally)
        } else {
            Err("the world that was made is not good".to_string())
        };
        tally.check(&format!("made world, seed {seed}"), result);
    }
}

fn run(random: &mut Random, made: World, tally: &mut Tally) -> Result<(), String> {
    let mut both = Both::of(made);
    both.good()?;
    for number in 1..=STEPS {
        let asked = any_step(random, &both.world);
        both.step(asked, tally)
            .map_err(|why| format!("step {number}, {why}"))?;
    }
    both.good()
}

/// Mostly a delivery of something that waits.
pub fn any_step(random: &mut Random, world: &World) -> Step {
    let waiting = |&place: &usize| world.places[place].is_some();
    let waiting: Vec<usize> = (0..256).filter(waiting).collect();
    let place = random.pick(&waiting);
    match (random.below(12), place) {
        (0, _) => Step {
            kind: random.below(10) as u8,
            id: random.below(13) as u8,
            value: random.below(2) as u32,
        },
        (1, _) => Step::new(TIMER, random.below(8) as u8),
        (2, _) => Step::new([JOIN, LEAVE][random.below(2)], random.below(8) as u8),
        (3, _) => Step::new(READ, random.below(4) as u8),
        (4, _) | (_, None) => Step::write(random.below(4) as u8, random.value()),
        (_, Some(place)) => Step::new(DELIVER, place as u8),
    }
}

/// Views of one world grow from each other, so that they are often equal or nested.
struct Views(Vec<View>);

impl Views {
    fn new(random: &mut Random) -> Views {
        let mut views = vec![View::of_joins(random.byte().max(1))];
        for _ in 0..4 + random.below(8) {
            let from = views[random.below(views.len())];
            views.push(from.union(View(1 << random.below(16))));
        }
        Views(views)
    }

    fn any(&self, random: &mut Random) -> View {
        self.0[random.below(self.0.len())]
    }

    fn with(&self, random: &mut Random, passes: impl Fn(View) -> bool) -> Option<View> {
        let views: Vec<View> = self
            .0
            .iter()
            .copied()
            .filter(|&view| passes(view))
            .collect();
        random.pick(&views)
    }

    /// A sequence kept for a view, empty only where nothing is above.
    fn above(&self, random: &mut Random, view: View) -> Sequence {
        let mut sequence = Sequence::default();
        for _ in 0..1 + random.below(4) {
            let next = self.with(random, |other| {
                view.inside(other) && sequence.views().all(|one| !one.conflicts(other))
            });
            sequence = next.map_or(sequence.clone(), |next| sequence.plus(next));
        }
        sequence
    }
}

fn record(random: &mut Random) -> Record {
    let count = [0, 1, 2, 2, 3, 65_534, 65_535][random.below(7)];
    Record::new(Stamp::new(count, random.below(4) as u8), random.value())
}

fn some_of(random: &mut Random, view: View) -> Vec<u8> {
    view.members().filter(|_| random.below(2) == 0).collect()
}

fn world(random: &mut Random) -> World {
    let views = Views::new(random);
    let mut world = World::start(255).expect("a mask above 0");
    for relay in &mut world.relays {
        *relay = self::relay(random, &views, relay.number);
    }
    for desk in &mut world.desks {
        *desk = self::desk(random, &views, desk.number);
    }
    let full = [0, 5, 40, 230, 250, 256][random.below(6)];
    for _ in 0..600 {
        if world.waiting() < full {
            if let Some(message) = message(random, &views, &world) {
                world.place(message);
            }
        }
    }
    for _ in 0..random.below(4) {
        world.places[random.below(256)] = None;
    }
    world
}

fn relay(random: &mut Random, views: &Views, number: u8) -> Relay {
    let view = match random.below(4) {
        0 => View::EMPTY,
        _ => views.any(random),
    };
    let mut relay = Relay {
        alive: random.below(12) > 0,
        view,
        entered: view != View::EMPTY,
        active: view.has_member(number) && random.below(3) > 0,
        known: views.any(random),
        pending: View(1 << random.below(16) | 1 << random.below(16)),
        record: record(random),
        ..Relay::start(number, view)
    };
    let most = [0, 2, 7, 8][random.below(4)];
    for view in views.0.clone() {
        let taken = relay
            .generators
            .iter()
            .any(|generator| generator.view == view);
        if view.has_member(number) && !taken && relay.generators.len() < most {
            relay
                .generators
                .push(Rc::new(generator(random, views, view)));
        }
    }
    for _ in 0..[0, 2, 30, 60][random.below(4)] {
        if let Some(transfer) = transfer(random, views, number) {
            let pair = |one: &Transfer| (one.old, one.new);
            let taken = relay
                .transfers
                .iter()
                .any(|one| pair(one) == pair(&transfer));
            if !taken && relay.transfers.len() < 8 {
                relay.transfers.push(Rc::new(transfer));
            }
        }
    }
    relay
}

/// Notes are often equal to each other or to the own sequence, so that quorums occur.
fn generator(random: &mut Random, views: &Views, view: View) -> Generator {
    let mut generator = Generator::of(view);
    if random.below(4) > 0 {
        generator.own = views.above(random, view);
    }
    let own = generator.own.clone();
    let cut = random.below(own.len() + 1);
    generator.converged = match random.below(3) {
        0 => own.clone(),
        1 => Sequence::of(own.views().take(cut)),
        _ => Sequence::default(),
    };
    let other = views.above(random, view);
    let said = [
        own,
        other.clone(),
        generator.converged.clone(),
        Sequence::default(),
    ];
    generator.raised = said[random.below(4)].clone();
    for member in view.members().map(usize::from) {
        generator.proposals[member] = said[random.below(4)].clone();
        generator.convergences[member] = said[random.below(4)].clone();
    }
    generator
}

fn pair(random: &mut Random, views: &Views) -> Option<(View, View)> {
    let old = views.with(random, |view| view.members().count() > 0)?;
    let new = views.with(random, |view| old.inside(view))?;
    Some((old, new))
}

/// A sequence for the old view with the new one as its least.
fn installed(random: &mut Random, views: &Views, new: View) -> Sequence {
    match random.below(2) {
        0 => Sequence::of([new]),
        _ => views.above(random, new).plus(new),
    }
}

fn transfer(random: &mut Random, views: &Views, number: u8) -> Option<Transfer> {
    let (old, new) = pair(random, views)?;
    if !new.has_member(number) {
        return None;
    }
    let mut transfer = Transfer::between(old, new);
    if random.below(2) == 0 {
        transfer.install = installed(random, views, new);
    }
    transfer.senders.extend(some_of(random, old));
    transfer.best = record(random);
    transfer.gathered = View(1 << random.below(16));
    Some(transfer)
}

fn desk(random: &mut Random, views: &Views, number: u8) -> Desk {
    let mut desk = Desk::start(number, views.any(random));
    desk.alive = random.below(12) > 0;
    desk.try_number = [0, 1, 2, 65_534, 65_535][random.below(5)];
    desk.phase = Phase::ALL[random.below(5)];
    let second = matches!(desk.phase, Phase::Read2 | Phase::Write2);
    if second || desk.phase == Phase::Write1 {
        desk.value = random.value();
    }
    if second {
        desk.stamp = record(random).stamp;
    }
    if desk.phase != Phase::Idle {
        desk.replied.extend(some_of(random, desk.view));
    }
    if desk.phase != Phase::Idle && !second && !desk.replied.is_empty() {
        desk.best = record(random);
        desk.agreed = random.below(2) == 0;
    }
    desk
}

fn member(random: &mut Random, view: View) -> Option<u8> {
    let members: Vec<u8> = view.members().collect();
    random.pick(&members)
}

fn message(random: &mut Random, views: &Views, world: &World) -> Option<Message> {
    if random.below(2) == 0 {
        return between_relays(random, views);
    }
    let number = random.below(4) as u8;
    let desk = &world.desks[usize::from(number)];
    let try_number = match random.below(4) {
        0 => random.below(3) as u16,
        _ => desk.try_number,
    };
    let view = match random.below(3) {
        0 => desk.view,
        _ => views.any(random),
    };
    let (from, record) = (random.below(8) as u8, record(random));
    let said = match random.below(5) {
        0 => from_desk(
            number,
            member(random, view)?,
            Body::Get { try_number, view },
        ),
        1 => from_desk(
            number,
            member(random, view)?,
            Body::Put {
                try_number,
                view,
                record,
            },
        ),
        2 => reply(from, number, Body::ViewReply { try_number, view }),
        3 => reply(from, number, Body::GetReply { try_number, record }),
        _ => reply(from, number, Body::Acknowledgement { try_number }),
    };
    Some(said)
}

fn between_relays(random: &mut Random, views: &Views) -> Option<Message> {
    let (from, to) = (random.below(8) as u8, random.below(8) as u8);
    let view = views.any(random);
    let body = match random.below(6) {
        0 => return request(random, views, from),
        1 => return Some(from_relay(from, to, Body::View { view })),
        2 | 3 => {
            let sequence = views.above(random, view);
            let named = !sequence.is_empty() && view.has_member(from) && view.has_member(to);
            named.then_some(match random.below(2) {
                0 => Body::Proposal { view, sequence },
                _ => Body::Converged { view, sequence },
            })
        }
        4 => {
            let (old, new) = pair(random, views)?;
            let sequence = installed(random, views, new);
            let named = old.has_member(from) && (old.has_member(to) || new.has_member(to));
            named.then_some(Body::Install { old, new, sequence })
        }
        _ => {
            let (old, new) = pair(random, views)?;
            let (record, pending) = (record(random), View(1 << random.below(16)));
            let named = old.has_member(from) && new.has_member(to);
            named.then_some(Body::State {
                old,
                new,
                record,
                pending,
            })
        }
    };
    body.map(|body| from_relay(from, to, body))
}

fn request(random: &mut Random, views: &Views, from: u8) -> Option<Message> {
    let view = views.any(random);
    let to = member(random, view)?;
    let update = if !view.holds(View::join(from)) {
        View::join(from)
    } else if view.has_member(from) {
        View::leave(from)
    } else {
        return None;
    };
    Some(from_relay(from, to, Body::Request { update, view }))
}
