//! One condition of a good world broken, all else as it was.

use super::{bad, changed, relay_with, some_generator, some_message, some_transfer, Class};
use second::desk::{Desk, Phase};
use second::generate::Random;
use second::hand::{from_desk, from_relay, rec};
use second::image::{encode, generator_at, transfer_at, GENERATOR, TRANSFER};
use second::message::{Body, Message};
use second::sets::{Sequence, View};
use second::world::World;
use std::rc::Rc;

pub const CLASSES: &[Class] = &[
    bad("active, not entered", active_not_entered),
    bad("active, not a member", active_not_member),
    bad("entered, view 0", entered_without_view),
    bad("view, not entered", view_not_entered),
    bad("two generators of one view", two_generators),
    bad("two transfers of one pair", two_transfers),
    bad("generator after a free place", generator_gap),
    bad("transfer after a free place", transfer_gap),
    bad("generator of no member", generator_of_no_member),
    bad("transfer of no member", transfer_of_no_member),
    bad("converged not in own", converged_not_in_own),
    bad("note of no member", note_of_no_member),
    bad("transfer's old view without members", old_without_members),
    bad("transfer's old view not inside", old_not_inside),
    bad("state from no member of old", sender_not_of_old),
    bad("desk: a field that its phase lacks", desk_unused),
    bad("desk: reply of no member", desk_reply),
    bad("request of another's update", request_update),
    bad("request of what the view holds", request_held),
    bad("view message of view 0", view_zero),
    bad("message to no member", to_no_member),
    bad("pair of a message not nested", pair_not_nested),
];

fn active_not_entered(random: &mut Random, world: &World) -> Option<Vec<u8>> {
    changed(world, |world| {
        let relay = &mut world.relays[random.below(8)];
        (relay.entered, relay.active) = (false, true);
        relay.view = View::EMPTY;
        Some(())
    })
}

fn active_not_member(random: &mut Random, world: &World) -> Option<Vec<u8>> {
    let relay = relay_with(random, world, |relay| world.relays[relay].entered)?;
    changed(world, |world| {
        let relay = &mut world.relays[relay];
        relay.active = true;
        relay.view = relay.view.union(View::leave(relay.number));
        Some(())
    })
}

fn entered_without_view(random: &mut Random, world: &World) -> Option<Vec<u8>> {
    changed(world, |world| {
        let relay = &mut world.relays[random.below(8)];
        (relay.entered, relay.active, relay.view) = (true, false, View::EMPTY);
        Some(())
    })
}

fn view_not_entered(random: &mut Random, world: &World) -> Option<Vec<u8>> {
    changed(world, |world| {
        let relay = &mut world.relays[random.below(8)];
        (relay.entered, relay.active) = (false, false);
        relay.view = View(1 << random.below(16));
        Some(())
    })
}

fn two_generators(random: &mut Random, world: &World) -> Option<Vec<u8>> {
    let (relay, place) = some_generator(random, world)?;
    changed(world, |world| {
        let generators = &mut world.relays[relay].generators;
        let again = generators[place].clone();
        (generators.len() < 8).then(|| generators.push(again))
    })
}

fn two_transfers(random: &mut Random, world: &World) -> Option<Vec<u8>> {
    let (relay, place) = some_transfer(random, world)?;
    changed(world, |world| {
        let transfers = &mut world.relays[relay].transfers;
        let mut again = transfers[place].clone();
        Rc::make_mut(&mut again).senders.clear();
        (transfers.len() < 8).then(|| transfers.push(again))
    })
}

/// A row goes to a later place and leaves zeros.
fn moved(mut image: Vec<u8>, from: usize, to: usize, width: usize) -> Vec<u8> {
    image.copy_within(from..from + width, to);
    image[from..from + width].fill(0);
    image
}

fn generator_gap(random: &mut Random, world: &World) -> Option<Vec<u8>> {
    let (relay, place) = some_generator(random, world)?;
    let taken = world.relays[relay].generators.len();
    let to = (taken < 8).then(|| taken + random.below(8 - taken))?;
    let at = |place| generator_at(relay, place);
    Some(moved(encode(world), at(place), at(to), GENERATOR)).filter(|_| to > place)
}

fn transfer_gap(random: &mut Random, world: &World) -> Option<Vec<u8>> {
    let (relay, place) = some_transfer(random, world)?;
    let taken = world.relays[relay].transfers.len();
    let to = (taken < 8).then(|| taken + random.below(8 - taken))?;
    let at = |place| transfer_at(relay, place);
    Some(moved(encode(world), at(place), at(to), TRANSFER))
}

/// A generator that another relay could have.
fn generator_of_no_member(random: &mut Random, world: &World) -> Option<Vec<u8>> {
    let (relay, place) = some_generator(random, world)?;
    let generator = world.relays[relay].generators[place].clone();
    let stranger = |relay: usize| {
        let has_room = world.relays[relay].generators.len() < 8;
        has_room && !generator.view.has_member(relay as u8)
    };
    let stranger = relay_with(random, world, stranger)?;
    changed(world, |world| {
        world.relays[stranger].generators.push(generator);
        Some(())
    })
}

fn transfer_of_no_member(random: &mut Random, world: &World) -> Option<Vec<u8>> {
    let (relay, place) = some_transfer(random, world)?;
    let transfer = world.relays[relay].transfers[place].clone();
    let stranger = |relay: usize| {
        let has_room = world.relays[relay].transfers.len() < 8;
        has_room && !transfer.new.has_member(relay as u8)
    };
    let stranger = relay_with(random, world, stranger)?;
    changed(world, |world| {
        world.relays[stranger].transfers.push(transfer);
        Some(())
    })
}

/// The converged one is still a sequence for the view.
fn converged_not_in_own(random: &mut Random, world: &World) -> Option<Vec<u8>> {
    let (relay, place) = some_generator(random, world)?;
    changed(world, |world| {
        let generator = Rc::make_mut(&mut world.relays[relay].generators[place]);
        let most = generator.own.most().unwrap_or(generator.view);
        let wider = most.union(View(1 << random.below(16)));
        generator.converged = generator.converged.plus(wider);
        most.inside(wider).then_some(())
    })
}

fn note_of_no_member(random: &mut Random, world: &World) -> Option<Vec<u8>> {
    let (relay, place) = some_generator(random, world)?;
    changed(world, |world| {
        let generator = Rc::make_mut(&mut world.relays[relay].generators[place]);
        let from = random.below(8);
        let wider = generator.view.union(View(1 << random.below(16)));
        let named = generator.view.inside(wider) && !generator.view.has_member(from as u8);
        let notes = match random.below(2) {
            0 => &mut generator.proposals,
            _ => &mut generator.convergences,
        };
        notes[from] = Sequence::of([wider]);
        named.then_some(())
    })
}

fn old_without_members(random: &mut Random, world: &World) -> Option<Vec<u8>> {
    let (relay, place) = some_transfer(random, world)?;
    changed(world, |world| {
        let transfer = Rc::make_mut(&mut world.relays[relay].transfers[place]);
        transfer.old = View(transfer.new.0 & 0xff00);
        transfer.senders.clear();
        transfer.old.inside(transfer.new).then_some(())
    })
}

fn old_not_inside(random: &mut Random, world: &World) -> Option<Vec<u8>> {
    let (relay, place) = some_transfer(random, world)?;
    changed(world, |world| {
        let transfer = Rc::make_mut(&mut world.relays[relay].transfers[place]);
        let other = View(1 << random.below(8) | 1 << random.below(8));
        transfer.old = [transfer.new, other][random.below(2)];
        transfer.senders.clear();
        transfer.install = Sequence::default();
        (!transfer.old.inside(transfer.new)).then_some(())
    })
}

fn sender_not_of_old(random: &mut Random, world: &World) -> Option<Vec<u8>> {
    let (relay, place) = some_transfer(random, world)?;
    changed(world, |world| {
        let transfer = Rc::make_mut(&mut world.relays[relay].transfers[place]);
        let from = random.below(8) as u8;
        transfer.senders.insert(from);
        (!transfer.old.has_member(from)).then_some(())
    })
}

/// "A desk's fields that its phase does not use are zero" (docs/DECISIONS.md, 26).
fn desk_unused(random: &mut Random, world: &World) -> Option<Vec<u8>> {
    changed(world, |world| {
        let number = random.below(4) as u8;
        let desk = &mut world.desks[usize::from(number)];
        let mut fresh = Desk::start(number, desk.view);
        fresh.try_number = desk.try_number;
        fresh.phase = Phase::ALL[random.below(5)];
        *desk = fresh;
        let second = matches!(desk.phase, Phase::Read2 | Phase::Write2);
        let first = desk.view.members().next()?;
        match random.below(6) {
            0 if matches!(desk.phase, Phase::Idle | Phase::Read1) => desk.value = 7,
            1 if !second => desk.stamp = rec(1, 2, 0).stamp,
            2 if desk.phase == Phase::Idle => desk.replied.extend([first]),
            3 => desk.best.value = 7,
            4 => desk.best.stamp.count = 7,
            5 => desk.agreed = true,
            _ => return None,
        }
        if second && random.below(2) == 0 {
            desk.replied.insert(first);
        }
        Some(())
    })
}

fn desk_reply(random: &mut Random, world: &World) -> Option<Vec<u8>> {
    changed(world, |world| {
        let desk = &mut world.desks[random.below(4)];
        let from = random.below(8) as u8;
        desk.replied.insert(from);
        (desk.phase != Phase::Idle && !desk.view.has_member(from)).then_some(())
    })
}

/// The message in a place of one of these kinds is changed.
fn message(
    random: &mut Random,
    world: &World,
    kinds: &[u8],
    change: impl FnOnce(&mut Random, &mut Message) -> Option<()>,
) -> Option<Vec<u8>> {
    let place = some_message(random, &encode(world), kinds)?;
    changed(world, |world| change(random, world.places[place].as_mut()?))
}

fn request_update(random: &mut Random, world: &World) -> Option<Vec<u8>> {
    message(random, world, &[1], |random, message| {
        let Body::Request { update, .. } = &mut message.body else {
            return None;
        };
        let before = *update;
        let others = (before.0 | before.0 << 8 | before.0 >> 8) ^ 0xffff;
        *update = match random.below(3) {
            0 => View::EMPTY,
            1 => before.union(View(others & 1 << random.below(16))),
            _ => View(others & 1 << random.below(16)),
        };
        (*update != before).then_some(())
    })
}

/// +s is in the view asked, or the leaver has left it.
fn request_held(random: &mut Random, world: &World) -> Option<Vec<u8>> {
    message(random, world, &[1], |_, message| {
        let to = message.to;
        let Body::Request { update, view } = &mut message.body else {
            return None;
        };
        *view = view.union(*update);
        let receiver = |relay| to == second::message::Party::Relay(relay);
        view.members().any(receiver).then_some(())
    })
}

fn put(world: &World, message: Message) -> Option<Vec<u8>> {
    changed(world, |world| {
        let room = world.free() > 0;
        room.then(|| {
            world.place(message);
        })
    })
}

fn view_zero(random: &mut Random, world: &World) -> Option<Vec<u8>> {
    let (from, to) = (random.below(8) as u8, random.below(8) as u8);
    put(
        world,
        from_relay(from, to, Body::View { view: View::EMPTY }),
    )
}

fn to_no_member(random: &mut Random, world: &World) -> Option<Vec<u8>> {
    let view = View(u16::from(random.byte()));
    let (from, to) = (random.below(8) as u8, random.below(8) as u8);
    let try_number = 1;
    let wider = view.union(View(0x8000));
    let sequence = Sequence::of([wider]);
    let said = match random.below(6) {
        0 => from_desk(0, to, Body::Get { try_number, view }),
        1 => from_desk(
            0,
            to,
            Body::Put {
                try_number,
                view,
                record: rec(1, 1, 1),
            },
        ),
        2 => from_relay(from, to, Body::Proposal { view, sequence }),
        3 => from_relay(from, to, Body::Converged { view, sequence }),
        4 => {
            let update = View::leave(from);
            from_relay(from, to, Body::Request { update, view })
        }
        _ => from_relay(
            from,
            to,
            Body::Install {
                old: view,
                new: wider,
                sequence,
            },
        ),
    };
    (!view.has_member(to)).then_some(())?;
    put(world, said)
}

/// An install or a state whose old view is the new one, or not inside it.
fn pair_not_nested(random: &mut Random, world: &World) -> Option<Vec<u8>> {
    message(random, world, &[5, 6], |random, message| {
        let (Body::Install { old, new, .. } | Body::State { old, new, .. }) = &mut message.body
        else {
            return None;
        };
        match random.below(2) {
            0 => *old = *new,
            _ => *old = old.union(View(1 << random.below(16))),
        }
        (!old.inside(*new)).then_some(())
    })
}
