//! Good worlds: "Every accepted step from a good world gives a good one." The
//! program never asks this of its own worlds; the tests do, after each step.

use crate::desk::{Desk, Phase};
use crate::generator::Generator;
use crate::image;
use crate::message::{Body, Message, Party};
use crate::relay::Relay;
use crate::sets::{Sequence, View};
use crate::stamp::{Record, Stamp};
use crate::transfer::Transfer;
use crate::world::{World, DESKS, GENERATORS, PLACES, TRANSFERS};

pub fn is_good(world: &World) -> bool {
    world.relays.len() == 8
        && world.desks.len() == usize::from(DESKS)
        && world.places.len() == PLACES
        && world.relays.iter().all(relay)
        && world.desks.iter().all(desk)
        && world.places.iter().flatten().all(message)
}

/// The world whose image these bytes are, if they are a good world's. What the
/// types here can't hold is no world; what they would lose (unused room that is not
/// zero, a gap before a filled place, a sequence out of order) shows in the image.
pub fn good_world(bytes: &[u8]) -> Option<World> {
    let world = image::decode(bytes)?;
    (is_good(&world) && image::encode(&world) == bytes).then_some(world)
}

fn stamp(stamp: Stamp) -> bool {
    stamp.desk < DESKS
}

fn relay(relay: &Relay) -> bool {
    let member = relay.view.has_member(relay.number);
    let generators = &relay.generators;
    let transfers = &relay.transfers;
    let pair = |index: usize| (transfers[index].old, transfers[index].new);
    (!relay.active || (relay.entered && member))
        && relay.entered == (relay.view != View::EMPTY)
        && stamp(relay.record.stamp)
        && generators.len() <= GENERATORS
        && transfers.len() <= TRANSFERS
        && generators
            .iter()
            .all(|g| g.view.has_member(relay.number) && generator(g))
        && transfers
            .iter()
            .all(|t| t.new.has_member(relay.number) && transfer(t))
        && differ(generators.len(), |a, b| {
            generators[a].view != generators[b].view
        })
        && differ(transfers.len(), |a, b| pair(a) != pair(b))
}

fn differ(length: usize, differ: impl Fn(usize, usize) -> bool) -> bool {
    (0..length).all(|a| (0..a).all(|b| differ(a, b)))
}

/// "the converged sequence is contained in the own one"; "notes come from members only"
fn generator(generator: &Generator) -> bool {
    let view = generator.view;
    let notes = |notes: &[Sequence; 8]| {
        (0..8u8).zip(notes).all(|(from, note)| {
            note.is_kept_for(view) && (note.is_empty() || view.has_member(from))
        })
    };
    generator.own.contains(&generator.converged)
        && generator.own.is_kept_for(view)
        && generator.raised.is_kept_for(view)
        && notes(&generator.proposals)
        && notes(&generator.convergences)
}

/// "old views have members and are inside new ones (in install and state messages too)"
fn pair(old: View, new: View) -> bool {
    old.members().count() > 0 && old.inside(new)
}

fn install(old: View, new: View, sequence: &Sequence) -> bool {
    sequence.is_kept_for(old) && sequence.least() == Some(new)
}

fn transfer(transfer: &Transfer) -> bool {
    let Transfer { old, new, .. } = *transfer;
    pair(old, new)
        && (!transfer.has_install() || install(old, new, &transfer.install))
        && transfer.senders.iter().all(|&from| old.has_member(from))
        && stamp(transfer.best.stamp)
}

/// "A desk's fields that its phase does not use are zero" (docs/DECISIONS.md, 26).
fn desk(desk: &Desk) -> bool {
    let idle = desk.phase == Phase::Idle;
    let second = matches!(desk.phase, Phase::Read2 | Phase::Write2);
    let valued = second || desk.phase == Phase::Write1;
    let bestless = idle || second || desk.replied.is_empty();
    stamp(desk.stamp)
        && stamp(desk.best.stamp)
        && desk.replied.iter().all(|&from| desk.view.has_member(from))
        && (valued || desk.value == 0)
        && (second || desk.stamp == Stamp::default())
        && (!idle || desk.replied.is_empty())
        && (!bestless || (desk.best == Record::default() && !desk.agreed))
}

fn message(message: &Message) -> bool {
    match (message.from, message.to) {
        (Party::Relay(from), Party::Relay(to)) => between_relays(from, to, &message.body),
        (Party::Desk(_), Party::Relay(to)) => match message.body {
            Body::Get { view, .. } => view.has_member(to),
            Body::Put { view, record, .. } => view.has_member(to) && stamp(record.stamp),
            _ => false,
        },
        (Party::Relay(_), Party::Desk(_)) => match message.body {
            Body::GetReply { record, .. } => stamp(record.stamp),
            Body::ViewReply { .. } | Body::Acknowledgement { .. } => true,
            _ => false,
        },
        (Party::Desk(_), Party::Desk(_)) => false,
    }
}

/// "each message's sender and receiver are ones that its rule could name"
fn between_relays(from: u8, to: u8, body: &Body) -> bool {
    match body {
        &Body::Request { update, view } => {
            let joins = update == View::join(from) && !view.holds(update);
            let leaves = update == View::leave(from) && view.has_member(from);
            view.has_member(to) && (joins || leaves)
        }
        Body::View { view } => *view != View::EMPTY,
        Body::Proposal { view, sequence } | Body::Converged { view, sequence } => {
            let members = view.has_member(from) && view.has_member(to);
            members && !sequence.is_empty() && sequence.is_kept_for(*view)
        }
        Body::Install { old, new, sequence } => {
            let to_member = old.has_member(to) || new.has_member(to);
            old.has_member(from) && to_member && pair(*old, *new) && install(*old, *new, sequence)
        }
        &Body::State {
            old, new, record, ..
        } => {
            let members = old.has_member(from) && new.has_member(to);
            members && pair(old, new) && stamp(record.stamp)
        }
        _ => false,
    }
}
