//! Worlds and messages made by hand, for tests of what no sheet comes to.

use crate::message::{Body, Message, Party};
use crate::sets::{Sequence, View};
use crate::stamp::{Record, Stamp};
use crate::step::{step, Report, Step, DELIVER};
use crate::world::World;

pub fn start(mask: u8) -> World {
    World::start(mask).expect("a mask above 0")
}

pub fn seq(numbers: &[u16]) -> Sequence {
    Sequence::numbers(numbers)
}

pub fn rec(count: u16, desk: u8, value: u32) -> Record {
    Record::new(Stamp::new(count, desk), value)
}

pub fn from_relay(from: u8, to: u8, body: Body) -> Message {
    Message {
        from: Party::Relay(from),
        to: Party::Relay(to),
        body,
    }
}

pub fn from_desk(desk: u8, to: u8, body: Body) -> Message {
    Message {
        from: Party::Desk(desk),
        to: Party::Relay(to),
        body,
    }
}

pub fn reply(from: u8, desk: u8, body: Body) -> Message {
    Message {
        from: Party::Relay(from),
        to: Party::Desk(desk),
        body,
    }
}

pub fn proposal(view: u16, q: &[u16]) -> Body {
    Body::Proposal {
        view: View(view),
        sequence: seq(q),
    }
}

pub fn converged(view: u16, q: &[u16]) -> Body {
    Body::Converged {
        view: View(view),
        sequence: seq(q),
    }
}

pub fn install(old: u16, q: &[u16]) -> Body {
    let sequence = seq(q);
    Body::Install {
        old: View(old),
        new: sequence.least().expect("not empty"),
        sequence,
    }
}

pub fn state(old: u16, new: u16, record: Record, pending: u16) -> Body {
    Body::State {
        old: View(old),
        new: View(new),
        record,
        pending: View(pending),
    }
}

/// Delivers a message that no step sent.
pub fn hand_in(world: &mut World, message: Message) -> Report {
    let place = world.place(message);
    step(world, Step::new(DELIVER, place as u8))
}

/// Fills the places with messages that change nothing, but for so many.
pub fn fill_places(world: &mut World, free: usize) {
    let filler = from_relay(0, 0, Body::View { view: View(1) });
    while world.free() > free {
        world.place(filler.clone());
    }
}
