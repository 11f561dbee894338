//! The record of a run with, below each step, the messages that it sent and the places
//! in which they wait: for those who write a sheet and have to name places.

use crate::message::{Body, Message, Party};
use crate::record;
use crate::sets::{Sequence, View, RELAYS};
use crate::stamp::Record;
use crate::world::World;

fn party(who: Party) -> String {
    match who {
        Party::Relay(number) => format!("relay {number}"),
        Party::Desk(number) => format!("desk {number}"),
    }
}

fn views(sequence: &Sequence) -> String {
    let numbers: Vec<String> = sequence.views().map(|view| view.0.to_string()).collect();
    format!("{{{}}}", numbers.join(","))
}

fn updates(updates: View) -> String {
    let joins = (0..RELAYS).filter(|&s| updates.holds(View::join(s)));
    let leaves = (0..RELAYS).filter(|&s| updates.holds(View::leave(s)));
    let words: Vec<String> = joins
        .map(|s| format!("+{s}"))
        .chain(leaves.map(|s| format!("-{s}")))
        .collect();
    words.join(" ")
}

fn held(record: Record) -> String {
    let (count, desk) = (record.stamp.count, record.stamp.desk);
    format!("stamp ({count},{desk}) value {}", record.value)
}

fn body(body: &Body) -> String {
    match body {
        Body::Request { update, view } => format!("request {}, view {}", updates(*update), view.0),
        Body::View { view } => format!("view {}", view.0),
        Body::Proposal { view, sequence } => {
            format!("proposal {}, view {}", views(sequence), view.0)
        }
        Body::Converged { view, sequence } => {
            format!("convergence {}, view {}", views(sequence), view.0)
        }
        Body::Install { old, new, sequence } => {
            format!("install {}, view {} to {}", views(sequence), old.0, new.0)
        }
        Body::State {
            old, new, record, ..
        } => format!("state {}, view {} to {}", held(*record), old.0, new.0),
        Body::Get { try_number, view } => format!("Get, view {}, try {try_number}", view.0),
        Body::Put {
            try_number,
            view,
            record,
        } => format!("Put {}, view {}, try {try_number}", held(*record), view.0),
        Body::ViewReply { try_number, view } => {
            format!("answer: view {}, try {try_number}", view.0)
        }
        Body::GetReply { try_number, record } => {
            format!("answer: {}, try {try_number}", held(*record))
        }
        Body::Acknowledgement { try_number } => format!("acknowledgement, try {try_number}"),
    }
}

fn line(place: usize, message: &Message) -> String {
    let (from, to) = (party(message.from), party(message.to));
    format!(
        "    place {place}: {from} to {to}: {}\n",
        body(&message.body)
    )
}

fn sent(world: &World, placed: &[usize]) -> String {
    let waiting = |&place: &usize| {
        world.places[place]
            .as_ref()
            .map(|message| line(place, message))
    };
    placed.iter().filter_map(waiting).collect()
}

pub fn told(bytes: &[u8]) -> String {
    record::rehearse_with(bytes, |world, report| sent(world, &report.placed)).0
}
