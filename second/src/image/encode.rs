//! From a world to its bytes.

use super::{desk_at, generator_at, head_at, message_at, transfer_at, MOST_VIEWS, SIZE};
use crate::desk::{Desk, Phase};
use crate::generator::Generator;
use crate::message::{Body, Message, Party};
use crate::relay::Relay;
use crate::sets::{Sequence, View};
use crate::stamp::Record;
use crate::transfer::Transfer;
use crate::world::World;

pub fn encode(world: &World) -> Vec<u8> {
    let mut bytes = vec![0; SIZE];
    encode_into(world, &mut bytes);
    bytes
}

/// A world of more rows, or of longer sequences, than the layout has room for is no
/// world of this program.
pub fn encode_into(world: &World, bytes: &mut [u8]) {
    assert_eq!(bytes.len(), SIZE);
    bytes.fill(0);
    for (number, relay) in world.relays.iter().enumerate() {
        head(relay, &mut Row::at(bytes, head_at(number)));
        assert!(relay.generators.len() <= 8 && relay.transfers.len() <= 8);
        for (place, of) in relay.generators.iter().enumerate() {
            generator(of, &mut Row::at(bytes, generator_at(number, place)));
        }
        for (place, of) in relay.transfers.iter().enumerate() {
            transfer(of, &mut Row::at(bytes, transfer_at(number, place)));
        }
    }
    for (number, of) in world.desks.iter().enumerate() {
        desk(of, &mut Row::at(bytes, desk_at(number)));
    }
    for (place, waiting) in world.places.iter().enumerate() {
        if let Some(of) = waiting {
            message(of, &mut Row::at(bytes, message_at(place)));
        }
    }
}

/// Fields are written one after the other; what a row leaves out stays zero.
struct Row<'a> {
    bytes: &'a mut [u8],
    at: usize,
}

impl Row<'_> {
    fn at(bytes: &mut [u8], at: usize) -> Row<'_> {
        Row { bytes, at }
    }

    fn put(&mut self, field: &[u8]) {
        self.bytes[self.at..self.at + field.len()].copy_from_slice(field);
        self.at += field.len();
    }

    fn byte(&mut self, byte: u8) {
        self.put(&[byte]);
    }

    fn flag(&mut self, flag: bool) {
        self.byte(u8::from(flag));
    }

    fn number(&mut self, number: u16) {
        self.put(&number.to_be_bytes());
    }

    fn view(&mut self, view: View) {
        self.number(view.0);
    }

    fn relays(&mut self, relays: impl IntoIterator<Item = u8>) {
        self.byte(relays.into_iter().fold(0, |mask, relay| mask | 1 << relay));
    }

    fn record(&mut self, record: Record) {
        self.number(record.stamp.count);
        self.byte(record.stamp.desk);
        self.put(&record.value.to_be_bytes());
    }

    fn sequence(&mut self, sequence: &Sequence) {
        assert!(sequence.len() <= MOST_VIEWS);
        let end = self.at + 2 * MOST_VIEWS;
        sequence.views().for_each(|view| self.view(view));
        self.at = end;
        self.byte(sequence.len() as u8);
    }
}

fn head(relay: &Relay, row: &mut Row<'_>) {
    row.flag(relay.alive);
    row.flag(relay.entered);
    row.flag(relay.active);
    row.view(relay.view);
    row.view(relay.known);
    row.view(relay.pending);
    row.record(relay.record);
}

fn generator(generator: &Generator, row: &mut Row<'_>) {
    row.view(generator.view);
    row.sequence(&generator.own);
    row.sequence(&generator.converged);
    row.sequence(&generator.raised);
    let notes = generator.proposals.iter().chain(&generator.convergences);
    notes.for_each(|note| row.sequence(note));
}

fn transfer(transfer: &Transfer, row: &mut Row<'_>) {
    row.view(transfer.old);
    row.view(transfer.new);
    row.sequence(&transfer.install);
    row.relays(transfer.senders.iter().copied());
    row.record(transfer.best);
    row.view(transfer.gathered);
}

fn desk(desk: &Desk, row: &mut Row<'_>) {
    row.flag(desk.alive);
    row.byte(match desk.phase {
        Phase::Idle => 0,
        Phase::Read1 => 1,
        Phase::Read2 => 2,
        Phase::Write1 => 3,
        Phase::Write2 => 4,
    });
    row.view(desk.view);
    row.number(desk.try_number);
    row.record(Record::new(desk.stamp, desk.value));
    row.relays(desk.replied.iter().copied());
    row.record(desk.best);
    row.flag(desk.agreed);
}

/// Every field that some kind has; one that this kind does not have stays zero.
#[derive(Default)]
struct Said<'a> {
    kind: u8,
    first: View,
    second: View,
    try_number: u16,
    sequence: Option<&'a Sequence>,
    record: Record,
    updates: View,
}

fn said(body: &Body) -> Said<'_> {
    let none = Said::default();
    match body {
        &Body::Request { update, view } => Said {
            kind: 1,
            first: view,
            updates: update,
            ..none
        },
        &Body::View { view } => Said {
            kind: 2,
            first: view,
            ..none
        },
        Body::Proposal { view, sequence } => Said {
            kind: 3,
            first: *view,
            sequence: Some(sequence),
            ..none
        },
        Body::Converged { view, sequence } => Said {
            kind: 4,
            first: *view,
            sequence: Some(sequence),
            ..none
        },
        Body::Install { old, new, sequence } => Said {
            kind: 5,
            first: *old,
            second: *new,
            sequence: Some(sequence),
            ..none
        },
        &Body::State {
            old,
            new,
            record,
            pending,
        } => Said {
            kind: 6,
            first: old,
            second: new,
            record,
            updates: pending,
            ..none
        },
        &Body::Get { try_number, view } => Said {
            kind: 7,
            first: view,
            try_number,
            ..none
        },
        &Body::Put {
            try_number,
            view,
            record,
        } => Said {
            kind: 8,
            first: view,
            try_number,
            record,
            ..none
        },
        &Body::ViewReply { try_number, view } => Said {
            kind: 9,
            first: view,
            try_number,
            ..none
        },
        &Body::GetReply { try_number, record } => Said {
            kind: 10,
            try_number,
            record,
            ..none
        },
        &Body::Acknowledgement { try_number } => Said {
            kind: 11,
            try_number,
            ..none
        },
    }
}

fn party(party: Party) -> u8 {
    match party {
        Party::Relay(number) => number,
        Party::Desk(number) => 8 + number,
    }
}

fn message(message: &Message, row: &mut Row<'_>) {
    let said = said(&message.body);
    row.byte(said.kind);
    row.byte(party(message.from));
    row.byte(party(message.to));
    row.view(said.first);
    row.view(said.second);
    row.number(said.try_number);
    row.sequence(said.sequence.unwrap_or(&Sequence::default()));
    row.record(said.record);
    row.view(said.updates);
}
