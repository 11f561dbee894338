//! From bytes to the world that they would be the image of. Whether they are its
//! image is not asked here: `good` makes the image again and compares.

use super::{desk_at, generator_at, head_at, message_at, transfer_at, MOST_VIEWS, SIZE};
use crate::desk::{Desk, Phase};
use crate::generator::Generator;
use crate::message::{Body, Message, Party};
use crate::relay::Relay;
use crate::sets::{Sequence, View, RELAYS};
use crate::stamp::{Record, Stamp};
use crate::transfer::Transfer;
use crate::world::{World, DESKS, GENERATORS, PLACES, TRANSFERS};
use std::collections::BTreeSet;
use std::rc::Rc;

/// None where the length is wrong, or a field holds what this program's types can't:
/// a flag above 1, a phase above 4, a kind above 11, nobody's number, over 15 views.
pub fn decode(bytes: &[u8]) -> Option<World> {
    if bytes.len() != SIZE {
        return None;
    }
    let at = |at: usize| Fields { rest: &bytes[at..] };
    let relays = (0..RELAYS).map(|number| relay(bytes, number));
    let desks = (0..DESKS).map(|number| desk(number, at(desk_at(usize::from(number)))));
    let places = (0..PLACES).map(|place| message(at(message_at(place))));
    Some(World {
        relays: relays.collect::<Option<_>>()?,
        desks: desks.collect::<Option<_>>()?,
        places: places.collect::<Option<_>>()?,
    })
}

struct Fields<'a> {
    rest: &'a [u8],
}

impl<'a> Fields<'a> {
    fn take(&mut self, length: usize) -> &'a [u8] {
        let (field, rest) = self.rest.split_at(length);
        self.rest = rest;
        field
    }

    fn byte(&mut self) -> u8 {
        self.take(1)[0]
    }

    fn flag(&mut self) -> Option<bool> {
        match self.byte() {
            0 => Some(false),
            1 => Some(true),
            _ => None,
        }
    }

    fn number(&mut self) -> u16 {
        let high = u16::from(self.byte());
        high << 8 | u16::from(self.byte())
    }

    fn view(&mut self) -> View {
        View(self.number())
    }

    fn relays(&mut self) -> BTreeSet<u8> {
        let mask = self.byte();
        (0..RELAYS).filter(|relay| mask >> relay & 1 == 1).collect()
    }

    fn record(&mut self) -> Record {
        let count = self.number();
        let desk = self.byte();
        let high = u32::from(self.number());
        Record::new(
            Stamp::new(count, desk),
            high << 16 | u32::from(self.number()),
        )
    }

    fn sequence(&mut self) -> Option<Sequence> {
        let views: Vec<View> = (0..MOST_VIEWS).map(|_| self.view()).collect();
        let length = usize::from(self.byte());
        views
            .get(..length)
            .map(|views| Sequence::of(views.iter().copied()))
    }

    fn notes(&mut self) -> Option<[Sequence; 8]> {
        let notes: Option<Vec<Sequence>> = (0..8).map(|_| self.sequence()).collect();
        notes?.try_into().ok()
    }

    fn party(&mut self) -> Option<Party> {
        match self.byte() {
            relay @ 0..=7 => Some(Party::Relay(relay)),
            other @ 8..=11 => Some(Party::Desk(other - 8)),
            _ => None,
        }
    }
}

fn relay(bytes: &[u8], number: u8) -> Option<Relay> {
    let index = usize::from(number);
    let mut head = Fields {
        rest: &bytes[head_at(index)..],
    };
    let (alive, entered, active) = (head.flag()?, head.flag()?, head.flag()?);
    let (view, known, pending) = (head.view(), head.view(), head.view());
    let record = head.record();
    let mut generators = Vec::new();
    for place in 0..GENERATORS {
        let row = generator(Fields {
            rest: &bytes[generator_at(index, place)..],
        })?;
        if row.view == View::EMPTY {
            break;
        }
        generators.push(Rc::new(row));
    }
    let mut transfers = Vec::new();
    for place in 0..TRANSFERS {
        let row = transfer(Fields {
            rest: &bytes[transfer_at(index, place)..],
        })?;
        if row.new == View::EMPTY {
            break;
        }
        transfers.push(Rc::new(row));
    }
    Some(Relay {
        number,
        alive,
        view,
        entered,
        active,
        known,
        pending,
        record,
        generators,
        transfers,
    })
}

fn generator(mut row: Fields<'_>) -> Option<Generator> {
    Some(Generator {
        view: row.view(),
        own: row.sequence()?,
        converged: row.sequence()?,
        raised: row.sequence()?,
        proposals: row.notes()?,
        convergences: row.notes()?,
    })
}

fn transfer(mut row: Fields<'_>) -> Option<Transfer> {
    Some(Transfer {
        old: row.view(),
        new: row.view(),
        install: row.sequence()?,
        senders: row.relays(),
        best: row.record(),
        gathered: row.view(),
    })
}

fn desk(number: u8, mut row: Fields<'_>) -> Option<Desk> {
    let alive = row.flag()?;
    let phase = *Phase::ALL.get(usize::from(row.byte()))?;
    let (view, try_number) = (row.view(), row.number());
    let Record { stamp, value } = row.record();
    let (replied, best, agreed) = (row.relays(), row.record(), row.flag()?);
    Some(Desk {
        number,
        alive,
        view,
        phase,
        try_number,
        value,
        stamp,
        replied,
        best,
        agreed,
    })
}

/// The outer None is a row of no kind; the inner one is a free place.
fn message(mut row: Fields<'_>) -> Option<Option<Message>> {
    let kind = row.byte();
    if kind == 0 {
        return Some(None);
    }
    let (from, to) = (row.party()?, row.party()?);
    let (first, second, try_number) = (row.view(), row.view(), row.number());
    let (sequence, record, updates) = (row.sequence()?, row.record(), row.view());
    let body = match kind {
        1 => Body::Request {
            update: updates,
            view: first,
        },
        2 => Body::View { view: first },
        3 => Body::Proposal {
            view: first,
            sequence,
        },
        4 => Body::Converged {
            view: first,
            sequence,
        },
        5 => Body::Install {
            old: first,
            new: second,
            sequence,
        },
        6 => Body::State {
            old: first,
            new: second,
            record,
            pending: updates,
        },
        7 => Body::Get {
            try_number,
            view: first,
        },
        8 => Body::Put {
            try_number,
            view: first,
            record,
        },
        9 => Body::ViewReply {
            try_number,
            view: first,
        },
        10 => Body::GetReply { try_number, record },
        11 => Body::Acknowledgement { try_number },
        _ => return None,
    };
    Some(Some(Message { from, to, body }))
}
