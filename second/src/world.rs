//! The world: relays, desks and the places of the messages.

use crate::desk::Desk;
use crate::message::Message;
use crate::relay::Relay;
use crate::sets::{View, RELAYS};

pub const DESKS: u8 = 4;
pub const PLACES: usize = 256;
pub const GENERATORS: usize = 8;
pub const TRANSFERS: usize = 8;

#[derive(Clone, PartialEq, Eq, Debug)]
pub struct World {
    pub relays: Vec<Relay>,
    pub desks: Vec<Desk>,
    pub places: Vec<Option<Message>>,
}

impl World {
    /// "All relays and desks know the view of those joins; its relays are entered
    /// and active, the others have view 0 and aren't." Mask 0 is no start.
    pub fn start(mask: u8) -> Option<World> {
        if mask == 0 {
            return None;
        }
        let view = View::of_joins(mask);
        Some(World {
            relays: (0..RELAYS)
                .map(|number| Relay::start(number, view))
                .collect(),
            desks: (0..DESKS).map(|number| Desk::start(number, view)).collect(),
            places: vec![None; PLACES],
        })
    }

    pub fn waiting(&self) -> usize {
        self.places.iter().flatten().count()
    }

    pub fn free(&self) -> usize {
        PLACES - self.waiting()
    }

    /// "A new message takes the lowest free place."
    pub fn place(&mut self, message: Message) -> usize {
        let lowest = self.places.iter().position(Option::is_none);
        let place = lowest.expect("room was counted before anything is sent");
        self.places[place] = Some(message);
        place
    }
}
