//! What a step would do, gathered before anything of the world changes: "All but
//! 0 ... change nothing."

use crate::desk::Desk;
use crate::message::{Body, Message, Party};
use crate::relay::Relay;
use crate::rules::Rule;
use crate::sets::View;
use crate::stamp::Stamp;

#[derive(Clone, Copy, PartialEq, Eq, Debug, Default)]
pub enum Event {
    #[default]
    None,
    Opened {
        relay: u8,
        view: View,
    },
    ReadEnded {
        desk: u8,
        stamp: Stamp,
        value: u32,
    },
    WriteEnded {
        desk: u8,
        stamp: Stamp,
        value: u32,
    },
}

impl Event {
    pub fn number(self) -> u8 {
        match self {
            Event::None => 0,
            Event::Opened { .. } => 1,
            Event::ReadEnded { .. } => 2,
            Event::WriteEnded { .. } => 3,
        }
    }
}

#[derive(Clone, Debug, Default)]
pub struct Plan {
    pub freed: Option<u8>,
    pub delivers: bool,
    pub relay: Option<Relay>,
    pub desk: Option<Desk>,
    pub sends: Vec<Message>,
    pub generators_taken: usize,
    pub transfers_taken: usize,
    pub event: Event,
    pub rules: Vec<Rule>,
}

impl Plan {
    pub fn met(&mut self, rule: Rule) {
        self.rules.push(rule);
    }

    pub fn send(&mut self, from: Party, to: Party, body: Body) {
        self.sends.push(Message { from, to, body });
    }

    /// "one step's sendings go in the order in which the rules name them, each to
    /// its receivers in ascending order."
    pub fn send_to_relays(&mut self, from: Party, to: impl Iterator<Item = u8>, body: &Body) {
        for relay in to {
            self.send(from, Party::Relay(relay), body.clone());
        }
    }
}
