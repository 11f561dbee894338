//! "One lent buffer of exactly 65,536 bytes. One state has one image: unused room
//! is zero." Written from the text of the layout alone; numbers are high byte first.
//!
//! - relay (5,440): a head of 64, 8 generators, 8 transfers
//! - head: alive 1, entered 1, active 1, view 2, known 2, pending 2, record 7
//! - generator (592): view 2, own, converged, raised, 8 proposals, 8 convergences
//! - transfer (80): old view 2, new view 2, sequence, senders 1, best 7, gathered 2
//! - desk (64): alive 1, phase 1, view 2, try 2, record 7, replied 1, best 7, agreed 1
//! - message (80): kind 1, sender 1, receiver 1, two views of 2, try 2, sequence,
//!   record 7, updates 2; kind 0 is a free place, senders and receivers are 0..7
//!   relays and 8..11 desks
//! - sequence (31): 15 views of 2, how many 1
//! - record (7): stamp count 2, stamp desk 1, value 4
//!
//! 8 relays, 4 desks, 256 messages, zeros. What a row does not name is zero at its end.

mod decode;
mod encode;
mod name;

pub use decode::decode;
pub use encode::{encode, encode_into};
pub use name::name;

pub const SIZE: usize = 65_536;
pub const HEAD: usize = 64;
pub const GENERATOR: usize = 592;
pub const TRANSFER: usize = 80;
pub const DESK: usize = 64;
pub const MESSAGE: usize = 80;
pub const SEQUENCE: usize = 31;
pub const MOST_VIEWS: usize = 15;

pub const GENERATORS_AT: usize = HEAD;
pub const TRANSFERS_AT: usize = GENERATORS_AT + 8 * GENERATOR;
pub const RELAY: usize = TRANSFERS_AT + 8 * TRANSFER;
pub const DESKS_AT: usize = 8 * RELAY;
pub const MESSAGES_AT: usize = DESKS_AT + 4 * DESK;
pub const TAIL_AT: usize = MESSAGES_AT + 256 * MESSAGE;

pub fn head_at(relay: usize) -> usize {
    relay * RELAY
}

pub fn generator_at(relay: usize, place: usize) -> usize {
    relay * RELAY + GENERATORS_AT + place * GENERATOR
}

pub fn transfer_at(relay: usize, place: usize) -> usize {
    relay * RELAY + TRANSFERS_AT + place * TRANSFER
}

pub fn desk_at(desk: usize) -> usize {
    DESKS_AT + desk * DESK
}

pub fn message_at(place: usize) -> usize {
    MESSAGES_AT + place * MESSAGE
}
