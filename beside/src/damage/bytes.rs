//! Bytes changed where they stand.

use super::{bad, either, relay_with, some_generator, some_message, some_transfer, Class};
use second::generate::Random;
use second::image::{
    desk_at, encode, generator_at, head_at, message_at, transfer_at, DESK, GENERATOR, HEAD,
    MESSAGE, SEQUENCE, SIZE, TAIL_AT, TRANSFER,
};
use second::world::World;
use std::ops::Range;

const NOTES: usize = 2 + 3 * SEQUENCE;
const GENERATOR_USED: usize = NOTES + 16 * SEQUENCE;
const HEAD_USED: usize = 16;
const TRANSFER_USED: usize = 45;
const DESK_USED: usize = 22;
const MESSAGE_USED: usize = 49;

pub const CLASSES: &[Class] = &[
    either("head: alive, entered, active", |r, w| head(r, w, 0..3)),
    either("head: view", |r, w| head(r, w, 3..5)),
    either("head: known to value", |r, w| head(r, w, 5..HEAD_USED)),
    bad("head: padding", |r, w| head(r, w, HEAD_USED..HEAD)),
    either("generator: view", |r, w| generator(r, w, 0..2)),
    either("generator: own", |r, w| sequence(r, w, 0)),
    either("generator: converged", |r, w| sequence(r, w, 1)),
    either("generator: raised", |r, w| sequence(r, w, 2)),
    either("generator: proposals", |r, w| {
        let note = 3 + r.below(8);
        sequence(r, w, note)
    }),
    either("generator: convergences", |r, w| {
        let note = 11 + r.below(8);
        sequence(r, w, note)
    }),
    bad("generator: padding", |r, w| {
        generator(r, w, GENERATOR_USED..GENERATOR)
    }),
    either("generator: free place", free_generator),
    bad("generator: free place's notes", free_generator_notes),
    either("transfer: views", |r, w| transfer(r, w, 0..4)),
    either("transfer: sequence", |r, w| transfer(r, w, 4..35)),
    either("transfer: senders", |r, w| transfer(r, w, 35..36)),
    either("transfer: best and gathered", |r, w| {
        transfer(r, w, 36..TRANSFER_USED)
    }),
    bad("transfer: padding", |r, w| {
        transfer(r, w, TRANSFER_USED..TRANSFER)
    }),
    bad("transfer: free place", free_transfer),
    either("desk: alive, phase", |r, w| desk(r, w, 0..2)),
    either("desk: view, try", |r, w| desk(r, w, 2..6)),
    either("desk: stamp, value", |r, w| desk(r, w, 6..13)),
    either("desk: replied", |r, w| desk(r, w, 13..14)),
    either("desk: best, agreed", |r, w| desk(r, w, 14..DESK_USED)),
    bad("desk: padding", |r, w| desk(r, w, DESK_USED..DESK)),
    either("message 1: request", |r, w| message(r, w, 1)),
    either("message 2: view", |r, w| message(r, w, 2)),
    either("message 3: proposal", |r, w| message(r, w, 3)),
    either("message 4: converged", |r, w| message(r, w, 4)),
    either("message 5: install", |r, w| message(r, w, 5)),
    either("message 6: state", |r, w| message(r, w, 6)),
    either("message 7: get", |r, w| message(r, w, 7)),
    either("message 8: put", |r, w| message(r, w, 8)),
    either("message 9: view reply", |r, w| message(r, w, 9)),
    either("message 10: get reply", |r, w| message(r, w, 10)),
    either("message 11: acknowledgement", |r, w| message(r, w, 11)),
    bad("message: padding", message_padding),
    bad("message: free place", free_message),
    either("message: sender", |r, w| party(r, w, 1)),
    either("message: receiver", |r, w| party(r, w, 2)),
    either("message: another kind", other_kind),
    bad("message: nobody's number", nobody),
    bad("message: kind above 11", no_kind),
    bad("message: desk for relay", desk_for_relay),
    bad("flag above 1", flag),
    bad("phase above 4", phase),
    bad("stamp of no desk", stamp_desk),
    bad("tail", |r, w| Some(touched(r, w, TAIL_AT..SIZE))),
    bad("length: shorter", shorter),
    bad("length: longer", longer),
    either("many bytes", many),
    either("one byte everywhere", |r, _| {
        Some(vec![r.below(3) as u8; SIZE])
    }),
    bad("noise", |r, _| {
        Some((0..SIZE).map(|_| r.byte() | 2).collect())
    }),
];

/// One bit, one more or less, or anything: a byte that is another one afterwards.
fn touch(random: &mut Random, byte: &mut u8) {
    let before = *byte;
    *byte = match random.below(4) {
        0 => before.wrapping_add(1),
        1 => before.wrapping_sub(1),
        2 => before ^ 1 << random.below(8),
        _ => random.byte(),
    };
    if *byte == before {
        *byte ^= 1;
    }
}

fn touched(random: &mut Random, world: &World, range: Range<usize>) -> Vec<u8> {
    let mut image = encode(world);
    let at = range.start + random.below(range.len());
    touch(random, &mut image[at]);
    image
}

fn within(random: &mut Random, world: &World, row: usize, of: Range<usize>) -> Option<Vec<u8>> {
    Some(touched(random, world, row + of.start..row + of.end))
}

fn head(random: &mut Random, world: &World, of: Range<usize>) -> Option<Vec<u8>> {
    let row = head_at(random.below(8));
    within(random, world, row, of)
}

fn generator(random: &mut Random, world: &World, of: Range<usize>) -> Option<Vec<u8>> {
    let (relay, place) = some_generator(random, world)?;
    within(random, world, generator_at(relay, place), of)
}

/// The first of a generator's nineteen sequences is its own.
fn sequence(random: &mut Random, world: &World, number: usize) -> Option<Vec<u8>> {
    let at = 2 + number * SEQUENCE;
    generator(random, world, at..at + SEQUENCE)
}

fn transfer(random: &mut Random, world: &World, of: Range<usize>) -> Option<Vec<u8>> {
    let (relay, place) = some_transfer(random, world)?;
    within(random, world, transfer_at(relay, place), of)
}

fn desk(random: &mut Random, world: &World, of: Range<usize>) -> Option<Vec<u8>> {
    let row = desk_at(random.below(4));
    within(random, world, row, of)
}

fn free_generator_place(random: &mut Random, world: &World) -> Option<usize> {
    let taken = |relay: usize| world.relays[relay].generators.len();
    let relay = relay_with(random, world, |relay| taken(relay) < 8)?;
    let place = taken(relay) + random.below(8 - taken(relay));
    Some(generator_at(relay, place))
}

/// Half of them in its view, which may make it a fresh generator.
fn free_generator(random: &mut Random, world: &World) -> Option<Vec<u8>> {
    let row = free_generator_place(random, world)?;
    let end = [2, GENERATOR][random.below(2)];
    within(random, world, row, 0..end)
}

fn free_generator_notes(random: &mut Random, world: &World) -> Option<Vec<u8>> {
    let row = free_generator_place(random, world)?;
    within(random, world, row, 2..GENERATOR)
}

fn free_transfer(random: &mut Random, world: &World) -> Option<Vec<u8>> {
    let taken = |relay: usize| world.relays[relay].transfers.len();
    let relay = relay_with(random, world, |relay| taken(relay) < 8)?;
    let place = taken(relay) + random.below(8 - taken(relay));
    within(random, world, transfer_at(relay, place), 0..TRANSFER)
}

fn message(random: &mut Random, world: &World, kind: u8) -> Option<Vec<u8>> {
    let place = some_message(random, &encode(world), &[kind])?;
    within(random, world, message_at(place), 0..MESSAGE_USED)
}

fn any_message(random: &mut Random, world: &World) -> Option<usize> {
    let kinds: Vec<u8> = (1..=11).collect();
    some_message(random, &encode(world), &kinds).map(message_at)
}

fn message_padding(random: &mut Random, world: &World) -> Option<Vec<u8>> {
    let row = any_message(random, world)?;
    within(random, world, row, MESSAGE_USED..MESSAGE)
}

fn free_message(random: &mut Random, world: &World) -> Option<Vec<u8>> {
    let place = some_message(random, &encode(world), &[0])?;
    within(random, world, message_at(place), 0..MESSAGE)
}

/// The byte gets a value, other than the one that it has.
fn set(world: &World, at: usize, byte: u8) -> Option<Vec<u8>> {
    let mut image = encode(world);
    let differs = image[at] != byte;
    image[at] = byte;
    differs.then_some(image)
}

fn party(random: &mut Random, world: &World, field: usize) -> Option<Vec<u8>> {
    let row = any_message(random, world)?;
    set(world, row + field, random.below(13) as u8)
}

fn other_kind(random: &mut Random, world: &World) -> Option<Vec<u8>> {
    let row = any_message(random, world)?;
    set(world, row, random.below(12) as u8)
}

fn nobody(random: &mut Random, world: &World) -> Option<Vec<u8>> {
    let row = any_message(random, world)?;
    set(world, row + 1 + random.below(2), random.byte().max(12))
}

fn no_kind(random: &mut Random, world: &World) -> Option<Vec<u8>> {
    let row = message_at(random.below(256));
    set(world, row, random.byte().max(12))
}

/// Only desks send 7 and 8, and only they are sent 9 to 11.
fn desk_for_relay(random: &mut Random, world: &World) -> Option<Vec<u8>> {
    let row = any_message(random, world)?;
    let kind = encode(world)[row];
    let (relay, desk) = (random.below(8) as u8, 8 + random.below(4) as u8);
    let sender = if matches!(kind, 7 | 8) { relay } else { desk };
    let receiver = if kind >= 9 { relay } else { desk };
    match random.below(2) {
        0 => set(world, row + 1, sender),
        _ => set(world, row + 2, receiver),
    }
}

fn flag(random: &mut Random, world: &World) -> Option<Vec<u8>> {
    let at = match random.below(2) {
        0 => head_at(random.below(8)) + random.below(3),
        _ => desk_at(random.below(4)) + [0, 21][random.below(2)],
    };
    set(world, at, random.byte().max(2))
}

fn phase(random: &mut Random, world: &World) -> Option<Vec<u8>> {
    set(world, desk_at(random.below(4)) + 1, random.byte().max(5))
}

fn stamp_desk(random: &mut Random, world: &World) -> Option<Vec<u8>> {
    let at = match random.below(4) {
        0 => head_at(random.below(8)) + 11,
        1 => {
            let (relay, place) = some_transfer(random, world)?;
            transfer_at(relay, place) + 38
        }
        2 => desk_at(random.below(4)) + [8, 16][random.below(2)],
        _ => message_at(some_message(random, &encode(world), &[6, 8, 10])?) + 42,
    };
    let byte = [4, random.byte().max(4)][random.below(2)];
    set(world, at, byte)
}

fn shorter(random: &mut Random, world: &World) -> Option<Vec<u8>> {
    let mut image = encode(world);
    let length = match random.below(3) {
        0 => SIZE - 1 - random.below(1_280),
        1 => random.below(SIZE),
        _ => 5_440 * random.below(12),
    };
    image.truncate(length);
    Some(image)
}

fn longer(random: &mut Random, world: &World) -> Option<Vec<u8>> {
    let mut image = encode(world);
    let by = [1, 80, SIZE, 1 + random.below(1_000)][random.below(4)];
    image.resize(SIZE + by, 0);
    Some(image)
}

/// Several bytes, in fields that are in use where there are any.
fn many(random: &mut Random, world: &World) -> Option<Vec<u8>> {
    let mut image = encode(world);
    for _ in 0..2 + random.below(5) {
        let at = match random.below(5) {
            0 => head_at(random.below(8)) + random.below(HEAD_USED),
            1 => desk_at(random.below(4)) + random.below(DESK_USED),
            2 => message_at(random.below(256)) + random.below(MESSAGE_USED),
            3 => some_generator(random, world)
                .map(|(relay, place)| generator_at(relay, place) + random.below(GENERATOR))?,
            _ => random.below(SIZE),
        };
        touch(random, &mut image[at]);
    }
    Some(image)
}
