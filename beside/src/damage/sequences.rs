//! Sequences broken, wherever one stands: a generator's nineteen, a transfer's, a
//! message's.

use super::{bad, some_generator, some_message, some_transfer, Class};
use second::generate::Random;
use second::image::{encode, generator_at, message_at, transfer_at, SEQUENCE};
use second::sets::View;
use second::world::World;

pub const CLASSES: &[Class] = &[
    bad("sequence: not nested", not_nested),
    bad("sequence: not above its view", not_above),
    bad("sequence: out of order", out_of_order),
    bad("sequence: a view twice", twice),
    bad("sequence: unused views not zero", unused),
    bad("sequence: another length", other_length),
    bad("sequence: length above 15", too_long),
    bad("message's sequence empty", empty),
    bad("install's least is not its new view", other_least),
];

/// Where a sequence stands, its views, and the view that it is kept for.
struct Found {
    image: Vec<u8>,
    at: usize,
    views: Vec<u16>,
    kept_for: u16,
}

impl Found {
    fn of(image: Vec<u8>, at: usize, kept_for_at: usize) -> Found {
        let number = |at: usize| u16::from_be_bytes([image[at], image[at + 1]]);
        let length = usize::from(image[at + SEQUENCE - 1]);
        let views = (0..length).map(|k| number(at + 2 * k)).collect();
        let kept_for = number(kept_for_at);
        Found {
            image,
            at,
            views,
            kept_for,
        }
    }

    fn some(random: &mut Random, world: &World) -> Option<Found> {
        let image = encode(world);
        match random.below(4) {
            0 => {
                let row = message_at(some_message(random, &image, &[3, 4, 5])?);
                Some(Found::of(image, row + 9, row + 3))
            }
            1 => {
                let (relay, place) = some_transfer(random, world)?;
                let row = transfer_at(relay, place);
                Some(Found::of(image, row + 4, row))
            }
            _ => {
                let (relay, place) = some_generator(random, world)?;
                let row = generator_at(relay, place);
                let number = [random.below(3), random.below(19)][random.below(2)];
                Some(Found::of(image, row + 2 + number * SEQUENCE, row))
            }
        }
    }

    fn put(mut self, views: &[u16]) -> Option<Vec<u8>> {
        let room = &mut self.image[self.at..self.at + SEQUENCE];
        room.fill(0);
        for (field, view) in room.chunks_exact_mut(2).zip(views) {
            field.copy_from_slice(&view.to_be_bytes());
        }
        room[SEQUENCE - 1] = views.len() as u8;
        (views.len() <= 15 && views != self.views).then_some(self.image)
    }

    fn put_sorted(self, mut views: Vec<u16>) -> Option<Vec<u8>> {
        views.sort_unstable();
        views.dedup();
        self.put(&views)
    }
}

/// A view beside one of the sequence: it lacks one of its updates and has another.
fn not_nested(random: &mut Random, world: &World) -> Option<Vec<u8>> {
    let found = Found::some(random, world)?;
    let view = View(random.pick(&found.views)?);
    let beside = View(found.kept_for).union(View(1 << random.below(16)));
    let mut views = found.views.clone();
    views.push(beside.0);
    view.conflicts(beside).then_some(())?;
    found.put_sorted(views)
}

/// The view itself, or one without one of its updates.
fn not_above(random: &mut Random, world: &World) -> Option<Vec<u8>> {
    let found = Found::some(random, world)?;
    let without = found.kept_for & !(1 << random.below(16));
    let mut views = found.views.clone();
    views.push([found.kept_for, without][random.below(2)]);
    found.put_sorted(views)
}

fn out_of_order(random: &mut Random, world: &World) -> Option<Vec<u8>> {
    let found = Found::some(random, world)?;
    let mut views = found.views.clone();
    let last = views.len().checked_sub(1).filter(|&last| last > 0)?;
    let first = random.below(last);
    views.swap(first, first + 1);
    found.put(&views)
}

fn twice(random: &mut Random, world: &World) -> Option<Vec<u8>> {
    let found = Found::some(random, world)?;
    let mut views = found.views.clone();
    let at = (!views.is_empty()).then(|| random.below(views.len()))?;
    views.insert(at, views[at]);
    found.put(&views)
}

fn unused(random: &mut Random, world: &World) -> Option<Vec<u8>> {
    let mut found = Found::some(random, world)?;
    let used = 2 * found.views.len();
    let free = 30usize.checked_sub(used).filter(|&free| free > 0)?;
    found.image[found.at + used + random.below(free)] = random.byte().max(1);
    Some(found.image)
}

fn other_length(random: &mut Random, world: &World) -> Option<Vec<u8>> {
    let mut found = Found::some(random, world)?;
    let length = random.below(16);
    found.image[found.at + 30] = length as u8;
    (length != found.views.len()).then_some(found.image)
}

fn too_long(random: &mut Random, world: &World) -> Option<Vec<u8>> {
    let mut found = Found::some(random, world)?;
    found.image[found.at + 30] = [16, random.byte().max(16)][random.below(2)];
    Some(found.image)
}

fn empty(random: &mut Random, world: &World) -> Option<Vec<u8>> {
    let image = encode(world);
    let row = message_at(some_message(random, &image, &[3, 4, 5])?);
    Found::of(image, row + 9, row + 3).put(&[])
}

/// The least goes, another comes below it, or the new view is another one.
fn other_least(random: &mut Random, world: &World) -> Option<Vec<u8>> {
    let image = encode(world);
    let (at, pair) = match random.below(2) {
        0 => {
            let row = message_at(some_message(random, &image, &[5])?);
            (row + 9, row + 3)
        }
        _ => {
            let (relay, place) = some_transfer(random, world)?;
            (transfer_at(relay, place) + 4, transfer_at(relay, place))
        }
    };
    let mut found = Found::of(image, at, pair);
    let least = *found.views.first()?;
    match random.below(3) {
        0 if found.views.len() > 1 => {
            let views = found.views[1..].to_vec();
            found.put(&views)
        }
        1 => {
            let below = found.kept_for | (least & !found.kept_for & 1 << random.below(16));
            let fits = View(found.kept_for).inside(View(below)) && View(below).inside(View(least));
            let views = [&[below], &found.views[..]].concat();
            fits.then(|| found.put(&views)).flatten()
        }
        _ => {
            let other = least | 1 << random.below(16);
            found.image[pair + 2..pair + 4].copy_from_slice(&other.to_be_bytes());
            (other != least).then_some(found.image)
        }
    }
}
