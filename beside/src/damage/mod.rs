//! Ways to damage a world, by class. Some touch a byte and may leave a good world;
//! others break one condition of a good world for sure.

mod bytes;
mod fields;
mod sequences;

use second::generate::Random;
use second::image::encode;
use second::world::World;

/// None where this world has nothing of the kind that is damaged.
pub type Damage = fn(&mut Random, &World) -> Option<Vec<u8>>;

pub struct Class {
    pub name: &'static str,
    pub surely_bad: bool,
    pub damage: Damage,
}

const fn either(name: &'static str, damage: Damage) -> Class {
    Class {
        name,
        surely_bad: false,
        damage,
    }
}

const fn bad(name: &'static str, damage: Damage) -> Class {
    Class {
        name,
        surely_bad: true,
        damage,
    }
}

pub fn classes() -> impl Iterator<Item = &'static Class> {
    let all = bytes::CLASSES.iter().chain(fields::CLASSES);
    all.chain(sequences::CLASSES)
}

/// The image of a copy in which one thing was changed.
fn changed(world: &World, change: impl FnOnce(&mut World) -> Option<()>) -> Option<Vec<u8>> {
    let mut world = world.clone();
    change(&mut world)?;
    Some(encode(&world))
}

fn relay_with(random: &mut Random, world: &World, has: impl Fn(usize) -> bool) -> Option<usize> {
    let relays: Vec<usize> = (0..world.relays.len())
        .filter(|&relay| has(relay))
        .collect();
    random.pick(&relays)
}

fn some_generator(random: &mut Random, world: &World) -> Option<(usize, usize)> {
    let relay = relay_with(random, world, |relay| {
        !world.relays[relay].generators.is_empty()
    })?;
    Some((relay, random.below(world.relays[relay].generators.len())))
}

fn some_transfer(random: &mut Random, world: &World) -> Option<(usize, usize)> {
    let relay = relay_with(random, world, |relay| {
        !world.relays[relay].transfers.is_empty()
    })?;
    Some((relay, random.below(world.relays[relay].transfers.len())))
}

/// A place with a message of one of these kinds, as the image numbers them.
fn some_message(random: &mut Random, image: &[u8], kinds: &[u8]) -> Option<usize> {
    let kind = |place: usize| image[second::image::message_at(place)];
    let places: Vec<usize> = (0..256)
        .filter(|&place| kinds.contains(&kind(place)))
        .collect();
    random.pick(&places)
}
