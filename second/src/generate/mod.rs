//! The generator of sheets: flavours by name, each made from a seed.

mod clogged;
mod damaged;
mod limits;
mod maker;
mod random;
mod rich;
mod wild;

use crate::sheet::{bytes_unchecked, Sheet};
pub use random::Random;

enum Make {
    Sheet(fn(&mut Random, usize) -> Sheet),
    Bytes(fn(&mut Random, usize) -> Vec<u8>),
}

struct Flavour {
    name: &'static str,
    steps: usize,
    make: Make,
}

const fn flavour(name: &'static str, steps: usize, make: Make) -> Flavour {
    Flavour { name, steps, make }
}

const FLAVOURS: &[Flavour] = &[
    flavour("calm", 800, Make::Sheet(rich::calm)),
    flavour("conflict", 1500, Make::Sheet(rich::conflict)),
    flavour("late", 1500, Make::Sheet(rich::late)),
    flavour("desks", 1500, Make::Sheet(rich::desks)),
    flavour("crash", 1200, Make::Sheet(rich::crash)),
    flavour("mixed", 2000, Make::Sheet(rich::mixed)),
    flavour("long", 8000, Make::Sheet(rich::mixed)),
    flavour("short", 60, Make::Sheet(rich::short)),
    flavour("clogged", 1200, Make::Sheet(clogged::clogged)),
    flavour("wild", 600, Make::Sheet(wild::wild)),
    flavour("noise", 300, Make::Sheet(wild::noise)),
    flavour("damaged", 40, Make::Bytes(damaged::damaged)),
    flavour("read-248", 400, Make::Sheet(limits::read_248)),
    flavour("read-249", 400, Make::Sheet(limits::read_249)),
    flavour("generators", 2000, Make::Sheet(limits::ninth_generator)),
    flavour("transfers", 8000, Make::Sheet(limits::ninth_transfer)),
    flavour("tries", 8000, Make::Sheet(limits::most_tries)),
    flavour("steps-8000", 8000, Make::Sheet(limits::steps_8000)),
    flavour("steps-8001", 8000, Make::Sheet(limits::steps_8001)),
];

pub fn names() -> Vec<&'static str> {
    FLAVOURS.iter().map(|flavour| flavour.name).collect()
}

/// The bytes of a sheet; the same flavour, seed and length give the same bytes.
pub fn sheet(name: &str, seed: u64, steps: Option<usize>) -> Option<Vec<u8>> {
    let flavour = FLAVOURS.iter().find(|flavour| flavour.name == name)?;
    let steps = steps.unwrap_or(flavour.steps);
    let mut random = Random::seeded(name, seed);
    Some(match flavour.make {
        Make::Sheet(make) => bytes_unchecked(&make(&mut random, steps)),
        Make::Bytes(make) => make(&mut random, steps),
    })
}
