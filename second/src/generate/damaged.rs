//! Sheets that are BAD SHEET, or were damaged and still are not.

use super::random::Random;
use super::{rich, wild};
use crate::sheet::{bytes_unchecked, HEAD, MOST_STEPS, STEP};
use crate::step::{Step, DELIVER};

pub fn damaged(random: &mut Random, steps: usize) -> Vec<u8> {
    let mut sheet = match random.below(2) {
        0 => rich::short(random, steps.max(1)),
        _ => wild::noise(random, steps.max(1)),
    };
    // Some of the damage below needs a step to be done to.
    sheet.steps.push(Step::new(DELIVER, 0));
    let mut bytes = bytes_unchecked(&sheet);
    let count = sheet.steps.len();
    match random.below(11) {
        0 => bytes[random.below(3)] ^= 1 << random.below(8),
        1 => bytes[3 + random.below(2)] ^= 1 << random.below(8),
        2 => bytes[5] = 0,
        3 => bytes.extend((0..1 + random.below(STEP - 1)).map(|n| n as u8)),
        4 => {
            let at = HEAD + STEP * random.below(count) + 2 + random.below(2);
            bytes[at] = random.byte().max(1);
        }
        5 => bytes.truncate(random.below(HEAD)),
        6 => bytes.resize(HEAD + STEP * (MOST_STEPS + 1 + random.below(3)), 0),
        7 => bytes.truncate(random.below(bytes.len())),
        8 => flip(random, &mut bytes, 1),
        9 => flip(random, &mut bytes, 8),
        _ => bytes = (0..random.below(64)).map(|_| random.byte()).collect(),
    }
    bytes
}

fn flip(random: &mut Random, bytes: &mut [u8], most: usize) {
    for _ in 0..1 + random.below(most) {
        let at = random.below(bytes.len());
        bytes[at] ^= 1 << random.below(8);
    }
}
