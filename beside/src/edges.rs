//! Starts, wrong lengths, and rooms for the told columns that are not nine bytes.

use crate::both::{Both, UNTOLD};
use crate::engine::{self, TOLD};
use crate::lent::{same, same_world, Lent};
use crate::tally::Tally;
use second::hand::start;
use second::image::{encode, SIZE};
use second::step::{Step, CRASH, DELIVER, READ};

const LENGTHS: &[usize] = &[
    0, 1, 2, 8, 9, 63, 64, 5_440, 43_520, 43_776, 64_256, 65_534, 65_535, 65_537, 65_600, 70_000,
    131_072,
];

pub fn all(tally: &mut Tally) {
    for mask in 1..=255 {
        let result = Both::start(mask).and_then(|both| both.good());
        tally.check(&format!("start {mask}"), result);
    }
    tally.check("start with mask 0", mask_zero());
    tally.answered(2);
    for &length in LENGTHS {
        tally.check(&format!("length {length}"), wrong_length(length));
        tally.answered(1);
    }
    for length in (0..TOLD).chain([10, 16, 100]) {
        tally.check(&format!("told {length}"), told(length));
    }
}

/// BAD STEP, and nothing written over good bytes or others.
fn mask_zero() -> Result<(), String> {
    for before in [encode(&start(5)), vec![0x5a; SIZE]] {
        let mut lent = Lent::of(&before);
        same("answer", engine::start(lent.bytes_mut(), 0), 2)?;
        same_world(lent.bytes(), &before, "the refused start found")?;
        lent.margins()?;
    }
    Ok(())
}

/// A start's image, cut or with zeros behind: never good, BAD WORLD before BAD STEP.
fn wrong_length(length: usize) -> Result<(), String> {
    let mut before = encode(&start(3));
    before.resize(length, 0);
    let mut lent = Lent::of(&before);
    same("good", engine::good(lent.bytes()), 1)?;
    for mask in [0, 1, 255] {
        same("start's answer", engine::start(lent.bytes_mut(), mask), 1)?;
        same_world(lent.bytes(), &before, "the refused start found")?;
    }
    for asked in [Step::new(READ, 0), Step::new(CRASH, 3), Step::new(0, 0)] {
        let mut told = Lent::filled(TOLD, UNTOLD);
        let answer = engine::step(lent.bytes_mut(), asked, told.bytes_mut());
        same("step's answer", answer, 1)?;
        same("told", told.bytes(), &[UNTOLD; TOLD][..])?;
        same_world(lent.bytes(), &before, "the refused step found")?;
        told.margins()?;
    }
    lent.margins()
}

/// Room for fewer than nine bytes is NO ROOM, whatever the step and the world; of more
/// the first nine are written.
fn told(length: usize) -> Result<(), String> {
    let image = encode(&start(3));
    for (before, asked, otherwise) in [
        (&image, Step::new(CRASH, 3), 0),
        (&image, Step::new(DELIVER, 0), 3),
        (&image, Step::new(0, 0), 2),
        (&vec![0x5a; SIZE], Step::new(CRASH, 3), 1),
        (&vec![], Step::new(CRASH, 3), 1),
    ] {
        let mut lent = Lent::of(before);
        let mut told = Lent::filled(length, UNTOLD);
        let answer = engine::step(lent.bytes_mut(), asked, told.bytes_mut());
        let expected = if length < TOLD { 8 } else { otherwise };
        same("answer", answer, expected)?;
        if expected == 0 {
            crashed(lent.bytes(), told.bytes())?;
        } else {
            same("told", told.bytes(), &vec![UNTOLD; length][..])?;
            same_world(lent.bytes(), before, "the refused step found")?;
        }
        told.margins()?;
        lent.margins()?;
    }
    Ok(())
}

fn crashed(bytes: &[u8], told: &[u8]) -> Result<(), String> {
    let mut expected = vec![UNTOLD; told.len()];
    expected[..TOLD].fill(0);
    same("told", told, &expected[..])?;
    let mut world = start(3);
    world.relays[3].alive = false;
    same_world(bytes, &encode(&world), "the second program")
}
