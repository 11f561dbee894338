//! Sheets of steps that were not chosen for their sense.

use super::maker::Maker;
use super::random::Random;
use super::rich::{any_temper, go_on, Temper};
use crate::sheet::Sheet;
use crate::step::{Step, CRASH, DELIVER, DROP, WRITE};

/// Sensible runs with stretches of any kinds, ids and values in between.
pub fn wild(random: &mut Random, steps: usize) -> Sheet {
    let temper = Temper {
        members: (1, 5),
        ..any_temper(random)
    };
    let members = 1 + random.below(8);
    let mask = random.mask(members);
    let mut maker = Maker::new(random, mask, 0);
    while maker.limit < steps {
        maker.limit = steps.min(maker.limit + 1 + maker.random.below(40));
        go_on(&mut maker, &temper);
        maker.limit = steps.min(maker.limit + 1 + maker.random.below(15));
        while !maker.full() {
            let asked = any_step(maker.random, true);
            maker.take(asked);
        }
    }
    maker.sheet()
}

/// No sense at all, from the first step on.
pub fn noise(random: &mut Random, steps: usize) -> Sheet {
    let mask = random.byte().max(1);
    let length = random.below(steps + 1);
    let crashes = random.per_mille(300);
    let steps = (0..length).map(|_| any_step(random, crashes)).collect();
    Sheet { mask, steps }
}

fn any_step(random: &mut Random, crashes: bool) -> Step {
    let kind = match random.below(10) {
        0 => random.byte(),
        1..=4 => DELIVER,
        _ => random.below(10) as u8,
    };
    // Everyone soon lies crashed where one step in ten is a crash.
    let kind = if kind == CRASH && !(crashes && random.per_mille(100)) {
        DROP
    } else {
        kind
    };
    let id = match random.below(12) {
        0 => random.byte(),
        _ => random.below(13) as u8,
    };
    let valued = kind == WRITE || random.below(20) == 0;
    Step {
        kind,
        id,
        value: if valued { random.value() } else { 0 },
    }
}
