//! Runs in which the 256 places are full, or nearly so, most of the time.

use super::maker::Maker;
use super::random::Random;
use super::rich::{any_temper, go_on, likely_refused, Temper};
use crate::sheet::Sheet;
use crate::step::{Step, DELIVER, DROP, JOIN, LEAVE, READ, TIMER, WRITE};

pub fn clogged(random: &mut Random, steps: usize) -> Sheet {
    let members = 1 + random.below(8);
    let mask = random.mask(members);
    let temper = Temper {
        crowd: 256,
        crash: 0,
        ..any_temper(random)
    };
    let mut maker = Maker::new(random, mask, steps / 4);
    go_on(&mut maker, &temper);
    maker.limit = steps;
    while !maker.full() {
        fill(&mut maker);
        let some = maker.random.below(60);
        for _ in 0..some {
            squeeze(&mut maker);
        }
    }
    maker.sheet()
}

/// Asking again and again is always open to some relay or desk.
fn fill(maker: &mut Maker<'_>) {
    let near = 240 + maker.random.below(20);
    let mut idle = 0;
    while !maker.full() && maker.world.waiting() < near && idle < 60 {
        let kind = [JOIN, LEAVE, TIMER, READ, WRITE][maker.random.below(5)];
        let asked = Step::new(
            kind,
            maker.random.below(if kind >= READ { 4 } else { 8 }) as u8,
        );
        let useful = maker.opens(asked)
            && maker
                .would(asked)
                .is_some_and(|plan| !plan.sends.is_empty());
        if useful {
            maker.take(asked);
        } else {
            idle += 1;
        }
    }
    if idle >= 60 {
        squeeze(maker);
    }
}

/// Steps at the edge: whichever message it is, whether there is room or not.
fn squeeze(maker: &mut Maker<'_>) {
    if maker.full() {
        return;
    }
    let places = maker.places(|_| true);
    let place = maker.random.pick(&places).unwrap_or_default();
    let asked = match maker.random.below(12) {
        0 => Step::new(DROP, place),
        1 => Step::new(LEAVE, maker.random.below(8) as u8),
        2 | 3 => Step::new(TIMER, maker.random.below(8) as u8),
        4 => likely_refused(maker),
        _ => Step::new(DELIVER, place),
    };
    maker.take(asked);
}
