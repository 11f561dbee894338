//! bench [SEED]: steps a second of the engine's step, which checks the whole world
//! each time, on sheets of 8,000 steps; and the cost of one check. Not in the gate.
//! Seed 4 is the first whose `long` goes on for 8,000 steps.

use beside::engine::{self, TOLD};
use second::generate;
use second::image::SIZE;
use second::sheet::{read, Sheet};
use second::step::step;
use second::world::World;
use std::hint::black_box;
use std::time::Instant;

const CHECKS: usize = 25;
const BATCHES: usize = 40;

fn per(begun: Instant, count: usize) -> f64 {
    begun.elapsed().as_secs_f64() * 1e6 / count as f64
}

fn steps(name: &str, sheet: &Sheet) -> Vec<u8> {
    let mut world = vec![0; SIZE];
    let mut told = [0; TOLD];
    assert_eq!(engine::start(&mut world, sheet.mask), 0);
    let begun = Instant::now();
    for &asked in &sheet.steps {
        black_box(engine::step(&mut world, asked, &mut told));
    }
    let engine = per(begun, sheet.steps.len());
    let mut other = World::start(sheet.mask).expect("a good sheet's mask");
    let begun = Instant::now();
    for &asked in &sheet.steps {
        black_box(step(&mut other, asked));
    }
    let second = per(begun, sheet.steps.len());
    println!(
        "{name}: {} steps; engine {:.0} steps/s ({engine:.1} us each, world checked each time); \
         second program {:.0} steps/s (no check)",
        sheet.steps.len(),
        1e6 / engine,
        1e6 / second
    );
    world
}

/// The least of many batches: whatever else the machine does counts as little as it can.
fn check(name: &str, world: &[u8]) {
    let batch = || {
        let begun = Instant::now();
        for _ in 0..CHECKS {
            assert_eq!(engine::good(black_box(world)), 0);
        }
        per(begun, CHECKS)
    };
    let least = (0..BATCHES).map(|_| batch()).fold(f64::INFINITY, f64::min);
    println!("world_good, {name}: {least:.1} us");
}

fn main() {
    if !engine::LINKED {
        eprintln!("bench: a time taken through a pipe says nothing; checks/benchmark builds the engine for this machine");
        std::process::exit(2);
    }
    let seed = std::env::args().nth(1).map_or(Ok(4), |word| word.parse());
    let seed = seed.expect("usage: bench [SEED]");
    let mut start = vec![0; SIZE];
    assert_eq!(engine::start(&mut start, 255), 0);
    check("a start", &start);
    for flavour in ["long", "tries", "steps-8000"] {
        let bytes = generate::sheet(flavour, seed, None).expect("a flavour's name");
        let sheet = read(&bytes).expect("these flavours make good sheets");
        let last = steps(flavour, &sheet);
        check(&format!("the last world of {flavour}"), &last);
    }
    let bytes = generate::sheet("clogged", seed, None).expect("a flavour's name");
    let sheet = read(&bytes).expect("this flavour makes good sheets");
    let last = steps("clogged", &sheet);
    check("the last world of clogged", &last);
}
