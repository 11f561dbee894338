//! Damaged worlds: the second program reads the bytes, and the engine must give the
//! same verdict; a world that is not good stays as it is, one that still is goes on.

use crate::both::{Both, UNTOLD};
use crate::damage::{classes, Class};
use crate::engine::{self, TOLD};
use crate::lent::{same, same_world, Lent};
use crate::made::any_step;
use crate::tally::Tally;
use second::generate::{self, Random};
use second::good::good_world;
use second::sheet::read;
use second::step::step;
use second::world::World;

/// Worlds from the middle of these runs.
const FLAVOURS: &[&str] = &[
    "calm",
    "conflict",
    "late",
    "desks",
    "crash",
    "mixed",
    "clogged",
    "wild",
    "generators",
    "transfers",
    "read-248",
];
const SEEDS: u64 = 2;
const FROM_EACH: usize = 12;
const TRIES: usize = 400;
const STEPS: usize = 3;

pub fn all(count: usize, seed: u64, tally: &mut Tally) {
    let worlds = worlds(seed);
    let number = classes().count();
    for (index, class) in classes().enumerate() {
        let share = count / number + usize::from(index < count % number);
        let mut random = Random::seeded(class.name, seed);
        for nth in 0..share {
            let result = one(class, &worlds, &mut random, tally);
            tally.check(
                &format!("damage '{}', seed {seed}, no. {nth}", class.name),
                result,
            );
        }
    }
}

fn worlds(seed: u64) -> Vec<World> {
    let mut random = Random::seeded("worlds", seed);
    let mut worlds = Vec::new();
    for flavour in FLAVOURS {
        for seed in seed..seed + SEEDS {
            let bytes = generate::sheet(flavour, seed, None).expect("a flavour's name");
            let sheet = read(&bytes).expect("these flavours make good sheets");
            let kept: Vec<usize> = (0..FROM_EACH)
                .map(|_| random.below(sheet.steps.len()))
                .collect();
            let mut world = World::start(sheet.mask).expect("a good sheet's mask");
            for (index, &asked) in sheet.steps.iter().enumerate() {
                step(&mut world, asked);
                if kept.contains(&index) {
                    worlds.push(world.clone());
                }
            }
        }
    }
    worlds
}

fn one(
    class: &'static Class,
    worlds: &[World],
    random: &mut Random,
    tally: &mut Tally,
) -> Result<(), String> {
    let mut tries = (0..TRIES).map(|_| {
        let world = &worlds[random.below(worlds.len())];
        (class.damage)(random, world)
    });
    let found = tries.find_map(|damaged| damaged);
    let bytes = found.ok_or("no world was found that it can be done to")?;
    let world = good_world(&bytes);
    tally.verdict(class.name, world.is_some());
    if class.surely_bad && world.is_some() {
        return Err("the second program takes it for good".to_string());
    }
    same("good", engine::good(&bytes), u8::from(world.is_none()))?;
    match world {
        Some(world) => goes_on(world, random, tally),
        None => stays(&bytes, random, &worlds[0], tally),
    }
}

fn goes_on(world: World, random: &mut Random, tally: &mut Tally) -> Result<(), String> {
    let mut both = Both::of(world);
    for number in 1..=STEPS {
        let asked = any_step(random, &both.world);
        both.step(asked, tally)
            .map_err(|why| format!("good; step {number}, {why}"))?;
    }
    both.good()
}

fn stays(bytes: &[u8], random: &mut Random, near: &World, tally: &mut Tally) -> Result<(), String> {
    let asked = any_step(random, near);
    let mut lent = Lent::of(bytes);
    let mut told = Lent::filled(TOLD, UNTOLD);
    let answer = engine::step(lent.bytes_mut(), asked, told.bytes_mut());
    tally.answered(1);
    same("answer", answer, 1)?;
    same("told", told.bytes(), &[UNTOLD; TOLD][..])?;
    same_world(lent.bytes(), bytes, "the refused step found")?;
    told.margins()?;
    lent.margins()
}
