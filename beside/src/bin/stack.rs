//! stack [SEEDS]: how deep the stack is that one call of the engine needs, over the
//! steps of generated sheets. Not in the gate.

use beside::engine::{self, TOLD};
use beside::rehearsed::longest;
use second::generate;
use second::image::SIZE;
use second::sheet::{read, Sheet};
use std::hint::black_box;

fn main() {
    let seeds: u64 = std::env::args()
        .nth(1)
        .and_then(|word| word.parse().ok())
        .unwrap_or(3);
    let mut deepest = [0; 6];
    for flavour in generate::names() {
        for seed in 1..=seeds {
            let bytes = generate::sheet(flavour, seed, Some(400)).expect("a listed flavour");
            let Ok(sheet) = read(&bytes) else { continue };
            for (most, depth) in deepest.iter_mut().zip(depths(&bytes, &sheet)) {
                *most = depth.max(*most);
            }
        }
    }
    let [start, step, good, check, write, rehearse] = deepest;
    println!(
        "start {start} bytes, step {step}, good {good}, check {check}, write {write}, rehearse {rehearse}"
    );
}

/// Of a start, the deepest step, a check of the last world; of a sheet's check, its
/// writing and its rehearsal.
fn depths(bytes: &[u8], sheet: &Sheet) -> [usize; 6] {
    let mut world = vec![0; SIZE];
    let mut told = [0; TOLD];
    let mut record = vec![0; longest(sheet)];
    let start = engine::stack(|| {
        black_box(engine::start(&mut world, sheet.mask));
    });
    let steps = sheet.steps.iter().map(|&asked| {
        engine::stack(|| {
            black_box(engine::step(&mut world, asked, &mut told));
        })
    });
    let step = steps.max().unwrap_or(0);
    let good = engine::stack(|| {
        black_box(engine::good(&world));
    });
    let check = engine::stack(|| {
        black_box(engine::check(bytes));
    });
    let (kinds, ids): (Vec<u8>, Vec<u8>) = sheet.steps.iter().map(|k| (k.kind, k.id)).unzip();
    let values: Vec<u32> = sheet.steps.iter().map(|k| k.value).collect();
    let write = engine::stack(|| {
        let room = &mut record[..bytes.len()];
        black_box(engine::write(room, sheet.mask, &kinds, &ids, &values));
    });
    let rehearse = engine::stack(|| {
        black_box(engine::rehearse(bytes, &mut world, &mut record, &mut told));
    });
    [start, step, good, check, write, rehearse]
}
