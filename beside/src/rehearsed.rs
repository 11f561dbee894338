//! Whole sheets: checked, written and rehearsed by the engine, next to the second
//! program's reading, writing and record.

use crate::engine::{self, LENGTH};
use crate::lent::{same, same_world, Lent};
use second::image::{encode, SIZE};
use second::record::rehearse;
use second::sheet::{read, write, Sheet};
use second::step::{step, Step};
use second::world::World;

const BEFORE: u8 = 0xd7;

/// Bytes that are a sheet or not.
pub fn one(bytes: &[u8]) -> Result<(), String> {
    let found = read(bytes);
    let number = found.as_ref().map_or_else(|answer| answer.number(), |_| 0);
    same("check", engine::check(bytes), number)?;
    match found {
        Ok(sheet) => {
            writes(&sheet)?;
            rehearses(bytes, &sheet)
        }
        Err(_) => bad(bytes),
    }
}

/// `bad 9` is the record where it fits whole, and nothing else changes.
fn bad(bytes: &[u8]) -> Result<(), String> {
    for (length, laid) in [(0, 0), (5, 0), (6, 6), (7, 6)] {
        let mut room = Room::of(SIZE, length, LENGTH);
        same("rehearse", room.rehearse(bytes), 9)?;
        let expected = [&b"bad 9\n"[..laid], &vec![BEFORE; length - laid]].concat();
        same("the record", room.record.bytes(), &expected[..])?;
        room.record.bytes_mut().fill(BEFORE);
        room.kept()?;
    }
    Ok(())
}

/// The steps in three slices, of which the last has `less` fewer.
fn engine_writes(buffer: &mut [u8], sheet: &Sheet, less: usize) -> u8 {
    let all = &sheet.steps;
    let kinds: Vec<u8> = all.iter().map(|step| step.kind).collect();
    let ids: Vec<u8> = all.iter().map(|step| step.id).collect();
    let values: Vec<u32> = all.iter().map(|step| step.value).collect();
    engine::write(
        buffer,
        sheet.mask,
        &kinds,
        &ids,
        &values[..values.len() - less],
    )
}

/// Into room that is wanting, just enough, and more.
fn writes(sheet: &Sheet) -> Result<(), String> {
    let size = 6 + 8 * sheet.steps.len();
    for room in [0, 5, size - 1, size, size + 1, size + 100] {
        written(sheet, room)?;
    }
    let none = Sheet {
        mask: 0,
        ..sheet.clone()
    };
    written(&none, size)?;
    unequal(sheet, size)
}

/// As the second program writes it into the same room.
pub fn written(sheet: &Sheet, room: usize) -> Result<(), String> {
    let mut expected = vec![BEFORE; room];
    let number = write(sheet, &mut expected).map_or_else(|answer| answer.number(), |_| 0);
    let mut lent = Lent::filled(room, BEFORE);
    same("write", engine_writes(lent.bytes_mut(), sheet, 0), number)?;
    same("the sheet", lent.bytes(), &expected[..])?;
    lent.margins()
}

/// Slices of unequal length are BAD SHEET, and nothing is written.
fn unequal(sheet: &Sheet, room: usize) -> Result<(), String> {
    if sheet.steps.is_empty() {
        return Ok(());
    }
    let mut lent = Lent::filled(room, BEFORE);
    same("unequal", engine_writes(lent.bytes_mut(), sheet, 1), 9)?;
    same("its buffer", lent.bytes(), &vec![BEFORE; room][..])?;
    lent.margins()
}

/// The image of the world that a good sheet's steps come to.
pub fn last_world(sheet: &Sheet) -> Vec<u8> {
    let mut world = World::start(sheet.mask).expect("a good sheet's mask");
    for &asked in &sheet.steps {
        step(&mut world, asked);
    }
    encode(&world)
}

/// No record of as many steps is longer: every column at its greatest.
pub fn longest(sheet: &Sheet) -> usize {
    let start = "start 255\n".len();
    let step = "8000 8 3 7 65535 3 4294967295\n".len();
    start + step * sheet.steps.len() + "end 8256 8000 8000 256\n".len()
}

/// What is lent to a rehearsal.
struct Room {
    world: Lent,
    record: Lent,
    told: Lent,
}

impl Room {
    fn of(world: usize, record: usize, told: usize) -> Room {
        Room {
            world: Lent::filled(world, BEFORE),
            record: Lent::filled(record, BEFORE),
            told: Lent::filled(told, BEFORE),
        }
    }

    fn rehearse(&mut self, bytes: &[u8]) -> u8 {
        let (world, record) = (self.world.bytes_mut(), self.record.bytes_mut());
        engine::rehearse(bytes, world, record, self.told.bytes_mut())
    }

    fn margins(&self) -> Result<(), String> {
        self.world.margins()?;
        self.record.margins()?;
        self.told.margins()
    }

    /// Not a byte is other than before.
    fn kept(&self) -> Result<(), String> {
        let all = [&self.world, &self.record, &self.told];
        for lent in all {
            let before = vec![BEFORE; lent.bytes().len()];
            same("what was refused", lent.bytes() == &before[..], true)?;
        }
        self.margins()
    }
}

fn rehearses(bytes: &[u8], sheet: &Sheet) -> Result<(), String> {
    let (record, _) = rehearse(bytes);
    let mut room = Room::of(SIZE, longest(sheet), LENGTH + 1);
    same("rehearse", room.rehearse(bytes), 0)?;
    let (front, past) = room.record.bytes().split_at(record.len());
    same("the record", front == record.as_bytes(), true)?;
    same("past it", past.iter().all(|&byte| byte == BEFORE), true)?;
    let mut told = (record.len() as u32).to_be_bytes().to_vec();
    told.push(BEFORE);
    same("told", room.told.bytes(), &told[..])?;
    same_world(room.world.bytes(), &last_world(sheet), "the second program")?;
    room.margins()?;
    let longest = longest(sheet);
    for (world, record, told, number) in [
        (SIZE, longest, LENGTH - 1, 8),
        (SIZE - 1, longest, LENGTH, 1),
        (0, 0, 0, 8),
        (SIZE, longest - 1, LENGTH, 8),
    ] {
        let mut room = Room::of(world, record, told);
        same("refused", room.rehearse(bytes), number)?;
        room.kept()?;
    }
    Ok(())
}

/// 8,000 and 8,001 steps, which no buffer of the second program's maker writes.
pub fn long(steps: usize) -> Result<(), String> {
    let sheet = Sheet {
        mask: 3,
        steps: vec![Step::write(1, 0xdead_beef); steps],
    };
    written(&sheet, 6 + 8 * steps)
}
