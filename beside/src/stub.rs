//! The engine's six functions made from the second program, so that the harness
//! can be tried without the archive; and faults that the harness must find.

#[cfg(not(feature = "stub"))]
compile_error!("without its feature the stub would stand in for the engine unseen");

use crate::both;
use crate::engine::{LENGTH, TOLD};
use crate::rehearsed::{last_world, longest};
use second::good::good_world;
use second::image::{decode, encode, SIZE, TAIL_AT};
use second::record::rehearse;
use second::refusal::Answer;
use second::sheet::{bytes_unchecked, read, write, Sheet};
use second::step::{step, Step};
use second::world::World;
use std::cell::Cell;

macro_rules! faults {
    ($($fault:ident $name:literal)*) => {
        #[derive(Clone, Copy, PartialEq, Eq, Debug)]
        pub enum Fault { $($fault),* }

        impl Fault {
            pub const ALL: &'static [Fault] = &[$(Fault::$fault),*];

            pub fn name(self) -> &'static str {
                match self { $(Fault::$fault => $name),* }
            }
        }
    };
}

faults! {
    TailUnchecked "tail-unchecked"
    AnyWorldGood "any-world-good"
    UnusedRoomUnchecked "unused-room-unchecked"
    OrderUnchecked "order-unchecked"
    LongerIsGood "longer-is-good"
    NothingGood "nothing-good"
    GoodByOwnWord "good-by-own-word"
    StepUnchecked "step-unchecked"
    MaskZeroStarts "mask-zero-starts"
    StartKeepsTail "start-keeps-tail"
    RefusalWrites "refusal-writes"
    BadWorldWrites "bad-world-writes"
    WornLate "worn-late"
    NoRoomEarly "no-room-early"
    EventTwice "event-twice"
    ToldLowByteFirst "told-low-byte-first"
    RefusalTells "refusal-tells"
    ShortToldWritten "short-told-written"
    EventLost "event-lost"
    GoodIsOne "good-is-one"
    AnySheet "any-sheet"
    ShortestCounts "shortest-counts"
    SheetCut "sheet-cut"
    SheetClears "sheet-clears"
    RecordUnended "record-unended"
    LengthLowByteFirst "length-low-byte-first"
    RehearsalUntold "rehearsal-untold"
    WorldNotLeft "world-not-left"
    GeneratorsByView "generators-by-view"
    NotesForgotten "notes-forgotten"
    ValueCut "value-cut"
    BadUnlaid "bad-unlaid"
    BadCut "bad-cut"
    RoomUnasked "room-unasked"
    RecordClears "record-clears"
    AnyLengthRehearses "any-length-rehearses"
    MaskZeroWritten "mask-zero-written"
}

thread_local! {
    static FAULT: Cell<Option<Fault>> = const { Cell::new(None) };
}

pub fn set(fault: Option<Fault>) {
    FAULT.with(|cell| cell.set(fault));
}

fn has(fault: Fault) -> bool {
    FAULT.with(Cell::get) == Some(fault)
}

fn checked(bytes: &[u8]) -> Option<World> {
    if has(Fault::NothingGood) {
        return None;
    }
    if has(Fault::AnyWorldGood) || has(Fault::UnusedRoomUnchecked) {
        let world = decode(bytes)?;
        let lenient = has(Fault::AnyWorldGood) || second::good::is_good(&world);
        return lenient.then_some(world);
    }
    if has(Fault::OrderUnchecked) {
        let world = decode(bytes)?;
        let sum = |bytes: &[u8]| bytes.iter().map(|&byte| u64::from(byte)).sum::<u64>();
        return (second::good::is_good(&world) && sum(bytes) == sum(&encode(&world)))
            .then_some(world);
    }
    let mut bytes = bytes.to_vec();
    if has(Fault::TailUnchecked) && bytes.len() == SIZE {
        bytes[TAIL_AT..].fill(0);
    }
    if has(Fault::LongerIsGood) {
        bytes.truncate(SIZE);
    }
    good_world(&bytes)
}

/// # Safety
/// Pointer and length are of one slice.
#[no_mangle]
pub unsafe extern "C" fn world_good(w: *const u8, len: usize) -> u8 {
    let bytes = std::slice::from_raw_parts(w, len);
    if has(Fault::GoodByOwnWord) {
        return 255;
    }
    u8::from(checked(bytes).is_some() == has(Fault::GoodIsOne))
}

/// # Safety
/// Pointer and length are of one slice, lent to this call alone.
#[no_mangle]
pub unsafe extern "C" fn world_start(w: *mut u8, len: usize, mask: u8) -> u8 {
    let bytes = std::slice::from_raw_parts_mut(w, len);
    if bytes.len() != SIZE {
        return Answer::BadWorld.number();
    }
    let mask = mask.max(u8::from(has(Fault::MaskZeroStarts)));
    let Some(world) = World::start(mask) else {
        return Answer::BadStep.number();
    };
    let kept = if has(Fault::StartKeepsTail) {
        TAIL_AT
    } else {
        SIZE
    };
    bytes[..kept].copy_from_slice(&encode(&world)[..kept]);
    Answer::Done.number()
}

/// # Safety
/// Each pointer and length are of one slice, lent to this call alone.
#[no_mangle]
pub unsafe extern "C" fn world_step(
    w: *mut u8,
    len: usize,
    kind: u8,
    id: u8,
    value: u32,
    told: *mut u8,
    told_len: usize,
) -> u8 {
    let bytes = std::slice::from_raw_parts_mut(w, len);
    let told = std::slice::from_raw_parts_mut(told, told_len);
    if told.len() < TOLD && !has(Fault::EventLost) {
        if has(Fault::ShortToldWritten) {
            told.fill(0);
        }
        return Answer::NoRoom.number();
    }
    let (answer, event) = stepped(bytes, Step { kind, id, value });
    let tells = answer == Answer::Done || has(Fault::RefusalTells);
    if let Some(first) = told.get_mut(..TOLD).filter(|_| tells) {
        first.copy_from_slice(&event);
    }
    answer.number()
}

/// # Safety
/// Pointer and length are of one slice.
#[no_mangle]
pub unsafe extern "C" fn sheet_check(sheet: *const u8, len: usize) -> u8 {
    let bytes = std::slice::from_raw_parts(sheet, len);
    if has(Fault::AnySheet) {
        return Answer::Done.number();
    }
    read(bytes).map_or_else(Answer::number, |_| 0)
}

/// # Safety
/// Each pointer and length are of one slice, the first's lent to this call alone.
#[no_mangle]
#[allow(clippy::too_many_arguments)]
pub unsafe extern "C" fn sheet_write(
    buf: *mut u8,
    len: usize,
    mask: u8,
    kinds: *const u8,
    kinds_len: usize,
    ids: *const u8,
    ids_len: usize,
    values: *const u32,
    values_len: usize,
) -> u8 {
    let buffer = std::slice::from_raw_parts_mut(buf, len);
    let kinds = std::slice::from_raw_parts(kinds, kinds_len);
    let ids = std::slice::from_raw_parts(ids, ids_len);
    let values = std::slice::from_raw_parts(values, values_len);
    let equal = kinds_len == ids_len && ids_len == values_len;
    if !equal && !has(Fault::ShortestCounts) {
        return Answer::BadSheet.number();
    }
    let parts = kinds.iter().zip(ids).zip(values);
    let steps = parts.map(|((&kind, &id), &value)| Step { kind, id, value });
    let sheet = Sheet {
        mask: mask.max(u8::from(has(Fault::MaskZeroWritten))),
        steps: steps.collect(),
    };
    if has(Fault::SheetCut) {
        let bytes = bytes_unchecked(&sheet);
        let fits = bytes.len().min(buffer.len());
        buffer[..fits].copy_from_slice(&bytes[..fits]);
    }
    if has(Fault::SheetClears) {
        buffer.fill(0);
    }
    write(&sheet, buffer).map_or_else(Answer::number, |_| 0)
}

/// # Safety
/// Each pointer and length are of one slice, lent to this call alone.
#[no_mangle]
#[allow(clippy::too_many_arguments)]
pub unsafe extern "C" fn sheet_rehearse(
    sheet: *const u8,
    len: usize,
    world: *mut u8,
    world_len: usize,
    out: *mut u8,
    out_len: usize,
    told: *mut u8,
    told_len: usize,
) -> u8 {
    let bytes = std::slice::from_raw_parts(sheet, len);
    let world = std::slice::from_raw_parts_mut(world, world_len);
    let out = std::slice::from_raw_parts_mut(out, out_len);
    let told = std::slice::from_raw_parts_mut(told, told_len);
    if told.len() < LENGTH && !has(Fault::RehearsalUntold) {
        return Answer::NoRoom.number();
    }
    rehearsed_in(bytes, world, out, told).number()
}

fn rehearsed_in(bytes: &[u8], world: &mut [u8], out: &mut [u8], told: &mut [u8]) -> Answer {
    if world.len() != SIZE && !has(Fault::AnyLengthRehearses) {
        return Answer::BadWorld;
    }
    let (mut record, _) = rehearse(bytes);
    let Ok(sheet) = read(bytes) else {
        let cut = out.len().min(record.len());
        if !has(Fault::BadUnlaid) && (cut == record.len() || has(Fault::BadCut)) {
            out[..cut].copy_from_slice(&record.as_bytes()[..cut]);
        }
        return Answer::BadSheet;
    };
    if out.len() < longest(&sheet) && !(has(Fault::RoomUnasked) && out.len() >= record.len()) {
        return Answer::NoRoom;
    }
    if has(Fault::RecordClears) {
        out.fill(0);
    }
    let mut length = (record.len() as u32).to_be_bytes();
    if has(Fault::LengthLowByteFirst) {
        length.reverse();
    }
    if has(Fault::RecordUnended) {
        record.truncate(record.find("end").expect("a record's last line"));
    }
    out[..record.len()].copy_from_slice(record.as_bytes());
    if !has(Fault::WorldNotLeft) && world.len() == SIZE {
        world.copy_from_slice(&last_world(&sheet));
    }
    if let Some(front) = told.get_mut(..LENGTH) {
        front.copy_from_slice(&length);
    }
    Answer::Done
}

fn stepped(bytes: &mut [u8], asked: Step) -> (Answer, [u8; TOLD]) {
    let found = if has(Fault::StepUnchecked) {
        decode(bytes)
    } else {
        checked(bytes)
    };
    let Some(mut world) = found else {
        if has(Fault::BadWorldWrites) && bytes.len() == SIZE {
            bytes[SIZE - 1] ^= 1;
        }
        return (Answer::BadWorld, [0; TOLD]);
    };
    let full = world.free() == 0 && asked.kind == second::step::DELIVER;
    let report = step(&mut world, asked);
    if report.answer == Answer::Worn && has(Fault::WornLate) {
        return (Answer::Done, [0; TOLD]);
    }
    if report.answer == Answer::Done && full && has(Fault::NoRoomEarly) {
        return (Answer::NoRoom, [0; TOLD]);
    }
    let mut event = both::told(report.event);
    if has(Fault::EventTwice) && event[0] == 3 {
        event[0] = 2;
    }
    if has(Fault::ToldLowByteFirst) {
        event[5..].reverse();
    }
    if report.answer == Answer::Done {
        spoil(&mut world);
        let length = bytes.len().min(SIZE);
        bytes[..length].copy_from_slice(&encode(&world)[..length]);
    } else if has(Fault::RefusalWrites) {
        bytes[43_520 + 5] ^= 1;
    }
    (report.answer, event)
}

fn spoil(world: &mut World) {
    if has(Fault::GeneratorsByView) {
        for relay in &mut world.relays {
            relay.generators.sort_by_key(|generator| generator.view);
        }
    }
    if has(Fault::NotesForgotten) {
        for relay in &mut world.relays {
            for generator in &mut relay.generators {
                std::rc::Rc::make_mut(generator).convergences[7] = Default::default();
            }
        }
    }
    if has(Fault::ValueCut) {
        for relay in &mut world.relays {
            relay.record.value &= 0xffff;
        }
    }
}
