//! The archive's functions, linked. A slice is passed as a pointer and a length. Nothing
//! checks these lines against the engine's source, so they stand in one place.

use second::step::Step;
use std::hint::black_box;

const DEEP: usize = 256 * 1024;
const PAINT: u8 = 0xA5;

/// The part of the stack below `top` that is painted; what stands right below `top`
/// belongs to the painter itself.
fn below(top: *mut u8) -> impl Iterator<Item = *mut u8> {
    (256..DEEP).rev().map(move |far| top.wrapping_sub(far))
}

#[inline(never)]
fn paint(top: *mut u8) {
    for byte in below(top) {
        // SAFETY: unused stack of this thread; nothing runs on it meanwhile.
        unsafe { std::ptr::write_volatile(byte, PAINT) };
    }
}

/// Bytes from `top` down to the deepest one changed.
#[inline(never)]
fn depth(top: *mut u8) -> usize {
    // SAFETY: as above, and only reads.
    let touched = below(top).find(|&byte| unsafe { std::ptr::read_volatile(byte) } != PAINT);
    touched.map_or(0, |byte| top as usize - byte as usize)
}

/// Bytes of stack that the call takes: the stack below is painted before it and looked
/// at after it.
pub fn stack(made: impl FnOnce()) -> usize {
    let mut here = 0u8;
    let top: *mut u8 = black_box(&mut here);
    paint(top);
    made();
    depth(top)
}

extern "C" {
    fn world_good(w: *const u8, len: usize) -> u8;
    fn world_start(w: *mut u8, len: usize, mask: u8) -> u8;
    fn world_step(
        w: *mut u8,
        len: usize,
        kind: u8,
        id: u8,
        value: u32,
        told: *mut u8,
        told_len: usize,
    ) -> u8;
    fn sheet_check(sheet: *const u8, len: usize) -> u8;
    fn sheet_write(
        buf: *mut u8,
        len: usize,
        mask: u8,
        kinds: *const u8,
        kinds_len: usize,
        ids: *const u8,
        ids_len: usize,
        values: *const u32,
        values_len: usize,
    ) -> u8;
    fn sheet_rehearse(
        sheet: *const u8,
        len: usize,
        world: *mut u8,
        world_len: usize,
        out: *mut u8,
        out_len: usize,
        told: *mut u8,
        told_len: usize,
    ) -> u8;
}

pub fn good(world: &[u8]) -> u8 {
    // SAFETY: pointer and length are of one slice, which the engine only reads.
    unsafe { world_good(world.as_ptr(), world.len()) }
}

pub fn start(world: &mut [u8], mask: u8) -> u8 {
    // SAFETY: pointer and length are of one slice, lent to this call alone.
    unsafe { world_start(world.as_mut_ptr(), world.len(), mask) }
}

pub fn step(world: &mut [u8], asked: Step, told: &mut [u8]) -> u8 {
    let Step { kind, id, value } = asked;
    // SAFETY: each pointer and length are of one slice, lent to this call alone, and
    // two slices lent at once do not overlap.
    unsafe {
        world_step(
            world.as_mut_ptr(),
            world.len(),
            kind,
            id,
            value,
            told.as_mut_ptr(),
            told.len(),
        )
    }
}

pub fn check(sheet: &[u8]) -> u8 {
    // SAFETY: pointer and length are of one slice, which the engine only reads.
    unsafe { sheet_check(sheet.as_ptr(), sheet.len()) }
}

pub fn write(buffer: &mut [u8], mask: u8, kinds: &[u8], ids: &[u8], values: &[u32]) -> u8 {
    // SAFETY: each pointer and length are of one slice, and the one that is written is
    // lent to this call alone.
    unsafe {
        sheet_write(
            buffer.as_mut_ptr(),
            buffer.len(),
            mask,
            kinds.as_ptr(),
            kinds.len(),
            ids.as_ptr(),
            ids.len(),
            values.as_ptr(),
            values.len(),
        )
    }
}

pub fn rehearse(sheet: &[u8], world: &mut [u8], out: &mut [u8], told: &mut [u8]) -> u8 {
    // SAFETY: as above.
    unsafe {
        sheet_rehearse(
            sheet.as_ptr(),
            sheet.len(),
            world.as_mut_ptr(),
            world.len(),
            out.as_mut_ptr(),
            out.len(),
            told.as_mut_ptr(),
            told.len(),
        )
    }
}
