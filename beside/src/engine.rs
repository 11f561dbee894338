//! The boundary: the engine's six functions, and nothing else of it. They are linked
//! where the archive is for this machine, and called through a pipe where it is not.

#[cfg(linked)]
#[path = "linked.rs"]
mod way;
#[cfg(not(linked))]
#[path = "piped.rs"]
mod way;

use second::step::Step;

/// Event 1, who 1, stamp count 2, stamp desk 1, value or view 4.
pub const TOLD: usize = 9;

/// The record's length, high byte first.
pub const LENGTH: usize = 4;

/// Whether a call runs at the machine's own speed.
pub const LINKED: bool = cfg!(linked);

/// 0 for a good world, else BAD WORLD.
pub fn good(world: &[u8]) -> u8 {
    way::good(world)
}

/// The answer's number.
pub fn start(world: &mut [u8], mask: u8) -> u8 {
    way::start(world, mask)
}

/// The answer's number; what an accepted step tells goes into `told`, of nine bytes or
/// more.
pub fn step(world: &mut [u8], asked: Step, told: &mut [u8]) -> u8 {
    way::step(world, asked, told)
}

/// 0 for a sheet, else BAD SHEET.
pub fn check(sheet: &[u8]) -> u8 {
    way::check(sheet)
}

/// The answer's number; the steps are in three slices.
pub fn write(buffer: &mut [u8], mask: u8, kinds: &[u8], ids: &[u8], values: &[u32]) -> u8 {
    way::write(buffer, mask, kinds, ids, values)
}

/// The answer's number; the last world, the record and its length go into the buffers.
pub fn rehearse(sheet: &[u8], world: &mut [u8], out: &mut [u8], told: &mut [u8]) -> u8 {
    way::rehearse(sheet, world, out, told)
}

/// Bytes of stack that one call of the above takes.
pub fn stack(made: impl FnOnce()) -> usize {
    way::stack(made)
}
