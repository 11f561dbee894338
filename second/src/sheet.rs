//! Sheets: "the three bytes `ARS`, version 0x0001 and all numbers high byte
//! first, one byte of start mask, then 8 bytes a step: kind, id, two zero bytes,
//! value."

use crate::refusal::Answer;
use crate::step::Step;

pub const MARK: &[u8; 3] = b"ARS";
pub const VERSION: u16 = 0x0001;
pub const MOST_STEPS: usize = 8_000;
pub const HEAD: usize = 6;
pub const STEP: usize = 8;

#[derive(Clone, PartialEq, Eq, Debug)]
pub struct Sheet {
    pub mask: u8,
    pub steps: Vec<Step>,
}

/// "BAD SHEET: under six bytes, wrong mark, version, mask 0, a part step,
/// non-zero in the two bytes, over 8,000 steps."
pub fn read(bytes: &[u8]) -> Result<Sheet, Answer> {
    if bytes.len() < HEAD {
        return Err(Answer::BadSheet);
    }
    let (head, rest) = bytes.split_at(HEAD);
    let version = u16::from_be_bytes([head[3], head[4]]);
    let mask = head[5];
    let steps = rest.len() / STEP;
    let part = rest.len() % STEP != 0;
    if head[..3] != MARK[..] || version != VERSION || mask == 0 || part || steps > MOST_STEPS {
        return Err(Answer::BadSheet);
    }
    let steps: Option<Vec<Step>> = rest.chunks_exact(STEP).map(read_step).collect();
    steps
        .map(|steps| Sheet { mask, steps })
        .ok_or(Answer::BadSheet)
}

fn read_step(bytes: &[u8]) -> Option<Step> {
    let [kind, id, 0, 0, a, b, c, d] = *bytes else {
        return None;
    };
    Some(Step {
        kind,
        id,
        value: u32::from_be_bytes([a, b, c, d]),
    })
}

/// "A list with its mask is written into a lent buffer: BAD SHEET for mask 0 or
/// over 8,000 steps, then NO ROOM; bytes past the sheet stay."
pub fn write(sheet: &Sheet, buffer: &mut [u8]) -> Result<usize, Answer> {
    if sheet.mask == 0 || sheet.steps.len() > MOST_STEPS {
        return Err(Answer::BadSheet);
    }
    let bytes = bytes_unchecked(sheet);
    let room = buffer.get_mut(..bytes.len()).ok_or(Answer::NoRoom)?;
    room.copy_from_slice(&bytes);
    Ok(bytes.len())
}

/// Also for sheets that are no good, which the makers of damaged sheets need.
pub fn bytes_unchecked(sheet: &Sheet) -> Vec<u8> {
    let mut bytes = MARK.to_vec();
    bytes.extend(VERSION.to_be_bytes());
    bytes.push(sheet.mask);
    for step in &sheet.steps {
        bytes.extend([step.kind, step.id, 0, 0]);
        bytes.extend(step.value.to_be_bytes());
    }
    bytes
}
