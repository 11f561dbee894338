//! Why bytes are no sheet, in the words of document 01.

use crate::sheet::{HEAD, MARK, MOST_STEPS, STEP, VERSION};

/// "BAD SHEET: under six bytes, wrong mark, version, mask 0, a part step,
/// non-zero in the two bytes, over 8,000 steps." The first that applies, or
/// nothing for a sheet.
pub fn fault(bytes: &[u8]) -> Option<String> {
    let broken = match bytes.split_at_checked(HEAD) {
        None => Some(format!("under six bytes (there are {})", bytes.len())),
        Some((head, rest)) => head_fault(head).or_else(|| rest_fault(rest)),
    };
    broken.map(|broken| format!("BAD SHEET: {broken}"))
}

fn head_fault(head: &[u8]) -> Option<String> {
    let version = u16::from_be_bytes([head[3], head[4]]);
    if head[..3] != MARK[..] {
        let shown = head[..3].escape_ascii();
        Some(format!("wrong mark (it begins with '{shown}', not 'ARS')"))
    } else if version != VERSION {
        Some(format!(
            "wrong version (0x{version:04x}, not 0x{VERSION:04x})"
        ))
    } else if head[5] == 0 {
        Some("mask 0 (no relay would be there at the start)".to_string())
    } else {
        None
    }
}

fn rest_fault(rest: &[u8]) -> Option<String> {
    let (whole, over) = (rest.len() / STEP, rest.len() % STEP);
    if over != 0 {
        return Some(format!(
            "a part step ({over} of 8 bytes after step {whole})"
        ));
    }
    let mut steps = (1..).zip(rest.chunks_exact(STEP));
    if let Some((number, step)) = steps.find(|(_, step)| step[2..4] != [0, 0]) {
        let [high, low] = [step[2], step[3]];
        return Some(format!(
            "non-zero in the two bytes (step {number} has 0x{high:02x} 0x{low:02x} there)"
        ));
    }
    (whole > MOST_STEPS).then(|| format!("over 8,000 steps (there are {whole})"))
}
