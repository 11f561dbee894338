//! What a byte of the image belongs to, in words.

use super::{
    DESK, DESKS_AT, GENERATOR, GENERATORS_AT, MESSAGE, MESSAGES_AT, RELAY, SEQUENCE, SIZE, TAIL_AT,
    TRANSFER, TRANSFERS_AT,
};

const RECORD: [(&str, usize); 3] = [("stamp count", 2), ("stamp desk", 1), ("value", 4)];

pub fn name(at: usize) -> String {
    let place = if at >= SIZE {
        "past the world".to_string()
    } else if at >= TAIL_AT {
        format!("tail, byte {}", at - TAIL_AT)
    } else if at >= MESSAGES_AT {
        let (place, at) = split(at - MESSAGES_AT, MESSAGE);
        format!("message place {place}, {}", message(at))
    } else if at >= DESKS_AT {
        let (desk, at) = split(at - DESKS_AT, DESK);
        format!("desk {desk}, {}", self::desk(at))
    } else {
        let (relay, at) = split(at, RELAY);
        format!("relay {relay}, {}", self::relay(at))
    };
    format!("byte {at} ({place})")
}

fn split(at: usize, width: usize) -> (usize, usize) {
    (at / width, at % width)
}

/// The field, of those that follow each other, that a byte of their row belongs to.
fn field(mut at: usize, fields: &[(&str, usize)]) -> String {
    for &(name, width) in fields {
        if at < width {
            return match (name, width) {
                (_, SEQUENCE) => format!("{name}, {}", sequence(at)),
                _ => name.to_string(),
            };
        }
        at -= width;
    }
    format!("padding, byte {at}")
}

fn sequence(at: usize) -> String {
    match at {
        30 => "how many".to_string(),
        _ => format!("view {}", at / 2),
    }
}

fn relay(at: usize) -> String {
    if at >= TRANSFERS_AT {
        let (place, at) = split(at - TRANSFERS_AT, TRANSFER);
        let head = [
            ("old view", 2),
            ("new view", 2),
            ("sequence", SEQUENCE),
            ("senders", 1),
        ];
        let named = field(at, &[&head[..], &RECORD, &[("gathered", 2)]].concat());
        format!("transfer {place}, {named}")
    } else if at >= GENERATORS_AT {
        let (place, at) = split(at - GENERATORS_AT, GENERATOR);
        format!("generator {place}, {}", generator(at))
    } else {
        let flags = [("alive", 1), ("entered", 1), ("active", 1)];
        let views = [("view", 2), ("known", 2), ("pending", 2)];
        field(at, &[&flags[..], &views, &RECORD].concat())
    }
}

fn generator(at: usize) -> String {
    let notes = 2 + 3 * SEQUENCE;
    if at < notes {
        let own = [
            ("view", 2),
            ("own", SEQUENCE),
            ("converged", SEQUENCE),
            ("raised", SEQUENCE),
        ];
        return field(at, &own);
    }
    let (note, at) = split(at - notes, SEQUENCE);
    match note {
        0..=7 => format!("proposal of {note}, {}", sequence(at)),
        8..=15 => format!("convergence of {}, {}", note - 8, sequence(at)),
        _ => "padding".to_string(),
    }
}

fn desk(at: usize) -> String {
    let head = [("alive", 1), ("phase", 1), ("view", 2), ("try", 2)];
    let best = [
        ("best stamp count", 2),
        ("best stamp desk", 1),
        ("best value", 4),
    ];
    let fields = [
        &head[..],
        &RECORD,
        &[("replied", 1)],
        &best,
        &[("agreed", 1)],
    ];
    field(at, &fields.concat())
}

fn message(at: usize) -> String {
    let parties = [("kind", 1), ("sender", 1), ("receiver", 1)];
    let views = [("first view", 2), ("second view", 2), ("try", 2)];
    let fields = [
        &parties[..],
        &views,
        &[("sequence", SEQUENCE)],
        &RECORD,
        &[("updates", 2)],
    ];
    field(at, &fields.concat())
}
