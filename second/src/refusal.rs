//! The numbered answers, and which rule refused.

use crate::rules::Rule;

/// The table of document 01. A world of this program is a value of its own
/// types, not a buffer, so BAD WORLD is never answered here.
#[derive(Clone, Copy, PartialEq, Eq, PartialOrd, Ord, Debug)]
pub enum Answer {
    Done = 0,
    BadWorld = 1,
    BadStep = 2,
    Empty = 3,
    Dead = 4,
    NotNow = 5,
    NotYet = 6,
    Worn = 7,
    NoRoom = 8,
    BadSheet = 9,
}

impl Answer {
    pub fn number(self) -> u8 {
        self as u8
    }
}

#[derive(Clone, PartialEq, Eq, Debug)]
pub struct Refused {
    pub answer: Answer,
    pub rules: Vec<Rule>,
}

impl Refused {
    pub fn by(answer: Answer, rule: Rule) -> Refused {
        Refused {
            answer,
            rules: vec![rule],
        }
    }
}
