//! The words of the text form, and the nearest one to a word that is none.

use crate::step::{CRASH, DELIVER, DROP, JOIN, LEAVE, READ, TIMER, WRITE};

pub const START: &str = "START";
pub const STEP: &str = "STEP";

/// A kind of step that has a word of its own, and the ids that the word can say.
pub struct Form {
    pub word: &'static str,
    pub kind: u8,
    pub who: &'static str,
    pub highest: u8,
}

const fn form(word: &'static str, kind: u8, who: &'static str, highest: u8) -> Form {
    Form {
        word,
        kind,
        who,
        highest,
    }
}

/// In the order of document 01's kinds.
pub const FORMS: [Form; 8] = [
    form("JOIN", JOIN, "a relay", 7),
    form("LEAVE", LEAVE, "a relay", 7),
    form("TIMER", TIMER, "a relay", 7),
    form("READ", READ, "a desk", 3),
    form("WRITE", WRITE, "a desk", 3),
    form("DELIVER", DELIVER, "a place", 255),
    form("DROP", DROP, "a place", 255),
    form("CRASH", CRASH, "relay, desk or a number", 11),
];

fn all() -> impl Iterator<Item = &'static str> {
    let forms = FORMS.iter().map(|form| form.word);
    forms.chain([STEP, START])
}

/// A slip of the finger is at most two letters; further off, any one word would
/// be a guess, so all are named.
pub fn suggestion(word: &str) -> String {
    let upper = word.to_ascii_uppercase();
    let nearest = all().min_by_key(|known| distance(&upper, known));
    match nearest {
        Some(known) if distance(&upper, known) <= 2 => format!("did you mean {known}?"),
        _ => format!("a step begins with {}", all_steps()),
    }
}

fn all_steps() -> String {
    let forms: Vec<&str> = FORMS.iter().map(|form| form.word).collect();
    format!("{} or {STEP}", forms.join(", "))
}

/// How many letters must be put in, taken out or changed (Levenshtein).
fn distance(a: &str, b: &str) -> usize {
    let b: Vec<char> = b.chars().collect();
    let mut row: Vec<usize> = (0..=b.len()).collect();
    for (i, letter) in a.chars().enumerate() {
        let mut diagonal = row[0];
        row[0] = i + 1;
        for (j, &other) in b.iter().enumerate() {
            let changed = diagonal + usize::from(letter != other);
            diagonal = row[j + 1];
            row[j + 1] = changed.min(row[j] + 1).min(diagonal + 1);
        }
    }
    row[b.len()]
}
