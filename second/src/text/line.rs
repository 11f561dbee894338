//! One line of the text form: the start, or a step with its repeat count.

use super::words::{suggestion, Form, FORMS, START, STEP};
use crate::sheet::MOST_STEPS;
use crate::step::{Step, CRASH, WRITE};
use std::ops::RangeInclusive;

/// The words of a line that are still to be read, and what they belong to.
struct Rest<'a> {
    of: String,
    words: &'a [&'a str],
}

impl<'a> Rest<'a> {
    fn of(of: &str, words: &'a [&'a str]) -> Rest<'a> {
        let of = of.to_string();
        Rest { of, words }
    }

    fn next(&mut self) -> Option<&'a str> {
        let (&first, rest) = self.words.split_first()?;
        self.words = rest;
        Some(first)
    }

    /// Takes the next word if it is this one.
    fn next_is(&mut self, wanted: &str) -> bool {
        let first = self.words.first();
        let is = first.is_some_and(|word| word.eq_ignore_ascii_case(wanted));
        self.words = &self.words[usize::from(is)..];
        is
    }

    fn number(&mut self, what: &str, range: RangeInclusive<u32>) -> Result<u32, String> {
        let wants = format!(
            "{} wants {what} {} to {}",
            self.of,
            range.start(),
            range.end()
        );
        let Some(word) = self.next() else {
            return Err(format!("{wants}, and the line ends before it"));
        };
        match digits(word) {
            Some(number) if range.contains(&number) => Ok(number),
            _ => Err(format!("{wants}, not '{word}'")),
        }
    }

    fn byte(&mut self, what: &str, range: RangeInclusive<u8>) -> Result<u8, String> {
        let (low, high) = (u32::from(*range.start()), u32::from(*range.end()));
        let number = self.number(what, low..=high)?;
        Ok(u8::try_from(number).expect("the range ends within a byte"))
    }

    fn end(&self) -> Result<(), String> {
        match self.words.first() {
            None => Ok(()),
            Some(word) => Err(format!("'{word}' is one word too many for {}", self.of)),
        }
    }
}

/// Digits only: Rust's own reading would take `+5` too.
fn digits(word: &str) -> Option<u32> {
    let plain = word.bytes().all(|byte| byte.is_ascii_digit());
    word.parse().ok().filter(|_| plain)
}

/// The mask of the first line.
pub fn start(words: &[&str]) -> Result<u8, String> {
    let mut rest = Rest::of(START, words);
    if !rest.next_is(START) {
        return Err(format!(
            "the text must begin with {START}, not '{}'",
            words[0]
        ));
    }
    if rest.next_is("relays") {
        return mask_of_relays(rest);
    }
    if rest.words.len() > 1 && rest.words.iter().all(|word| digits(word).is_some()) {
        let relays = rest.words.join(" ");
        return Err(format!(
            "{START} takes one mask: did you mean {START} relays {relays}?"
        ));
    }
    let mask = rest.byte("relays, or a mask", 1..=255)?;
    rest.end()?;
    Ok(mask)
}

fn mask_of_relays(mut rest: Rest<'_>) -> Result<u8, String> {
    rest.of = format!("{START} relays");
    let mut mask = 0;
    // At least one, as mask 0 is no start.
    while mask == 0 || !rest.words.is_empty() {
        let relay = rest.byte("a relay", 0..=7)?;
        if mask & (1 << relay) != 0 {
            return Err(format!("{} names relay {relay} twice", rest.of));
        }
        mask |= 1 << relay;
    }
    Ok(mask)
}

/// A step and how many times it stands there.
pub fn steps(words: &[&str]) -> Result<(usize, Step), String> {
    let Some(star) = words.iter().position(|&word| word == "*") else {
        return Ok((1, step(words)?));
    };
    let mut rest = Rest::of("a repeat", &words[..star]);
    let most = u32::try_from(MOST_STEPS).expect("a small number");
    let count = rest.number("a count", 1..=most)?;
    rest.end()?;
    let repeated = &words[star + 1..];
    if repeated.is_empty() {
        return Err("a repeat wants a step after '*'".to_string());
    }
    if repeated.contains(&"*") {
        return Err("a step may be repeated once only".to_string());
    }
    Ok((count as usize, step(repeated)?))
}

fn step(words: &[&str]) -> Result<Step, String> {
    let (first, rest) = (words[0], &words[1..]);
    let is = |word: &str| first.eq_ignore_ascii_case(word);
    if is(START) {
        return Err(format!("{START} stands once, before the first step"));
    }
    if is(STEP) {
        return any_step(Rest::of(STEP, rest));
    }
    match FORMS.iter().find(|form| is(form.word)) {
        Some(form) => named_step(form, Rest::of(form.word, rest)),
        None if digits(first).is_some() && !rest.is_empty() => {
            let repeated = rest.join(" ");
            Err(format!(
                "a step begins with a word: did you mean {first} * {repeated}?"
            ))
        }
        None => Err(format!("unknown word '{first}': {}", suggestion(first))),
    }
}

fn named_step(form: &Form, mut rest: Rest<'_>) -> Result<Step, String> {
    let id = match form.kind {
        CRASH => crashed(form, &mut rest)?,
        _ => rest.byte(form.who, 0..=form.highest)?,
    };
    let value = match form.kind {
        WRITE => rest.number("a value", 0..=u32::MAX)?,
        _ => 0,
    };
    rest.end()?;
    let kind = form.kind;
    Ok(Step { kind, id, value })
}

/// "CRASH who (0..7 relays, 8..11 desks)", by number or by name.
fn crashed(form: &Form, rest: &mut Rest<'_>) -> Result<u8, String> {
    if rest.next_is("relay") {
        rest.of = format!("{} relay", form.word);
        rest.byte("a number", 0..=7)
    } else if rest.next_is("desk") {
        rest.of = format!("{} desk", form.word);
        Ok(8 + rest.byte("a number", 0..=3)?)
    } else {
        rest.byte(form.who, 0..=form.highest)
    }
}

/// A step as a sheet holds it: whether it is in range is the run's to say.
fn any_step(mut rest: Rest<'_>) -> Result<Step, String> {
    let kind = rest.byte("a kind", 0..=255)?;
    let id = rest.byte("an id", 0..=255)?;
    let value = rest.number("a value", 0..=u32::MAX)?;
    rest.end()?;
    Ok(Step { kind, id, value })
}
