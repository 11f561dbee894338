//! From text to a sheet.

use super::line;
use crate::sheet::{Sheet, MOST_STEPS};
use std::fmt;

#[derive(Clone, PartialEq, Eq, Debug)]
pub struct TextError {
    pub line: usize,
    pub why: String,
}

impl fmt::Display for TextError {
    fn fmt(&self, f: &mut fmt::Formatter<'_>) -> fmt::Result {
        write!(f, "line {}: {}", self.line, self.why)
    }
}

/// Takes bytes, as a file that is no text at all is named by its line too.
pub fn parse(bytes: &[u8]) -> Result<Sheet, TextError> {
    let text = decoded(bytes)?;
    let mut sheet: Option<Sheet> = None;
    for (number, line) in (1..).zip(text.lines()) {
        let at = |why| TextError { line: number, why };
        let bare = without_comment(line);
        let words: Vec<&str> = bare.split_whitespace().collect();
        match &mut sheet {
            _ if words.is_empty() => {}
            None => {
                let mask = line::start(&words).map_err(at)?;
                let steps = Vec::new();
                sheet = Some(Sheet { mask, steps });
            }
            Some(sheet) => add(sheet, &words).map_err(at)?,
        }
    }
    sheet.ok_or_else(|| TextError {
        line: text.lines().count().max(1),
        why: "the text ends and no START has come".to_string(),
    })
}

/// Some editors put a byte order mark before the first word.
fn decoded(bytes: &[u8]) -> Result<&str, TextError> {
    match std::str::from_utf8(bytes) {
        Ok(text) => Ok(text.strip_prefix('\u{feff}').unwrap_or(text)),
        Err(error) => {
            let before = &bytes[..error.valid_up_to()];
            let line = 1 + before.iter().filter(|&&byte| byte == b'\n').count();
            let why = "not text (UTF-8 is wanted)".to_string();
            Err(TextError { line, why })
        }
    }
}

/// `*` is a word also where it stands close, as in `4*DELIVER 0`.
fn without_comment(line: &str) -> String {
    let bare = line.split('#').next().unwrap_or_default();
    bare.replace('*', " * ")
}

fn add(sheet: &mut Sheet, words: &[&str]) -> Result<(), String> {
    let (count, step) = line::steps(words)?;
    let length = sheet.steps.len() + count;
    if length > MOST_STEPS {
        return Err(format!(
            "a sheet has at most {MOST_STEPS} steps, and this line makes {length}"
        ));
    }
    sheet.steps.resize(length, step);
    Ok(())
}
