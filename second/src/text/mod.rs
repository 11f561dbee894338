//! A readable text form of sheets, so that a student writes `DELIVER 5` where a
//! sheet has eight bytes. Every sheet has a text, and every text that is taken
//! gives a sheet that `sheet::read` takes.

mod fault;
mod line;
mod parse;
mod print;
mod words;

pub use fault::fault;
pub use parse::{parse, TextError};
pub use print::print;

/// Printed by `sheet --help`; it stands here, beside the rules that it tells.
pub const HELP: &str = "\
sheet write [FILE]   text to a sheet's bytes, on standard output
sheet read [FILE]    a sheet's bytes to text, on standard output
Without FILE, standard input is read.

The text has one step a line; blank lines are skipped and `#` starts a comment.
Words may be written in any case. First comes the start, as a mask or by relays:
  START 7             START relays 0 1 2
Then at most 8,000 steps:
  JOIN relay          LEAVE relay         TIMER relay         (relays 0 to 7)
  READ desk           WRITE desk value                        (desks 0 to 3)
  DELIVER place       DROP place                              (places 0 to 255)
  CRASH relay 2       CRASH desk 1        CRASH 9             (8 to 11 are desks)
  STEP kind id value  any step as a sheet holds it, also one out of range
  4 * DELIVER 0       the same step four times

Status 0: done. 1: the text or the sheet is wrong, or a file could not be read;
standard error says why, and nothing is written. 2: these words were not followed.
";
