//! The worked example of document 01, to the letter.

mod common;

use common::{d, r, record_of, w};

#[test]
fn the_worked_example() {
    let steps = [w(0, 77), d(0), d(0), d(0), d(0), r(1), d(0), d(0), d(0)];
    let expected = "\
start 1
1 0 0 0 0 0 0
2 0 0 0 0 0 0
3 0 0 0 0 0 0
4 0 0 0 0 0 0
5 0 3 0 1 0 77
6 0 0 0 0 0 0
7 0 0 0 0 0 0
8 0 2 1 1 0 77
9 3 0 0 0 0 0
end 6 6 0 0
";
    assert_eq!(record_of(1, &steps), expected);
}

#[test]
fn a_sheet_without_steps() {
    assert_eq!(record_of(255, &[]), "start 255\nend 0 0 0 0\n");
}
