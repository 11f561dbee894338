//! Without a fault the stub passes; with each of its faults something fails.
#![cfg(feature = "stub")]

use beside::stub::{set, Fault};
use beside::tally::Tally;
use beside::{by_hand, damaged, edges, made, sheets};

/// How many faults the stub has: a list that lost one would find one less.
const FAULTS: usize = 37;

fn failures(fault: Option<Fault>) -> (usize, usize) {
    set(fault);
    let mut tally = Tally::quiet();
    edges::all(&mut tally);
    by_hand::all(&mut tally);
    for flavour in ["conflict", "desks", "clogged", "generators", "damaged"] {
        sheets::one(flavour, 1, &mut tally);
    }
    made::all(60, &mut tally);
    damaged::all(420, 1, &mut tally);
    (tally.passed, tally.failed)
}

#[test]
fn the_stub_passes() {
    let (passed, failed) = failures(None);
    assert!(
        passed > 800 && failed == 0,
        "{passed} passed, {failed} failed"
    );
}

#[test]
fn each_fault_is_found() {
    assert_eq!(Fault::ALL.len(), FAULTS);
    for &fault in Fault::ALL {
        let (passed, failed) = failures(Some(fault));
        println!("{}: {passed} passed, {failed} failed", fault.name());
        assert!(failed > 0, "{}", fault.name());
    }
}
