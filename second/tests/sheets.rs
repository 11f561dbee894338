//! Sheets: what is read, what is refused, and what is written.

mod common;

use common::*;
use second::generate;
use second::record::rehearse;
use second::refusal::Answer;
use second::sheet::{bytes_unchecked, read, write, Sheet};

fn sample() -> Sheet {
    Sheet {
        mask: 5,
        steps: vec![w(3, 0x0102_0304), d(200), crash(11)],
    }
}

#[test]
fn the_bytes_of_a_sheet() {
    let expected = [
        0x41, 0x52, 0x53, 0, 1, 5, 5, 3, 0, 0, 1, 2, 3, 4, 6, 200, 0, 0, 0, 0, 0, 0, 8, 11, 0, 0,
        0, 0, 0, 0,
    ];
    assert_eq!(bytes_unchecked(&sample()), expected);
    assert_eq!(read(&expected), Ok(sample()));
}

#[test]
fn every_change_that_is_bad() {
    let good = bytes_unchecked(&sample());
    let mut bad: Vec<Vec<u8>> = (0..6).map(|length| good[..length].to_vec()).collect();
    bad.extend((1..8).map(|short| good[..good.len() - short].to_vec()));
    for at in [0, 1, 2, 3, 4, 8, 9, 16, 17, 24, 25] {
        let mut bytes = good.clone();
        bytes[at] ^= 0x80;
        bad.push(bytes);
    }
    let mut unmasked = good.clone();
    unmasked[5] = 0;
    bad.push(unmasked);
    for bytes in bad {
        assert_eq!(read(&bytes), Err(Answer::BadSheet), "{bytes:?}");
        assert_eq!(rehearse(&bytes).0, "bad 9\n");
    }
}

#[test]
fn any_other_byte_may_be_anything() {
    let good = bytes_unchecked(&sample());
    for at in [5, 6, 7, 10, 11, 12, 13] {
        let mut bytes = good.clone();
        bytes[at] = 0xff;
        let sheet = read(&bytes).expect("still a sheet");
        assert_eq!(bytes_unchecked(&sheet), bytes);
    }
}

#[test]
fn writing_into_a_lent_buffer() {
    let mut buffer = [7; 40];
    assert_eq!(write(&sample(), &mut buffer), Ok(30));
    assert_eq!(read(&buffer[..30]), Ok(sample()));
    assert_eq!(buffer[30..], [7; 10]);
    let mut short = [7; 29];
    assert_eq!(write(&sample(), &mut short), Err(Answer::NoRoom));
    assert_eq!(short, [7; 29]);
    assert_eq!(
        write(
            &Sheet {
                mask: 0,
                ..sample()
            },
            &mut []
        ),
        Err(Answer::BadSheet)
    );
    let long = Sheet {
        mask: 1,
        steps: vec![d(0); 8001],
    };
    assert_eq!(write(&long, &mut []), Err(Answer::BadSheet));
}

#[test]
fn damaged_sheets_are_mostly_bad_and_not_always() {
    let made = |seed| generate::sheet("damaged", seed, None).expect("a flavour");
    let bad = (1..=200).filter(|&seed| read(&made(seed)).is_err()).count();
    assert!((100..195).contains(&bad), "{bad}");
}

#[test]
fn the_same_seed_makes_the_same_sheet() {
    for name in generate::names() {
        let made = |seed| generate::sheet(name, seed, None).expect("a flavour");
        assert_eq!(made(1), made(1), "{name}");
        assert_ne!(made(1), made(2), "{name}");
    }
    assert_eq!(generate::sheet("no such flavour", 1, None), None);
}
