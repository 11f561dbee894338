//! The 65,536 bytes: rows at their places, zeros elsewhere, and back again.

mod common;

use common::*;
use second::generate;
use second::good::{good_world, is_good};
use second::image::{decode, encode, name, SIZE};
use second::message::Body;
use second::sets::View;
use second::sheet::read;
use second::step::step;
use second::world::World;

/// The bytes of an image that are not zero, by index.
fn filled(image: &[u8]) -> Vec<(usize, u8)> {
    let bytes = image.iter().copied().enumerate();
    bytes.filter(|&(_, byte)| byte != 0).collect()
}

#[test]
fn a_start_and_zeros_where_nothing_is() {
    let image = encode(&start(1));
    assert_eq!(image.len(), SIZE);
    let mut expected = vec![(0, 1), (1, 1), (2, 1), (4, 1), (6, 1)];
    for relay in 1..8 {
        expected.extend([(relay * 5_440, 1), (relay * 5_440 + 6, 1)]);
    }
    for desk in 0..4 {
        expected.extend([(43_520 + desk * 64, 1), (43_520 + desk * 64 + 3, 1)]);
    }
    assert_eq!(filled(&image), expected);
}

/// The row of a message in place 2, after two others.
fn row(message: second::message::Message) -> Vec<u8> {
    let mut world = start(3);
    run(&mut world, &[l(0)]);
    world.place(message);
    encode(&world)[43_776 + 160..43_776 + 240].to_vec()
}

#[test]
fn an_install_byte_by_byte() {
    let mut expected = vec![5, 1, 2, 0x00, 0x03, 0x02, 0x07, 0, 0];
    expected.extend([0x02, 0x07, 0x02, 0x0f]);
    expected.resize(9 + 30, 0);
    expected.push(2);
    expected.resize(80, 0);
    assert_eq!(
        row(from_relay(1, 2, install(3, &[0x0207, 0x020f]))),
        expected
    );
}

#[test]
fn messages_of_a_desk_and_to_one_byte_by_byte() {
    let record = rec(0x0102, 3, 0x0405_0607);
    let put = Body::Put {
        try_number: 0x0809,
        view: View(0x0a03),
        record,
    };
    let tail = |kind, from, to, first: [u8; 2]| {
        let mut bytes = vec![kind, from, to, first[0], first[1], 0, 0, 0x08, 0x09];
        bytes.resize(40, 0);
        bytes.extend([1, 2, 3, 4, 5, 6, 7]);
        bytes.resize(80, 0);
        bytes
    };
    assert_eq!(row(from_desk(2, 0, put)), tail(8, 10, 0, [0x0a, 0x03]));
    let got = Body::GetReply {
        try_number: 0x0809,
        record,
    };
    assert_eq!(row(reply(1, 3, got)), tail(10, 1, 11, [0, 0]));
}

#[test]
fn a_state_ends_with_its_updates() {
    let bytes = row(from_relay(0, 1, state(1, 3, rec(0, 0, 9), 0x1234)));
    assert_eq!(bytes[..9], [6, 0, 1, 0, 1, 0, 3, 0, 0]);
    assert_eq!(bytes[46..50], [9, 0x12, 0x34, 0]);
}

/// A generator and a transfer: relay 0 proposes {3} for 1 and hears itself.
#[test]
fn generators_transfers_and_desks_at_their_places() {
    let mut world = start(1);
    run(&mut world, &[j(1), d(0), t(0), d(0)]);
    let image = encode(&world);
    let generator = &image[64..64 + 592];
    let three = [vec![0, 3], vec![0; 28], vec![1]].concat();
    assert_eq!(generator[..2], [0, 1]);
    assert_eq!(generator[2..33], three[..]);
    assert_eq!(generator[33..64], three[..]);
    assert_eq!(generator[64..95], [0; 31]);
    assert_eq!(generator[95..126], three[..]);
    assert_eq!(generator[343..374], [0; 31]);
    run(&mut world, &[d(0), d(0), d(1), w(2, 77)]);
    let image = encode(&world);
    let transfer = &image[5_440 + 4_800..5_440 + 4_880];
    assert_eq!(transfer[..6], [0, 1, 0, 3, 0, 3]);
    assert_eq!(
        image[43_520 + 128..43_520 + 142],
        [1, 3, 0, 1, 0, 1, 0, 0, 0, 0, 0, 0, 77, 0]
    );
    assert_eq!(
        name(5_440 + 4_801),
        "byte 10241 (relay 1, transfer 0, old view)"
    );
    assert_eq!(
        name(64 + 95 + 62),
        "byte 221 (relay 0, generator 0, proposal of 2, view 0)"
    );
    assert_eq!(name(43_520 + 128 + 12), "byte 43660 (desk 2, value)");
    assert_eq!(
        name(43_776 + 80 + 49),
        "byte 43905 (message place 1, padding, byte 0)"
    );
}

fn for_each_world(flavour: &str, seed: u64, each: impl Fn(&World)) {
    let bytes = generate::sheet(flavour, seed, None).expect("a flavour");
    let sheet = read(&bytes).expect("a good sheet");
    let mut world = start(sheet.mask);
    for (index, &asked) in sheet.steps.iter().enumerate() {
        step(&mut world, asked);
        if index % 7 == 0 {
            each(&world);
        }
    }
}

#[test]
fn an_image_is_read_back_as_its_world() {
    for flavour in ["conflict", "late", "crash", "clogged", "generators", "wild"] {
        for_each_world(flavour, 5, |world| {
            assert_eq!(decode(&encode(world)).as_ref(), Some(world));
            assert_eq!(good_world(&encode(world)).as_ref(), Some(world));
        });
    }
}

/// Places are kept in the order in which they were taken, whatever views they name.
#[test]
fn a_later_generator_of_a_lower_view_comes_after() {
    let mut world = start(7);
    hand_in(&mut world, from_relay(0, 1, proposal(7, &[15])));
    hand_in(&mut world, from_relay(0, 1, proposal(3, &[11])));
    let image = encode(&world);
    let at = 5_440 + 64;
    assert_eq!((image[at + 1], image[at + 592 + 1]), (7, 3));
}

#[test]
fn bytes_that_are_no_image_are_no_good_world() {
    let image = encode(&start(3));
    assert!(good_world(&image).is_some());
    assert!(good_world(&image[..SIZE - 1]).is_none());
    assert!(good_world(&[&image[..], &[0]].concat()).is_none());
    // a flag, the head's padding, a free generator, transfer and message, a phase, the tail
    for at in [0, 63, 64 + 100, 4_800 + 40, 43_776 + 50, 43_521, SIZE - 1] {
        let mut damaged = image.clone();
        damaged[at] = 9;
        assert!(good_world(&damaged).is_none(), "{}", name(at));
    }
}

/// Two views of one sequence in the wrong order mean the same set, but one state has one image.
#[test]
fn a_sequence_has_one_image() {
    let mut world = start(3);
    world.place(from_relay(0, 1, proposal(3, &[7, 15])));
    assert!(is_good(&world));
    let image = encode(&world);
    let mut swapped = image.clone();
    (swapped[43_776 + 10], swapped[43_776 + 12]) = (15, 7);
    assert_eq!(decode(&swapped), Some(world));
    assert!(good_world(&image).is_some() && good_world(&swapped).is_none());
}
