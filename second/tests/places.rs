//! The record with places: the record itself, and what each step sent below its line.

use second::{generate, places, record};

fn without_places(text: &str) -> String {
    text.split_inclusive('\n')
        .filter(|line| !line.starts_with(' '))
        .collect()
}

#[test]
fn the_other_lines_are_the_record() {
    for flavour in generate::names() {
        for seed in 1..4 {
            let sheet = generate::sheet(flavour, seed, Some(300)).expect("a flavour's name");
            let (record, _) = record::rehearse(&sheet);
            assert_eq!(
                without_places(&places::told(&sheet)),
                record,
                "{flavour} {seed}"
            );
        }
    }
}

#[test]
fn as_many_messages_are_told_as_the_record_counts_sent() {
    let sheet = std::fs::read("../examples/join.sheet").expect("the examples stand beside");
    let told = places::told(&sheet);
    let sent = told
        .lines()
        .filter(|line| line.starts_with("    place "))
        .count();
    let end: Vec<&str> = told
        .lines()
        .last()
        .expect("a record has lines")
        .split(' ')
        .collect();
    assert_eq!(end[0], "end");
    assert_eq!(end[1], sent.to_string());
}

#[test]
fn the_install_and_the_state_of_a_joiner() {
    let sheet = std::fs::read("../examples/join.sheet").expect("the examples stand beside");
    let told = places::told(&sheet);
    let after = |step: &str| {
        let from = told.find(&format!("\n{step} ")).expect("the step's line") + 1;
        told[from..]
            .lines()
            .skip(1)
            .take_while(|line| line.starts_with(' '))
            .collect::<Vec<_>>()
    };
    assert_eq!(
        after("10"),
        [
            "    place 0: relay 0 to relay 0: install {3}, view 1 to 3",
            "    place 1: relay 0 to relay 1: install {3}, view 1 to 3",
        ]
    );
    assert_eq!(
        after("11"),
        [
            "    place 0: relay 0 to relay 0: state stamp (1,0) value 77, view 1 to 3",
            "    place 2: relay 0 to relay 1: state stamp (1,0) value 77, view 1 to 3",
        ]
    );
    assert_eq!(
        after("6"),
        ["    place 0: relay 1 to relay 0: request +1, view 1"]
    );
}
