//! The sheets for the classroom: their three files agree, and each shows what its
//! README says it shows.

use second::record::rehearse;
use second::rules::Rule;
use second::sheet::{bytes_unchecked, Sheet};
use second::step::step;
use second::text;
use second::world::World;
use std::fs;
use std::path::PathBuf;

/// A step that makes the point: its number, the line it prints, a rule it meets.
type Point = (usize, &'static str, Rule);

const EXAMPLES: &[(&str, &[Point])] = &[
    (
        "asked-too-early",
        &[
            (13, "13 6 0 0 0 0 0", Rule::GetNotYetNotActive),
            (26, "26 6 0 0 0 0 0", Rule::InstallNotYet),
            (28, "28 0 1 1 0 0 3", Rule::EntryActive),
            (29, "29 0 0 0 0 0 0", Rule::GetReply),
            (30, "30 0 2 0 0 0 0", Rule::Read1Agreed),
            (31, "31 0 0 0 0 0 0", Rule::InstallStateSent),
        ],
    ),
    (
        "crash-and-go-on",
        &[
            (3, "3 4 0 0 0 0 0", Rule::DeadReceiver),
            (4, "4 0 0 0 0 0 0", Rule::DroppedDeadReceiver),
            (12, "12 0 3 0 1 0 77", Rule::Write2Ends),
            (14, "14 4 0 0 0 0 0", Rule::DeadActor),
            (20, "20 0 2 1 1 0 77", Rule::Read1Agreed),
        ],
    ),
    (
        "full-places",
        &[
            (33, "33 8 0 0 0 0 0", Rule::NoRoomMessages),
            (41, "41 8 0 0 0 0 0", Rule::NoRoomMessages),
            (43, "43 0 0 0 0 0 0", Rule::ReadBegun),
            (44, "44 0 0 0 0 0 0", Rule::DeliveredPlaceCounted),
        ],
    ),
    (
        "grown-proposal",
        &[
            (11, "11 0 0 0 0 0 0", Rule::ProposalConflict),
            (12, "12 0 0 0 0 0 0", Rule::ProposalConflict),
            (14, "14 0 0 0 0 0 0", Rule::ConvergedSet),
            (17, "17 0 0 0 0 0 0", Rule::ConvergenceNoQuorum),
            (22, "22 0 1 0 0 0 15", Rule::EntryActive),
            (24, "24 0 1 1 0 0 15", Rule::EntryActive),
            (27, "27 0 1 2 0 0 15", Rule::EntryActive),
            (30, "30 0 1 3 0 0 15", Rule::EntryActive),
        ],
    ),
    (
        "join",
        &[
            (12, "12 0 1 0 0 0 3", Rule::EntryActive),
            (13, "13 0 0 0 0 0 0", Rule::EntryNoQuorum),
            (14, "14 0 1 1 0 0 3", Rule::EntryByState),
            (21, "21 0 2 2 1 0 77", Rule::Read1Agreed),
        ],
    ),
    (
        "late-reply",
        &[
            (30, "30 0 0 0 0 0 0", Rule::DeskViewAdopted1),
            (33, "33 0 0 0 0 0 0", Rule::DeskLateReply),
            (35, "35 0 2 0 1 1 55", Rule::Read1Agreed),
        ],
    ),
    (
        "overlap",
        &[
            (3, "3 0 0 0 0 0 0", Rule::Write1Done),
            (10, "10 0 1 0 0 0 3", Rule::EntryActive),
            (12, "12 0 1 1 0 0 3", Rule::EntryActive),
            (17, "17 0 0 0 0 0 0", Rule::PutStored),
            (30, "30 0 2 1 1 0 77", Rule::Read2Ends),
            (40, "40 0 3 2 2 2 88", Rule::Write2Ends),
        ],
    ),
    (
        "read-puts-back",
        &[
            (15, "15 0 0 0 0 0 0", Rule::Read1PutsBack),
            (19, "19 0 2 1 1 0 77", Rule::Read2Ends),
            (30, "30 0 2 2 1 0 77", Rule::Read2Ends),
        ],
    ),
    (
        "refusals",
        &[
            (1, "1 2 0 0 0 0 0", Rule::BadStepKind),
            (2, "2 3 0 0 0 0 0", Rule::EmptyDeliver),
            (4, "4 4 0 0 0 0 0", Rule::DeadActor),
            (5, "5 5 0 0 0 0 0", Rule::JoinNotNowEntered),
            (13, "13 6 0 0 0 0 0", Rule::GetNotYetNotActive),
            (15, "15 0 0 0 0 0 0", Rule::GetViewReply),
        ],
    ),
    (
        "set-changes-under-a-write",
        &[
            (3, "3 0 0 0 0 0 0", Rule::Write1Done),
            (12, "12 0 1 1 0 0 3", Rule::EntryActive),
            (13, "13 0 0 0 0 0 0", Rule::PutViewReply),
            (14, "14 0 0 0 0 0 0", Rule::DeskViewAdopted2),
            (18, "18 0 3 0 1 0 77", Rule::Write2Ends),
            (25, "25 0 2 1 1 0 77", Rule::Read1Agreed),
        ],
    ),
    (
        "two-desks-one-count",
        &[
            (12, "12 0 0 0 0 0 0", Rule::PutStored),
            (14, "14 0 0 0 0 0 0", Rule::PutNotStored),
            (16, "16 0 3 0 1 0 10", Rule::Write2Ends),
            (18, "18 0 3 1 1 1 20", Rule::Write2Ends),
            (23, "23 0 2 2 1 1 20", Rule::Read1Agreed),
        ],
    ),
    (
        "worked",
        &[
            (5, "5 0 3 0 1 0 77", Rule::Write2Ends),
            (8, "8 0 2 1 1 0 77", Rule::Read1Agreed),
            (9, "9 3 0 0 0 0 0", Rule::EmptyDeliver),
        ],
    ),
];

fn file(name: &str) -> PathBuf {
    let package = PathBuf::from(env!("CARGO_MANIFEST_DIR"));
    package.join("../examples").join(name)
}

fn bytes_of(name: &str) -> Vec<u8> {
    fs::read(file(name)).unwrap_or_else(|error| panic!("{name}: {error}"))
}

fn text_of(name: &str) -> String {
    String::from_utf8(bytes_of(name)).expect("text")
}

fn sheet_of(name: &str) -> Sheet {
    let parsed = text::parse(&bytes_of(&format!("{name}.txt")));
    parsed.unwrap_or_else(|error| panic!("{name}.txt: {error}"))
}

#[test]
fn the_folder_has_three_files_for_each_and_nothing_else() {
    let entries = fs::read_dir(file("")).expect("the folder");
    let name_of = |entry: fs::DirEntry| entry.file_name().into_string().expect("a plain name");
    let mut found: Vec<String> = entries.map(|entry| name_of(entry.expect("read"))).collect();
    let three = |name| ["record", "sheet", "txt"].map(|kind| format!("{name}.{kind}"));
    let mut expected: Vec<String> = EXAMPLES.iter().flat_map(|(name, _)| three(name)).collect();
    expected.push("README.md".to_string());
    found.sort();
    expected.sort();
    assert_eq!(found, expected);
}

#[test]
fn the_sheet_is_what_the_text_gives_and_the_record_what_is_printed() {
    for (name, _) in EXAMPLES {
        let bytes = bytes_unchecked(&sheet_of(name));
        assert_eq!(bytes_of(&format!("{name}.sheet")), bytes, "{name}");
        let record = text_of(&format!("{name}.record"));
        assert_eq!(record, rehearse(&bytes).0, "{name}");
    }
}

#[test]
fn each_makes_its_point() {
    for (name, points) in EXAMPLES {
        let sheet = sheet_of(name);
        let mut world = World::start(sheet.mask).expect("a mask above 0");
        let reports = sheet.steps.iter().map(|&asked| step(&mut world, asked));
        let reports: Vec<_> = reports.collect();
        let record = text_of(&format!("{name}.record"));
        let lines: Vec<&str> = record.lines().collect();
        for &(number, line, rule) in *points {
            assert_eq!(lines[number], line, "{name}");
            let rules = &reports[number - 1].rules;
            assert!(rules.contains(&rule), "{name} {number}: {rules:?}");
        }
    }
}

#[test]
fn two_desks_leave_one_stamp_at_both_relays() {
    let sheet = sheet_of("two-desks-one-count");
    let mut world = World::start(sheet.mask).expect("a mask above 0");
    for &asked in &sheet.steps[..14] {
        step(&mut world, asked);
    }
    let held = |relay: usize| {
        (
            world.relays[relay].record.stamp.desk,
            world.relays[relay].record.value,
        )
    };
    assert_eq!([held(0), held(1)], [(1, 20), (1, 20)]);
}

#[test]
fn refusals_has_each_of_2_to_6_once() {
    let record = text_of("refusals.record");
    let steps = record
        .lines()
        .skip(1)
        .filter(|line| !line.starts_with("end"));
    let answers: Vec<&str> = steps.filter_map(|line| line.split(' ').nth(1)).collect();
    for answer in ["2", "3", "4", "5", "6"] {
        let times = answers.iter().filter(|&&given| given == answer).count();
        assert_eq!(times, 1, "answer {answer}");
    }
}

/// The comments count the steps, and a step put in or taken out moves them all.
#[test]
fn the_comments_number_the_steps() {
    for (name, _) in EXAMPLES {
        let mut before = 0;
        let text = text_of(&format!("{name}.txt"));
        for line in text.lines().filter(|line| !line.starts_with("START")) {
            let alone = text::parse(format!("START 1\n{line}").as_bytes()).expect("a line");
            let (first, last) = (before + 1, before + alone.steps.len());
            before = last;
            let expected = match last + 1 - first {
                0 => continue,
                1 => format!("# {last}"),
                _ => format!("# {first}-{last}"),
            };
            let comment = &line[line.find('#').unwrap_or(line.len())..];
            let numbered = comment.split(':').next().unwrap_or_default();
            assert_eq!(numbered, expected, "{name}: {line}");
        }
    }
}

#[test]
fn the_readme_quotes_lines_of_the_records() {
    let readme = text_of("README.md");
    let sections: Vec<&str> = readme.split("\n## ").skip(1).collect();
    assert_eq!(sections.len(), EXAMPLES.len());
    for section in sections {
        let (name, told) = section.split_once('\n').expect("a heading line");
        assert!(EXAMPLES.iter().any(|(known, _)| *known == name), "{name}");
        let record = text_of(&format!("{name}.record"));
        let quotes: Vec<&str> = told.split('`').skip(1).step_by(2).collect();
        assert!(!quotes.is_empty(), "{name}");
        for quote in quotes {
            assert!(record.lines().any(|line| line == quote), "{name}: {quote}");
        }
    }
}
