//! The text form of sheets: both ways round, repeats, and each thing that is said
//! where a text or a sheet is wrong.

use second::generate;
use second::sheet::{bytes_unchecked, read, Sheet};
use second::step::Step;
use second::text::{fault, parse, print, HELP};
use std::io::Write;
use std::process::{Command, Output, Stdio};

fn parsed(text: &str) -> Sheet {
    parse(text.as_bytes()).unwrap_or_else(|error| panic!("{error}: {text}"))
}

fn canonical(text: &str) -> String {
    print(&parsed(text))
}

fn wrong(text: &str, expected: &str) {
    let said = parse(text.as_bytes()).map_err(|error| error.to_string());
    assert_eq!(said, Err(expected.to_string()), "{text:?}");
}

/// As the third line, so that the line's number is not the step's.
fn wrong_step(line: &str, expected: &str) {
    wrong(
        &format!("START 1\n# a comment\n{line}\nJOIN 1\n"),
        &format!("line 3: {expected}"),
    );
}

#[test]
fn the_words_and_their_bytes() {
    let text = "START 7\nJOIN 3\nLEAVE 0\nTIMER 1\nREAD 2\nWRITE 3 4294967295\nDELIVER 255\n\
                DROP 5\nCRASH relay 7\nCRASH desk 0\nCRASH desk 3\n";
    let steps = [
        (1, 3, 0),
        (2, 0, 0),
        (3, 1, 0),
        (4, 2, 0),
        (5, 3, u32::MAX),
        (6, 255, 0),
        (7, 5, 0),
        (8, 7, 0),
        (8, 8, 0),
        (8, 11, 0),
    ];
    let steps = steps.map(|(kind, id, value)| Step { kind, id, value });
    let steps = steps.to_vec();
    assert_eq!(parsed(text), Sheet { mask: 7, steps });
    assert_eq!(canonical(text), text);
}

#[test]
fn what_the_words_cannot_say_is_written_as_numbers() {
    let text = "START 1\nSTEP 0 0 0\nSTEP 1 8 0\nSTEP 2 0 1\nSTEP 4 4 0\nSTEP 5 4 7\nSTEP 6 0 9\n\
                STEP 8 12 0\nSTEP 9 255 4294967295\nSTEP 255 0 0\n";
    assert_eq!(canonical(text), text);
    let sayable = "START 1\nSTEP 6 5 0\nSTEP 5 1 9\nSTEP 8 9 0\nCRASH 9\nCRASH 2\n";
    assert_eq!(
        canonical(sayable),
        "START 1\nDELIVER 5\nWRITE 1 9\nCRASH desk 1\nCRASH desk 1\nCRASH relay 2\n"
    );
}

#[test]
fn every_step_has_a_text_that_gives_it_back() {
    for kind in 0..=255 {
        let steps = |value| (0..=255).map(move |id| Step { kind, id, value });
        let steps: Vec<Step> = steps(0).chain(steps(1)).collect();
        let sheet = Sheet { mask: 255, steps };
        assert_eq!(parsed(&print(&sheet)), sheet, "kind {kind}");
    }
}

#[test]
fn cases_blanks_comments_and_line_ends() {
    let text = "\u{feff}# a lesson\r\n\r\n  start\tRelays 2 0 # two\r\n\r\n deliver 05\r\n\
                Crash DESK 1#close\r\n#\r\n\twrite 1 007";
    let expected = "START 5\nDELIVER 5\nCRASH desk 1\nWRITE 1 7\n";
    assert_eq!(canonical(text), expected);
    assert_eq!(canonical("START 255"), "START 255\n");
}

#[test]
fn repeats() {
    let text = "START 1\n3 * DELIVER 0\n2*crash desk 1\n1 *STEP 9 0 0\nJOIN 1\n";
    let expected = "START 1\nDELIVER 0\nDELIVER 0\nDELIVER 0\nCRASH desk 1\nCRASH desk 1\n\
                    STEP 9 0 0\nJOIN 1\n";
    assert_eq!(canonical(text), expected);
    assert_eq!(parsed("START 1\n8000 * DROP 0").steps.len(), 8000);
    assert_eq!(
        parsed("START 1\n7999 * DROP 0\nDROP 1").steps[7999],
        Step::new(7, 1)
    );
    let count = "a repeat wants a count 1 to 8000";
    wrong_step("0 * JOIN 1", &format!("{count}, not '0'"));
    wrong_step("8001 * JOIN 1", &format!("{count}, not '8001'"));
    wrong_step("two * JOIN 1", &format!("{count}, not 'two'"));
    wrong_step("* JOIN 1", &format!("{count}, and the line ends before it"));
    wrong_step("2 3 * JOIN 1", "'3' is one word too many for a repeat");
    wrong_step("2 *", "a repeat wants a step after '*'");
    wrong_step("2 * 2 * JOIN 1", "a step may be repeated once only");
    wrong_step("2 * START 1", "START stands once, before the first step");
}

#[test]
fn too_many_steps() {
    let said = "a sheet has at most 8000 steps, and this line makes 8001";
    wrong(
        "START 1\n8000 * DROP 0\n\nJOIN 1",
        &format!("line 4: {said}"),
    );
    wrong(
        "START 1\n4000 * DROP 0\n4001 * DROP 0",
        &format!("line 3: {said}"),
    );
}

#[test]
fn a_wrong_start() {
    let none = "the text ends and no START has come";
    wrong("", &format!("line 1: {none}"));
    wrong("# only\n# comments\n\n", &format!("line 3: {none}"));
    wrong(
        "\nJOIN 1\nSTART 1",
        "line 2: the text must begin with START, not 'JOIN'",
    );
    let wants = "line 1: START wants relays, or a mask 1 to 255";
    for word in ["0", "256", "-1", "+1", "0x7", "relay", "99999999999"] {
        wrong(&format!("START {word}"), &format!("{wants}, not '{word}'"));
    }
    wrong("START", &format!("{wants}, and the line ends before it"));
    wrong("START 1 x", "line 1: 'x' is one word too many for START");
    wrong(
        "START 0 1 2",
        "line 1: START takes one mask: did you mean START relays 0 1 2?",
    );
    let wants = "line 1: START relays wants a relay 0 to 7";
    wrong(
        "START relays",
        &format!("{wants}, and the line ends before it"),
    );
    wrong("START relays 0 8", &format!("{wants}, not '8'"));
    wrong(
        "START relays 0 1 0",
        "line 1: START relays names relay 0 twice",
    );
    wrong_step("START 1", "START stands once, before the first step");
}

#[test]
fn numbers_that_are_missing_or_out_of_range() {
    wrong_step("DELIVER 300", "DELIVER wants a place 0 to 255, not '300'");
    wrong_step("drop -1", "DROP wants a place 0 to 255, not '-1'");
    for word in ["JOIN", "LEAVE", "TIMER"] {
        wrong_step(
            &format!("{word} 8"),
            &format!("{word} wants a relay 0 to 7, not '8'"),
        );
    }
    for word in ["READ", "WRITE"] {
        wrong_step(
            &format!("{word} 4"),
            &format!("{word} wants a desk 0 to 3, not '4'"),
        );
    }
    let value = "WRITE wants a value 0 to 4294967295";
    wrong_step("WRITE 0", &format!("{value}, and the line ends before it"));
    wrong_step("WRITE 0 4294967296", &format!("{value}, not '4294967296'"));
    wrong_step(
        "JOIN",
        "JOIN wants a relay 0 to 7, and the line ends before it",
    );
    let crash = "CRASH wants relay, desk or a number 0 to 11";
    wrong_step("CRASH 12", &format!("{crash}, not '12'"));
    wrong_step("CRASH all", &format!("{crash}, not 'all'"));
    wrong_step(
        "CRASH relay 8",
        "CRASH relay wants a number 0 to 7, not '8'",
    );
    wrong_step("CRASH desk 4", "CRASH desk wants a number 0 to 3, not '4'");
    wrong_step("STEP 256 0 0", "STEP wants a kind 0 to 255, not '256'");
    wrong_step("STEP 0 256 0", "STEP wants an id 0 to 255, not '256'");
    wrong_step(
        "STEP 0 0",
        "STEP wants a value 0 to 4294967295, and the line ends before it",
    );
}

#[test]
fn words_too_many_and_unknown() {
    wrong_step("DELIVER 5 6", "'6' is one word too many for DELIVER");
    wrong_step("READ 1 77", "'77' is one word too many for READ");
    wrong_step("WRITE 1 2 3", "'3' is one word too many for WRITE");
    wrong_step("CRASH desk 1 2", "'2' is one word too many for CRASH desk");
    wrong_step("STEP 1 2 3 4", "'4' is one word too many for STEP");
    for (word, meant) in [
        ("DELVER", "DELIVER"),
        ("deliver:", "DELIVER"),
        ("JION", "JOIN"),
        ("Crush", "CRASH"),
        ("STEPS", "STEP"),
        ("WRIT", "WRITE"),
    ] {
        wrong_step(
            &format!("{word} 1"),
            &format!("unknown word '{word}': did you mean {meant}?"),
        );
    }
    wrong_step(
        "4 DELIVER 0",
        "a step begins with a word: did you mean 4 * DELIVER 0?",
    );
    wrong_step(
        "TRANSMIT 1",
        "unknown word 'TRANSMIT': a step begins with JOIN, LEAVE, TIMER, READ, WRITE, DELIVER, \
         DROP, CRASH or STEP",
    );
}

#[test]
fn bytes_that_are_no_text() {
    let error = parse(b"START 1\nJOIN 1\nWRITE 0 \xff\n").expect_err("no text");
    assert_eq!(error.to_string(), "line 3: not text (UTF-8 is wanted)");
}

#[test]
fn every_flavour_goes_round() {
    for name in generate::names() {
        for seed in 1..=2 {
            let bytes = generate::sheet(name, seed, None).expect("a flavour");
            let sheet = read(&bytes);
            assert_eq!(fault(&bytes).is_some(), sheet.is_err(), "{name} {seed}");
            let Ok(sheet) = sheet else { continue };
            let text = print(&sheet);
            assert_eq!(bytes_unchecked(&parsed(&text)), bytes, "{name} {seed}");
            assert_eq!(canonical(&text), text, "{name} {seed}");
        }
    }
}

#[test]
fn a_fault_is_found_exactly_where_a_sheet_is_bad() {
    for seed in 1..=300 {
        let bytes = generate::sheet("damaged", seed, None).expect("a flavour");
        assert_eq!(fault(&bytes).is_some(), read(&bytes).is_err(), "{seed}");
    }
}

#[test]
fn each_fault_in_the_words_of_document_01() {
    let good = bytes_unchecked(&parsed("START 5\nJOIN 1\nWRITE 0 7\n"));
    let with = |at: usize, byte| {
        let mut bytes = good.clone();
        bytes[at] = byte;
        bytes
    };
    let long = Sheet {
        mask: 1,
        steps: vec![Step::new(6, 0); 8001],
    };
    let two_bytes = "non-zero in the two bytes (step 2 has 0x00 0x2a there)";
    let faults = [
        (good[..5].to_vec(), "under six bytes (there are 5)"),
        (
            b"START 1\n".to_vec(),
            "wrong mark (it begins with 'STA', not 'ARS')",
        ),
        (with(4, 2), "wrong version (0x0002, not 0x0001)"),
        (with(5, 0), "mask 0 (no relay would be there at the start)"),
        (
            good[..17].to_vec(),
            "a part step (3 of 8 bytes after step 1)",
        ),
        (with(17, 42), two_bytes),
        (bytes_unchecked(&long), "over 8,000 steps (there are 8001)"),
    ];
    for (bytes, expected) in faults {
        assert_eq!(fault(&bytes), Some(format!("BAD SHEET: {expected}")));
    }
    assert_eq!(fault(&good), None);
}

fn run(words: &[&str], input: &[u8]) -> Output {
    let mut command = Command::new(env!("CARGO_BIN_EXE_sheet"));
    let command = command.args(words).stdin(Stdio::piped());
    let command = command.stdout(Stdio::piped()).stderr(Stdio::piped());
    let mut child = command.spawn().expect("the program starts");
    let mut stdin = child.stdin.take().expect("a pipe");
    // A program that stops before it reads closes the pipe; that is its answer.
    let _ = stdin.write_all(input);
    drop(stdin);
    child.wait_with_output().expect("the program ends")
}

fn refused(output: &Output, status: i32, said: &str) {
    assert_eq!(output.status.code(), Some(status));
    assert_eq!(output.stdout, b"");
    assert_eq!(String::from_utf8_lossy(&output.stderr), said);
}

#[test]
fn the_program_writes_and_reads() {
    let text = "# a lesson\nSTART relays 0\n2 * deliver 0\n";
    let written = run(&["write"], text.as_bytes());
    assert_eq!(written.status.code(), Some(0));
    assert_eq!(written.stdout, bytes_unchecked(&parsed(text)));
    let back = run(&["read"], &written.stdout);
    assert_eq!(back.stdout, b"START 1\nDELIVER 0\nDELIVER 0\n");
    let help = run(&["--help"], b"");
    assert_eq!((help.status.code(), help.stdout), (Some(0), HELP.into()));
}

#[test]
fn the_program_takes_a_file() {
    let file = std::env::temp_dir().join(format!("sheet-test-{}", std::process::id()));
    let name = file.to_str().expect("a plain name");
    std::fs::write(&file, "START 2\nJOIN 0\n").expect("a file");
    let written = run(&["write", name], b"");
    std::fs::write(&file, &written.stdout).expect("a file");
    let back = run(&["read", name], b"");
    std::fs::remove_file(&file).expect("the file is there");
    assert_eq!(back.stdout, b"START 2\nJOIN 0\n");
    let missing = run(&["read", name], b"");
    assert_eq!(missing.status.code(), Some(1));
    assert_eq!(missing.stdout, b"");
    assert!(String::from_utf8_lossy(&missing.stderr).starts_with(name));
}

#[test]
fn the_program_says_why_and_writes_nothing() {
    refused(
        &run(&["write"], b"START 1\nJOIN 1\nDELIVER 300\n"),
        1,
        "line 3: DELIVER wants a place 0 to 255, not '300'\n",
    );
    refused(
        &run(&["read"], b"ARS"),
        1,
        "BAD SHEET: under six bytes (there are 3)\n",
    );
    let usage = "sheet write [FILE] | sheet read [FILE] | sheet --help\n";
    for words in [&[][..], &["wite"], &["read", "a", "b"]] {
        refused(&run(words, b""), 2, usage);
    }
}
