//! The program as it is used: outputs, errors and exit statuses.

use std::path::PathBuf;
use std::process::{Command, Output};

fn desk(args: &[&str]) -> Output {
    Command::new(env!("CARGO_BIN_EXE_desk"))
        .args(args)
        .output()
        .unwrap()
}

fn out(o: &Output) -> String {
    String::from_utf8(o.stdout.clone()).unwrap()
}

fn err(o: &Output) -> String {
    String::from_utf8(o.stderr.clone()).unwrap()
}

/// A file of its own for each test.
fn scratch(name: &str) -> String {
    let dir = PathBuf::from(env!("CARGO_TARGET_TMPDIR"));
    dir.join(name).to_str().unwrap().to_string()
}

const PAIR: &str = "examples/pair.txt";
const PAIR_TAPE: &str = "examples/pair-tape.txt";

#[test]
fn builds_and_shows_again() {
    let (bin, text, again) = (scratch("a.bin"), scratch("a.txt"), scratch("b.bin"));
    assert!(desk(&["build", PAIR, "-o", &bin]).status.success());
    let shown = desk(&["show", &bin]);
    assert!(shown.status.success());
    std::fs::write(&text, &shown.stdout).unwrap();
    assert!(desk(&["build", &text, "-o", &again]).status.success());
    assert_eq!(std::fs::read(&bin).unwrap(), std::fs::read(&again).unwrap());
    assert!(out(&desk(&["show", &bin, "--records"])).contains("block 3: number 3, kind 4 (limits)"));
}

#[test]
fn prints_the_lines_of_the_rules_from_text_and_binary() {
    let (bin, tape) = (scratch("c.bin"), scratch("c.tape"));
    desk(&["build", PAIR, "-o", &bin]);
    desk(&["tape", PAIR_TAPE, "-o", &tape, "--model", PAIR]);
    let expected = "n c s r state word pool\n1 1 0 0 1 35 0\n2 2 0 0 1 35 0\n3 4 1 15 0 0 1\n\
        4 3 0 0 2 35 0\n5 4 1 0 1 35 0\n6 8 0 0 2 35 0\n7 1 0 12 2 35 0\n";
    for model in [PAIR, &bin] {
        for commands in [PAIR_TAPE, &tape] {
            let o = desk(&["run", "--plain", model, commands]);
            if model == bin && commands == PAIR_TAPE {
                assert_eq!(o.status.code(), Some(1));
                assert!(err(&o).contains("pair-tape.txt:1: found 'scheduler'"));
            } else {
                assert_eq!(out(&o), expected);
            }
        }
    }
}

#[test]
fn runs_with_names() {
    let o = desk(&["run", PAIR, PAIR_TAPE]);
    assert!(o.status.success());
    let text = out(&o);
    assert!(text.contains("refused 15: no matching message"));
    assert!(text.contains("accepted, missing 0; placed valve"));
    assert!(text.contains("valve: ended in done, word 35"));
}

#[test]
fn runs_the_greenhouse_of_the_help() {
    let o = desk(&["run", "examples/greenhouse.txt", "examples/morning.txt"]);
    assert!(o.status.success());
    assert!(!out(&o).contains("refused"), "{}", out(&o));
    assert!(out(&o).contains("accepted, missing 0; placed valve, log"));
}

#[test]
fn shows_where_a_damaged_file_goes_wrong() {
    let bin = scratch("d.bin");
    desk(&["build", PAIR, "-o", &bin]);
    let mut file = std::fs::read(&bin).unwrap();
    file[512 + 4 + 12 + 2] = 9;
    std::fs::write(&bin, &file).unwrap();
    let o = desk(&["show", &bin]);
    assert_eq!(o.status.code(), Some(1));
    assert!(out(&o).contains("refused 2 in block 1"));
    assert!(out(&o).contains("with right checks: refused 4 in block 1"));
    assert!(
        out(&o).contains("block 1, record 1, byte 2 of the record (kind), byte 530 of the file")
    );
    assert!(out(&o).contains("expected: a state kind from 1 to 7"));
    assert!(out(&o).contains("subject 1, state 0: kind 3 (receive)"));
    assert!(err(&o).contains("refused 2"));
    assert_eq!(desk(&["run", &bin, PAIR_TAPE]).status.code(), Some(1));
}

#[test]
fn explores_and_draws() {
    let dot = scratch("e.dot");
    let o = desk(&["explore", PAIR, "--words", "0,1", "--dot", &dot]);
    assert!(o.status.success());
    assert!(out(&o).contains("search: complete"));
    assert!(std::fs::read_to_string(&dot)
        .unwrap()
        .starts_with("digraph"));
}

#[test]
fn help_has_an_example_for_each() {
    let o = desk(&["help"]);
    assert!(o.status.success());
    for name in [
        "build", "show", "tape", "run", "explore", "compare", "bench", "help",
    ] {
        assert!(out(&o).contains(&format!("\n      desk {name} ")));
        let one = desk(&["help", name]);
        assert!(one.status.success() && out(&one).contains("Example: desk"));
        assert_eq!(desk(&[name, "--help"]).stdout, one.stdout);
    }
}

#[test]
fn wrong_use_is_status_two() {
    let dir = env!("CARGO_TARGET_TMPDIR");
    let cases: [(&[&str], &str); 18] = [
        (&[], "say which"),
        (&["fly"], "there is no 'fly'"),
        (&["help", "fly"], "there is no 'fly'"),
        (&["build"], "missing: the model text"),
        (&["build", PAIR], "missing: -o"),
        (&["build", PAIR, "-o"], "-o needs a value"),
        (&["build", PAIR, "-o", dir], "is a directory"),
        (&["build", PAIR, PAIR, "-o", "x"], "one argument too many"),
        (&["show", "no-such-file"], "there is no such file"),
        (&["show", dir], "is a directory"),
        (&["show", "--model", "x"], "there is no option --model"),
        (&["tape", PAIR_TAPE], "is text: give -o"),
        (&["run", PAIR], "missing: the tape"),
        (&["explore", PAIR, "--words", "a"], "'a' is no word"),
        (&["explore", PAIR, "--most", "0"], "'0' is no number"),
        (&["compare", "--cases", "few"], "'few' is no number"),
        (&["compare", "x"], "one argument too many"),
        (&["bench", "--runs", "0"], "'0' is no number"),
    ];
    for (args, part) in cases {
        let o = desk(args);
        assert_eq!(o.status.code(), Some(2), "{args:?}");
        assert!(err(&o).contains(part), "{args:?}: {}", err(&o));
        assert!(out(&o).is_empty());
    }
}

#[test]
fn refused_input_is_status_one() {
    let bad = scratch("bad.txt");
    std::fs::write(&bad, "subject a starts\nstate s internal\n-> t\n").unwrap();
    let o = desk(&["build", &bad, "-o", &scratch("bad.bin")]);
    assert_eq!(o.status.code(), Some(1));
    assert!(err(&o).contains("bad.txt:3: found 't', expected the name of a state"));
    std::fs::write(&bad, "").unwrap();
    let o = desk(&["explore", &bad]);
    assert_eq!(o.status.code(), Some(1));
    assert!(err(&o).contains("refused 1 in block 0"));
}

#[test]
#[cfg_attr(not(proved), ignore = "the proved engine's archive is not linked")]
fn compares_and_times() {
    let compared = desk(&["compare", "--seed", "5", "--cases", "20"]);
    assert!(compared.status.success(), "{}", out(&compared));
    assert!(out(&compared).contains("seed 5, 20 of 20 cases"));
    assert!(out(&compared).contains("\nWrite answered\n"));
    let timed = desk(&["bench", "--runs", "1"]);
    assert!(timed.status.success());
    assert!(out(&timed).contains("| large | public step, mix |"));
    assert!(out(&timed).contains("| full | write / 43 checks |"));
}

#[test]
#[cfg_attr(proved, ignore = "the proved engine's archive is linked")]
fn says_how_to_get_the_proved_engine() {
    for words in [&["compare", "--cases", "20"], &["bench", "--runs", "1"]] {
        let o = desk(words);
        assert_eq!(o.status.code(), Some(2));
        assert!(err(&o).contains("'rt lib' in crates/exported of the repository"));
        assert!(out(&o).is_empty());
    }
}
