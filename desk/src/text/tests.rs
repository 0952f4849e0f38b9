//! Texts that are right, and the errors of texts that are wrong.

use super::model_parse::parse_model;
use super::names::*;
use super::tape_parse::parse_tape;
use super::tape_print::tape_text;
use crate::second::*;

const PAIR: &str = include_str!("../../examples/pair.txt");
const PAIR_TAPE: &str = include_str!("../../examples/pair-tape.txt");

/// The line of the error and its words.
fn wrong(text: &str) -> (usize, String) {
    let error = parse_model(text).expect_err(text);
    (error.line, error.to_string())
}

#[track_caller]
fn expect_wrong(text: &str, line: usize, part: &str) {
    let (at, words) = wrong(text);
    assert_eq!(at, line, "{words}");
    assert!(words.contains(part), "{words}");
}

/// A subject whose only state is this one, and an end.
fn one(state: &str) -> String {
    format!("subject a starts\nstate s {state}\nstate e end\n")
}

#[test]
fn names_and_defaults() {
    let named = parse_model(PAIR).unwrap();
    assert_eq!(named.names.subjects, ["scheduler", "valve"]);
    assert_eq!(named.names.states[0], ["measure", "report", "done"]);
    assert_eq!(named.names.types[0], "reading");
    assert_eq!(named.model.start, 3);
    assert_eq!(named.model.subjects[0].states[1].exits[0].typ, 0);
}

#[test]
fn types_are_declared_or_numbered_by_use() {
    let text = "type late\ntype fixed 0\nsubject a starts\nlimit new from any 2\nlimit 3 from a 1\n\
        state s send fixed to a\n-> r\nstate r receive\nnew from a -> s\n7 from a -> s\nlate from a -> s\n";
    let named = parse_model(text).unwrap();
    let types: Vec<u8> = named.model.subjects[0].states[1]
        .exits
        .iter()
        .map(|e| e.typ)
        .collect();
    assert_eq!(types, [2, 7, 1]);
    assert_eq!(named.names.typ(0), "fixed");
    assert_eq!(named.names.typ(7), "7");
    assert_eq!(named.model.subjects[0].limits[0].sender, 0);
}

#[test]
fn initial_arrows_and_pool_defaults() {
    let text = "subject a starts # it does\r\n initial s\r\n state e end\r\n state s ask-empty\r\n\
        not-empty->c\r\n empty->e\r\n state c close x\r\n ->o\r\n state o open from a\r\n -> s\r\n";
    let named = parse_model(text).unwrap();
    let a = &named.model.subjects[0];
    assert_eq!(a.initial, 1);
    assert_eq!(a.states[1].exits[0].target, 0);
    assert_eq!((a.states[2].typ, a.states[2].sender), (0, ANY));
    assert_eq!((a.states[3].typ, a.states[3].sender), (ANY, 0));
}

#[test]
fn wrong_lines_are_named() {
    expect_wrong("", 1, "no subject that starts");
    expect_wrong("state a end", 1, "'subject NAME' before");
    expect_wrong("subject a starts\n-> b", 2, "'state NAME KIND' before");
    expect_wrong("subject a\nstate s internal\n-> s", 1, "at least once");
    expect_wrong("subject a starts", 1, "1 to 32 states");
    expect_wrong("subject a starts\nstate s end", 2, "not an end");
    expect_wrong("subject any starts", 1, "no word of the model text");
    expect_wrong("subject 3 starts", 1, "a name: a letter");
    expect_wrong("subject a stars", 1, "'subject NAME starts'");
    expect_wrong("subject a\nsubject a", 2, "not used before");
    expect_wrong("type x 32", 1, "a type from 0 to 31");
    expect_wrong("type x 1\ntype y 1", 2, "no other type has");
    expect_wrong(
        "subject a starts\nlimit x from a 0",
        2,
        "a limit from 1 to 16",
    );
    expect_wrong(
        "subject a starts\nlimit x from a 17",
        2,
        "a limit from 1 to 16",
    );
    expect_wrong(
        "subject a starts\nlimit a any 1",
        2,
        "'limit TYPE from SENDER NUMBER'",
    );
}

#[test]
fn wrong_states_are_named() {
    expect_wrong(
        &one("internall"),
        2,
        "found 'internall', expected internal, send",
    );
    expect_wrong(&one(""), 2, "found nothing");
    expect_wrong(&one("internal"), 2, "with 0 exits");
    expect_wrong(
        &one("internal\n-> x"),
        3,
        "the name of a state of this subject",
    );
    expect_wrong(&one("send x to b\n-> e"), 2, "the name of a subject");
    expect_wrong(&one("send any to a\n-> e"), 2, "one type, not any");
    expect_wrong(&one("send x\n-> e"), 2, "'send TYPE to RECEIVER");
    expect_wrong(&one("send x to a\n-> e\n-> e"), 4, "no more than 1 exit");
    expect_wrong(&one("receive\n-> e"), 3, "'TYPE from SENDER -> STATE'");
    expect_wrong(&one("receive\nx from any -> e"), 3, "the name of a subject");
    expect_wrong(
        &one("close\n-> e\ntimeout 3 -> e"),
        4,
        "only in an internal",
    );
    expect_wrong(
        &one("internal\n-> e\ntimeout 0 -> e"),
        4,
        "1 to 65535 ticks",
    );
    expect_wrong(
        &one("internal\n-> e\ncancel e\ncancel e"),
        5,
        "one of these",
    );
    expect_wrong(&one("ask-empty\nempty -> e"), 2, "each once");
    expect_wrong(&one("ask-empty\nempty -> e\nempty -> e"), 4, "each once");
    let many = format!("subject a starts\nstate s internal\n{}", "-> s\n".repeat(9));
    expect_wrong(&many, 11, "no more than 8 exits");
    let twice = "subject a starts\nlimit x from a 1\nlimit x from a 2\nstate s internal\n-> s";
    expect_wrong(twice, 3, "one limit for each");
}

#[test]
fn the_tape_of_the_pair_reads_with_its_names() {
    let named = parse_model(PAIR).unwrap();
    let tape = parse_tape(PAIR_TAPE, Some(&named)).unwrap();
    let numbers = "do 0 0 35\nreserve 0\ntake 1 0\ndeliver 0\ntake 1 0\ntick\ndo 0 0 9\n";
    assert_eq!(parse_tape(numbers, None), Ok(tape.clone()));
    assert_eq!(tape_text(&tape, None), numbers);
    let named_text = tape_text(&tape, Some(&named));
    assert!(named_text.starts_with("do scheduler report 35\nreserve scheduler\ntake valve done\n"));
}

#[test]
fn raw_forms_ticks_and_cuts() {
    let text = "tick 3\ncode 9 subject 3\ncode 2 exit 1 ignored 7 word 0x10\ncut 1 2\n";
    let tape = parse_tape(text, None).unwrap();
    assert_eq!(tape.len(), 5 * 8 + 2);
    assert_eq!(
        tape[24..40],
        [9, 3, 0, 0, 0, 0, 0, 0, 2, 0, 1, 7, 16, 0, 0, 0]
    );
    let shown = "tick 3\ncode 9 subject 3\ncode 2 exit 1 ignored 7 word 16\ncut 1 2\n";
    assert_eq!(tape_text(&tape, None), shown);
}

#[test]
fn wrong_tape_lines_are_named() {
    let named = parse_model(PAIR).unwrap();
    let wrong = |text: &str| parse_tape(text, Some(&named)).unwrap_err().to_string();
    assert!(wrong("jump 3").starts_with("1: found 'jump', expected do, reserve"));
    assert!(wrong("do valve").contains("'do SUBJECT EXIT WORD'"));
    assert!(wrong("do pump 0 1").contains("a subject's name or number"));
    assert!(wrong("do scheduler done 1").contains("'measure' leads to"));
    assert!(wrong("do scheduler 0 4294967296").contains("a word from 0"));
    assert!(wrong("tick 0").contains("from 1 to"));
    assert!(wrong("cut").contains("1 to 7 bytes"));
    assert!(wrong("cut 1\ntick").starts_with("2: found 'tick', expected nothing"));
    assert!(wrong("code 1 subjekt 2").contains("found 'subjekt'"));
    let unnamed = parse_tape("reserve valve", None).unwrap_err().to_string();
    assert!(unnamed.contains("--model"));
}

#[test]
fn several_exits_to_one_state_need_the_number() {
    let text = "subject a starts\nstate s internal\n-> e\n-> e\n-> s\nstate e end\n";
    let named = parse_model(text).unwrap();
    let error = parse_tape("do a e 1", Some(&named)).unwrap_err();
    assert!(error.to_string().contains("several exits"));
    let tape = parse_tape("do a 2 1\ndo a 1 1", Some(&named)).unwrap();
    assert_eq!(tape_text(&tape, Some(&named)), "do a s 1\ndo a 1 1\n");
}

#[test]
fn every_refusal_has_words() {
    for number in (1..=5).chain(8..=20) {
        assert_ne!(refusal_word(number), refusal_word(99));
    }
}
