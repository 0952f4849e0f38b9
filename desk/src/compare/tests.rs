//! Comparing against the stand-in for the proved engine: no difference where there is none, and every fault found.

use super::calls::*;
use super::cases::Comparison;
use super::counts::{lacks_a_message, Counts};
use super::draft::{Cut, Draft};
use super::edits::{edited, edits_between, Edit};
use super::flat::*;
use super::report::difference_text;
use super::shorten::shorten;
use super::stand_in::{Fault, Fault::*, StandIn};
use super::trial::{Call, Trial};
use super::writing_differs;
use crate::random::*;
use crate::second::*;

/// The first difference within some cases, made short.
fn found(fault: Fault, cases: u64) -> Option<Trial> {
    let engine = StandIn(fault);
    let mut comparison = Comparison::of(&engine);
    let trial = (0..cases)
        .find_map(|case| comparison.case(1, case).err())?
        .trial;
    Some(shorten(&engine, &trial))
}

#[test]
fn finds_no_difference_where_there_is_none() {
    let engine = StandIn(Whole);
    let mut comparison = Comparison::of(&engine);
    for case in 0..150 {
        assert!(comparison.case(3, case).is_ok());
    }
    let counts = comparison.counts;
    let table = counts.table();
    assert!(counts.accepted[1..].iter().all(|c| *c > 200), "{table}");
    let mut refusals = (1..21).filter(|r| *r != 7).map(|r| counts.refusals[r]);
    assert!(refusals.all(|c| c > 40), "{table}");
    assert!(counts.replies.iter().all(|c| *c > 30), "{table}");
    assert!(counts.yes > 40 && counts.no > 40, "{table}");
    assert!(
        counts.none > 400 && counts.configs > 2 * counts.none,
        "{table}"
    );
    assert!(counts.ends.iter().all(|c| *c > 10), "{table}");
    assert!(counts.hollow > 50, "{table}");
    assert!(counts.writes.iter().all(|c| *c > 400), "{table}");
    let not = counts.edited - counts.still_valid;
    assert!(counts.still_valid > 400 && not > 400, "{table}");
    assert!(counts.back == counts.loaded, "{table}");
}

#[test]
fn finds_faults_and_makes_them_short() {
    let faults = [
        Content, Appended, Timeout, Withdrawn, Marks, Waiting, Glance, Hollow, Tidy, Block, Limit,
        Room, Sleeper, Line, Piece, Shares, Emptied, Roomy, Blank, Zeros, Stepped, Last, Flag,
        LastBit, Brief, Wiped, Each, Short, Early, Partly, Onward, Cleared, Unsealed, Behind,
        Sooner, Unswept, Partial, Told, Tight, Spoilt, Trusting, Loose, Filled, Strict, Clamped,
    ];
    for fault in faults {
        let trial = found(fault, 200).unwrap_or_else(|| panic!("{fault:?} not found"));
        let difference = trial.differs(&StandIn(fault), &mut Counts::default());
        let text = difference_text(&trial, &difference.unwrap());
        let size = Draft::of(&trial.file).map_or(trial.file.len(), |d| d.size());
        let length = (trial.tape.len() / 8, size, trial.edits.len());
        println!("{fault:?}: {length:?}");
        assert!(
            length.0 <= 12 && length.1 <= 24 && length.2 <= 4,
            "{fault:?}: {length:?}\n{text}"
        );
    }
}

#[test]
fn a_file_written_back_otherwise_is_found_by_loading_and_by_writing() {
    let file = file_of(&fullest(0));
    for fault in [Whole, Unsealed, Behind, Unswept] {
        let engine = StandIn(fault);
        let mut counts = Counts::default();
        for trial in [
            Trial::of_file(Call::Load, &file),
            Trial::of_write(&file, Vec::new(), 1),
        ] {
            let found = trial.differs(&engine, &mut counts).is_some();
            assert_eq!(found, fault != Whole, "{fault:?} {:?}", trial.call);
        }
        assert_eq!((counts.back, counts.writes), (1, [1, 0, 0]));
    }
}

#[test]
fn one_exit_more_than_there_may_be_is_tried() {
    let engine = StandIn(Crowded);
    let mut comparison = Comparison::of(&engine);
    let found = (0..20).find_map(|case| comparison.case(1, case).err());
    let found = found.unwrap();
    let text = difference_text(&found.trial, &found.difference);
    assert!(text.contains("edited:\n  s15 t31 exits 2 -> 3\n"), "{text}");
    assert!(text.contains("refusal 8               a file of 22016 bytes"));
}

#[test]
fn a_build_says_where_the_proved_engine_writes_otherwise() {
    let file = file_of(&fullest(0));
    assert_eq!(writing_differs(&StandIn(Whole), &file), None);
    let text = writing_differs(&StandIn(Unsealed), &file).unwrap();
    assert!(text.contains("writing the model (zs_write):\n"), "{text}");
    assert!(text.contains("\n  block 42 check "), "{text}");
    let text = writing_differs(&StandIn(Tight), &file).unwrap();
    assert!(text.contains("a file of 22016 bytes   refusal 6"), "{text}");
}

#[test]
fn flat_layouts_have_their_sizes() {
    let end = |fields: Vec<Field>| fields.last().map(|f| f.at + f.len);
    assert_eq!(end(model_fields()), Some(MODEL_BYTES));
    assert_eq!(end(config_fields()), Some(CONFIG_BYTES));
    assert_eq!(end(value_fields()), Some(VALUE_BYTES));
    assert_eq!(end(file_fields(43)), Some(43 * BLOCK));
    let at = |field: &str| model_fields().iter().find(|f| f.name == field).unwrap().at;
    assert_eq!(at("s3 states"), subject_at(3));
    assert_eq!(at("s3 row 7 sender"), row_at(3, 7));
    assert_eq!(at("s3 t31 kind"), state_at(3, 31));
    assert_eq!(at("s3 t31 exit 7 target"), exit_at(3, 31, 7));
    assert_eq!(Model::default().to_bytes(), vec![0; MODEL_BYTES]);
}

#[test]
fn cutting_a_valid_file_keeps_its_blocks_in_order() {
    let mut rng = Rng::new(9);
    let mut valid = 0;
    for _ in 0..200 {
        let file = file_of(&random_model(&mut rng));
        let draft = Draft::of(&file).unwrap();
        assert_eq!(draft.file(), file);
        for cut in draft.cuts() {
            let shorter = draft.without(cut).file();
            let refusal = load(&shorter).err().map_or(0, |r| r.number);
            assert!(matches!(refusal, 0 | 4 | 5), "{cut:?}: {refusal}");
            valid += usize::from(refusal == 0);
        }
    }
    assert!(valid > 1_000, "{valid}");
}

#[test]
fn arranged_configurations_are_mostly_valid() {
    let mut rng = Rng::new(10);
    let (mut valid, mut improper) = (0, 0);
    for _ in 0..2_000 {
        let model = random_model(&mut rng);
        let config = arranged(&mut rng, &model);
        if config_valid(&model, &config) {
            let mut actors = config.subjects.iter();
            improper += usize::from(actors.any(|a| a.mode == ENDED_IMPROPERLY));
            valid += 1;
        }
    }
    assert!(valid > 1_800 && improper > 400, "{valid}, {improper}");
}

#[test]
fn hollow_configurations_lack_nothing_but_a_message() {
    let mut rng = Rng::new(15);
    let mut counts = [0; 2];
    for _ in 0..2_000 {
        let model = random_model(&mut rng);
        let whole = match rng.chance(60) {
            true => arranged(&mut rng, &model),
            false => random_config(&mut rng, &model),
        };
        assert!(!lacks_a_message(&model, &whole));
        let Some(config) = hollow(&mut rng, &model, &whole) else {
            continue;
        };
        assert!(!config_valid(&model, &config));
        assert!(lacks_a_message(&model, &config));
        let waited_for =
            |a: &Actor| a.mode == ENDED_IMPROPERLY && !a.pool.holds_message() && a.pool.count != 0;
        counts[usize::from(config.subjects.iter().any(waited_for))] += 1;
    }
    assert!(counts.iter().all(|c| *c > 150), "{counts:?}");
}

#[test]
fn brimming_models_stand_on_either_side_of_the_edge() {
    let mut rng = Rng::new(11);
    let mut counts = [0; 2];
    for _ in 0..500 {
        let whole = random_model(&mut rng);
        let model = brimming(&mut rng, &whole);
        let loads = load(&file_of(&model)).is_ok();
        assert_eq!(loads, model_valid(&model));
        counts[usize::from(loads)] += 1;
    }
    assert!(counts.iter().all(|c| *c > 150), "{counts:?}");
}

/// Why bytes may not be written: more than 8 exits in a state, exits without a kind, something in an exit's place past
/// the state's own, or else a count or a field of the model.
fn reason(bytes: &[u8]) -> usize {
    let states = || bytes[state_at(0, 0)..].chunks_exact(STATE_BYTES);
    let past = |s: &[u8]| {
        s[10..]
            .iter()
            .skip(usize::from(s[1]) * EXIT_BYTES)
            .any(|b| *b != 0)
    };
    let reasons = [
        states().any(|s| s[1] > 8),
        states().any(|s| s[0] == 0 && s[1] != 0),
        states().any(past),
    ];
    reasons.iter().position(|r| *r).unwrap_or(reasons.len())
}

#[test]
fn edits_come_in_every_sort() {
    let mut rng = Rng::new(13);
    let (mut valid, mut reasons) = (0, [0; 4]);
    for _ in 0..4_000 {
        let model = random_model(&mut rng);
        let bytes = edited(&mut rng, &model);
        match write_call(&bytes, &mut [0; MOST_BLOCKS * BLOCK]) {
            8 => reasons[reason(&bytes)] += 1,
            answer => valid += usize::from(answer >= 256),
        }
    }
    assert!(reasons.iter().all(|c| *c > 100), "{reasons:?}");
    assert!(valid > 1_200 && valid < 2_800, "{valid}");
}

#[test]
fn edits_lead_from_one_model_to_another_and_follow_a_cut() {
    let mut rng = Rng::new(14);
    for _ in 0..500 {
        let model = random_model(&mut rng);
        let bytes = edited(&mut rng, &model);
        let edits = edits_between(&model.to_bytes(), &bytes);
        assert_eq!(
            Trial::of_write(&file_of(&model), edits, 0).edited_model(),
            bytes
        );
    }
    let after = |at: usize, cut: Cut| Edit { at, value: 1 }.after(cut).map(|e| e.at);
    let (subject, state, exit) = (Cut::Subject(2), Cut::State(2, 5), Cut::Exit(2, 5, 1));
    assert_eq!(after(row_at(1, 7), subject), Some(row_at(1, 7)));
    assert_eq!(after(row_at(2, 7), subject), None);
    assert_eq!(after(row_at(3, 7), subject), Some(row_at(2, 7)));
    assert_eq!(after(exit_at(2, 5, 1), subject), None);
    assert_eq!(after(exit_at(15, 5, 1), subject), Some(exit_at(14, 5, 1)));
    assert_eq!(after(exit_at(2, 4, 7), state), Some(exit_at(2, 4, 7)));
    assert_eq!(after(exit_at(2, 5, 7), state), None);
    assert_eq!(after(exit_at(2, 31, 7), state), Some(exit_at(2, 30, 7)));
    assert_eq!(after(state_at(3, 0), state), Some(state_at(3, 0)));
    assert_eq!(after(exit_at(2, 5, 0), exit), Some(exit_at(2, 5, 0)));
    assert_eq!(after(exit_at(2, 5, 1), exit), None);
    assert_eq!(after(exit_at(2, 5, 7), exit), Some(exit_at(2, 5, 6)));
    assert_eq!(after(state_at(2, 6), exit), Some(state_at(2, 6)));
    assert_eq!(after(0, Cut::Sleepers), Some(0));
}

/// A buffer of any bytes, as long as needed or not.
fn any_buffer(rng: &mut Rng, need: usize) -> Vec<u8> {
    let most = rng.pick(&[need, need, need + 1, need.saturating_sub(1), 0]);
    (0..most).map(|_| rng.below(256) as u8).collect()
}

/// The bytes of a configuration, mostly whole.
fn any_config(rng: &mut Rng, model: &Model) -> Vec<u8> {
    let start = random_config(rng, model);
    let mut bytes = match rng.below(4) {
        0 => flagged(rng, &start),
        1 => disturbed(rng, &start),
        _ => start.to_bytes(),
    }
    .to_vec();
    bytes.truncate(rng.pick(&[CONFIG_BYTES, CONFIG_BYTES, CONFIG_BYTES - 1]));
    bytes
}

/// For each call of the second engine whether it was refused, and whether it left all buffers as they were.
fn outcomes(rng: &mut Rng, valid: &Model, file: &[u8]) -> [(bool, bool); 6] {
    let model = model_of(file);
    let config = any_config(rng, valid);
    let tape = random_tape(rng, valid, 3);
    let room = any_buffer(rng, MODEL_BYTES);
    let empty = any_buffer(rng, CONFIG_BYTES);
    let values = any_buffer(rng, VALUE_BYTES);
    let lines = vec![7; any_buffer(rng, numbers_of(&tape)).len()];
    let command = tape[..8].try_into().unwrap();
    let written = edited(rng, valid);
    let blocks = any_buffer(rng, file.len());
    let mut w = blocks.clone();
    let (mut r, mut f) = (room.clone(), empty.clone());
    let (mut v, mut l) = (values.clone(), lines.clone());
    let [mut a, mut b, mut c] = [&config; 3].map(Vec::clone);
    let refusals = [
        load_call(file, &mut r) != 0,
        fresh_call(&model, &mut f) != 0,
        step_call(&model, &mut a, command, &mut v) != 0,
        run_call(&model, &mut b, &tape, &mut l) != 0,
        walk_call(&model, &mut c, &tape) != 0,
        write_call(&written, &mut w) < 256,
    ];
    let left = [
        r == room,
        f == empty,
        a == config && v == values,
        b == config && l == lines,
        c == config,
        w == blocks,
    ];
    std::array::from_fn(|i| (refusals[i], left[i]))
}

#[test]
fn a_refused_call_of_the_second_engine_changes_no_byte() {
    let mut rng = Rng::new(12);
    let mut counts = [[0; 2]; 6];
    for _ in 0..3_000 {
        let model = random_model(&mut rng);
        let mut file = file_of(&model);
        if rng.chance(25) {
            file[0] ^= 1;
        }
        let all = outcomes(&mut rng, &model, &file);
        for (count, (refused, left)) in counts.iter_mut().zip(all) {
            assert!(left || !refused);
            count[usize::from(refused)] += 1;
        }
    }
    let often = counts.iter().flatten().all(|c| *c > 100);
    assert!(often, "{counts:?}");
}
