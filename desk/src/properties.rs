//! Properties that must hold for random models, files, configurations, tapes and texts.

use crate::random::*;
use crate::second::*;
use crate::show::{checks_aside, records_text, shown, trouble_text};
use crate::text::model_parse::parse_model;
use crate::text::names::Named;
use crate::text::tape_parse::parse_tape;
use crate::text::tape_print::tape_text;

#[test]
fn random_models_are_valid_and_load_from_their_files() {
    let mut rng = Rng::new(1);
    let mut largest = 0;
    for i in 0..5_000 {
        let model = random_model(&mut rng);
        assert!(model_valid(&model), "model {i}: {model:?}");
        let file = file_of(&model);
        largest = largest.max(file.len() / BLOCK);
        assert_eq!(load(&file).as_ref(), Ok(&model), "model {i}");
    }
    assert!(largest >= 40, "largest file has {largest} blocks");
}

#[test]
fn building_what_is_shown_gives_the_same_file() {
    let mut rng = Rng::new(2);
    for i in 0..2_000 {
        let model = random_model(&mut rng);
        let file = file_of(&model);
        let text = shown(&model, &file);
        let built = parse_model(&text).unwrap_or_else(|e| panic!("model {i}: {e}\n{text}"));
        assert_eq!(file_of(&built.model), file, "model {i}\n{text}");
        assert_eq!(shown(&built.model, &file), text, "model {i}");
    }
}

#[test]
fn a_model_is_valid_exactly_when_its_file_loads_to_it() {
    let mut rng = Rng::new(3);
    let (mut valid, mut not) = (0, 0);
    for _ in 0..40_000 {
        let whole = random_model(&mut rng);
        let model = changed(&mut rng, &whole);
        let loads = load(&file_of(&model)).as_ref() == Ok(&model);
        assert_eq!(model_valid(&model), loads, "{model:?}");
        if loads {
            valid += 1;
        } else {
            not += 1;
        }
    }
    assert!(valid > 5_000 && not > 5_000, "{valid} valid, {not} not");
}

#[test]
fn a_model_is_written_exactly_when_it_is_valid() {
    let mut rng = Rng::new(9);
    let mut counts = [0; 2];
    for _ in 0..20_000 {
        let whole = random_model(&mut rng);
        let model = match rng.chance(50) {
            true => retouched(&mut rng, &whole),
            false => changed(&mut rng, &whole),
        };
        let mut room = [0xa5; MOST_BLOCKS * BLOCK];
        let answer = write(&model, &mut room);
        assert_eq!(answer.is_ok(), model_valid(&model), "{model:?}");
        let length = answer.unwrap_or(0);
        assert!(room[length..].iter().all(|b| *b == 0xa5), "{model:?}");
        if length != 0 {
            assert_eq!(load(&room[..length]).as_ref(), Ok(&model));
            assert_eq!(Model::from_bytes(&model.to_bytes()), Some(model));
        }
        counts[usize::from(length != 0)] += 1;
    }
    assert!(counts.iter().all(|c| *c > 5_000), "{counts:?}");
}

#[test]
fn a_damaged_file_is_refused_or_is_the_file_of_its_model() {
    let mut rng = Rng::new(4);
    let mut refusals = [0; 6];
    for _ in 0..40_000 {
        let file = file_of(&random_model(&mut rng));
        let file = damaged(&mut rng, &file);
        match load(&file) {
            Ok(model) => {
                assert!(model_valid(&model));
                assert_eq!(file_of(&model), file);
                refusals[0] += 1;
            }
            Err(r) => {
                refusals[usize::from(r.number)] += 1;
                let text = trouble_text("model.bin", &file, &r);
                assert!(text.contains("expected"));
                assert!(r.place.byte <= file.len());
                records_text(&file);
                checks_aside(&file, &r);
            }
        }
    }
    assert!(refusals.iter().all(|c| *c > 100), "{refusals:?}");
}

/// How often each command was accepted, each refusal given, an end entered with nothing, with reservations only or with a
/// message left, and each kind of Reserve answered.
#[derive(Debug, Default)]
struct Counts {
    accepted: [usize; 9],
    refusals: [usize; 21],
    ends: [usize; 3],
    placed: usize,
    improper: usize,
    closed: usize,
    full: usize,
}

impl Counts {
    fn add(&mut self, code: u8, answer: &Answer) {
        self.refusals[usize::from(answer.refusal())] += 1;
        if answer.refusal() == 0 {
            self.accepted[usize::from(code)] += 1;
        }
        if let Answer::Reserved {
            placed,
            improper,
            closed,
            full,
            missing,
        } = *answer
        {
            let without = improper.count_ones() + closed.count_ones() + full.count_ones();
            assert_eq!(without, missing);
            self.placed += usize::from(placed != 0);
            self.improper += usize::from(improper != 0);
            self.closed += usize::from(closed != 0);
            self.full += usize::from(full != 0);
        }
    }
}

/// The messages that a subject holds.
fn messages(actor: &Actor) -> Vec<Entry> {
    let used = actor.pool.used().iter();
    used.filter(|e| e.message).copied().collect()
}

/// Looks at who ended by a step, who had ended improperly before it, and who started again.
fn look_at_ends(before: &Config, after: &Config, counts: &mut Counts) {
    for (old, new) in before.subjects.iter().zip(&after.subjects) {
        match (old.mode, new.mode) {
            (RUNNING, ENDED | ENDED_IMPROPERLY) => {
                let message = !messages(new).is_empty();
                assert_eq!(new.mode == ENDED_IMPROPERLY, message, "{before:?}");
                let left = usize::from(new.pool.count != 0) + usize::from(message);
                counts.ends[left] += 1;
            }
            (ENDED_IMPROPERLY, mode) => {
                assert_eq!(mode, ENDED_IMPROPERLY, "{before:?}");
                assert_eq!(messages(new), messages(old));
                assert!(!messages(new).is_empty());
            }
            (ENDED, RUNNING) => assert!(!messages(new).is_empty(), "{before:?}"),
            _ => {}
        }
    }
}

/// Steps through a tape one command at a time and looks at every configuration.
fn follow(model: &Model, tape: &[u8], counts: &mut Counts) {
    let mut config = fresh(model).1;
    assert!(config_valid(model, &config));
    let mut lines = Vec::new();
    for piece in tape.chunks_exact(8) {
        let before = config;
        let answer = step_coded(model, &mut config, piece.try_into().unwrap());
        counts.add(piece[0], &answer);
        look_at_ends(&before, &config, counts);
        if answer.refusal() == 0 {
            assert!(
                config_valid(model, &config),
                "{model:?} {before:?} {piece:?}"
            );
        } else {
            assert_eq!(config, before);
        }
        lines.push((piece[0], answer.refusal()));
    }
    let mut again = fresh(model).1;
    let told = run_tape(model, &mut again, tape, numbers_of(tape)).unwrap();
    let told: Vec<(u8, u8)> = told.iter().map(|l| (l.code, l.refusal)).collect();
    assert_eq!(told, lines);
    assert_eq!(again, config);
}

#[test]
fn accepted_steps_keep_the_configuration_valid() {
    let mut rng = Rng::new(5);
    let mut counts = Counts::default();
    for _ in 0..1_500 {
        let model = random_model(&mut rng);
        let tape = random_tape(&mut rng, &model, 200);
        follow(&model, &tape, &mut counts);
    }
    println!("{counts:?}");
    assert!(
        counts.accepted[1..].iter().all(|c| *c > 5_000),
        "{counts:?}"
    );
    let often = |r: &usize| *r == 9 || *r >= 11;
    let mut refusals = (0..21).filter(often).map(|r| counts.refusals[r]);
    assert!(refusals.all(|c| c > 1_000), "{counts:?}");
    assert!(counts.ends.iter().all(|c| *c > 200), "{counts:?}");
    let answers = [counts.placed, counts.improper, counts.closed, counts.full];
    assert!(answers.iter().all(|c| *c > 500), "{counts:?}");
}

#[test]
fn a_disturbed_configuration_is_refused_or_stays_valid() {
    let mut rng = Rng::new(6);
    let (mut counts, mut none) = ([0; 2], 0);
    for _ in 0..20_000 {
        let model = random_model(&mut rng);
        let whole = random_config(&mut rng, &model);
        assert!(config_valid(&model, &whole));
        let start = disturbed(&mut rng, &whole);
        let Some(config) = Config::from_bytes(&start) else {
            none += 1;
            continue;
        };
        assert_eq!(config.to_bytes(), start);
        let valid = config_valid(&model, &config);
        counts[usize::from(valid)] += 1;
        let mut after = config;
        let bytes = random_command(&mut rng, &model, &whole);
        let answer = step_coded(&model, &mut after, bytes);
        if answer.refusal() != 0 {
            assert_eq!(after, config);
        }
        let known = (1..=8).contains(&bytes[0]);
        assert_eq!(answer.refusal() == 10, known && !valid);
        assert!(!valid || config_valid(&model, &after));
    }
    assert!(counts.iter().all(|c| *c > 2_000), "{counts:?}");
    assert!(none > 200, "{none} are no configuration");
}

#[test]
fn a_tape_shown_as_text_builds_to_the_same_bytes() {
    let mut rng = Rng::new(7);
    for _ in 0..1_000 {
        let named = Named::unnamed(random_model(&mut rng));
        let mut tape = random_tape(&mut rng, &named.model, 60);
        for _ in 0..rng.below(8) {
            tape.push(rng.below(256) as u8);
        }
        for model in [None, Some(&named)] {
            let text = tape_text(&tape, model);
            assert_eq!(parse_tape(&text, model).as_ref(), Ok(&tape), "{text}");
        }
    }
}

/// A text with some of its characters changed, dropped or doubled.
fn garbled(rng: &mut Rng, text: &str) -> String {
    let mut chars: Vec<char> = text.chars().collect();
    for _ in 0..rng.between(1, 6) {
        let at = rng.below(chars.len());
        match rng.below(4) {
            0 => drop(chars.remove(at)),
            1 => chars.insert(at, rng.pick(&['\n', ' ', '-', '>', '#', '9', 'x', 'é'])),
            2 => chars.swap(at, rng.between(0, at)),
            _ => chars[at] = rng.pick(&['\n', ' ', '0', '3', 't', 's', 'm']),
        }
    }
    chars.into_iter().collect()
}

#[test]
fn a_garbled_text_gives_an_error_or_a_valid_model() {
    let mut rng = Rng::new(8);
    let (mut good, mut bad) = (0, 0);
    for _ in 0..10_000 {
        let model = random_model(&mut rng);
        let text = garbled(&mut rng, &shown(&model, &[]));
        match parse_model(&text) {
            Ok(named) => {
                assert!(model_valid(&named.model));
                good += 1;
            }
            Err(e) => {
                assert!(e.line >= 1 && e.line <= text.lines().count(), "{e}");
                assert!(!e.found.contains("breaks a rule"), "{e}\n{text}");
                bad += 1;
            }
        }
        let tape = random_tape(&mut rng, &model, 5);
        let text = garbled(&mut rng, &tape_text(&tape, None));
        let _ = parse_tape(&text, None);
        let _ = parse_tape(&text, Some(&Named::unnamed(model)));
    }
    assert!(good > 500 && bad > 500, "{good} good, {bad} bad");
}
