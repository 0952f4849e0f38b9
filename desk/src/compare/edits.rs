//! Edits of a model's bytes, such as leave it valid and such as do not.

use super::draft::Cut;
use crate::random::*;
use crate::second::*;

/// A byte of a model's flat layout that has another value.
#[derive(Clone, Copy, Debug, PartialEq, Eq)]
pub struct Edit {
    pub at: usize,
    pub value: u8,
}

/// The edits that lead from the bytes of a model to others.
pub fn edits_between(before: &[u8], after: &[u8]) -> Vec<Edit> {
    let pairs = before.iter().zip(after).enumerate();
    pairs
        .filter(|(_, (old, new))| old != new)
        .map(|(at, (_, value))| Edit { at, value: *value })
        .collect()
}

impl Edit {
    /// The edit where it stands after a cut; none where its place has gone.
    pub fn after(self, cut: Cut) -> Option<Edit> {
        let i = |number: u8| usize::from(number);
        let at = match cut {
            Cut::Subject(s) => {
                let at = closed_up(self.at, subject_at(i(s)), SUBJECT_BYTES, state_at(0, 0))?;
                let states = MOST_STATES * STATE_BYTES;
                closed_up(at, state_at(i(s), 0), states, MODEL_BYTES)?
            }
            Cut::State(s, t) => {
                let end = state_at(i(s) + 1, 0);
                closed_up(self.at, state_at(i(s), i(t)), STATE_BYTES, end)?
            }
            Cut::Exit(s, t, e) => {
                let end = state_at(i(s), i(t) + 1);
                closed_up(self.at, exit_at(i(s), i(t), i(e)), EXIT_BYTES, end)?
            }
            _ => self.at,
        };
        Some(Edit { at, ..self })
    }
}

/// Where a byte stands after a part of a list that ends at `end` has gone; none in the part itself.
fn closed_up(at: usize, part: usize, len: usize, end: usize) -> Option<usize> {
    match at {
        _ if at < part || at >= end => Some(at),
        _ if at < part + len => None,
        _ => Some(at - len),
    }
}

/// The bytes of a model after a random edit: about half of them are still those of a valid model.
pub fn edited(rng: &mut Rng, model: &Model) -> Vec<u8> {
    match rng.below(24) {
        0..=8 => retouched(rng, model).to_bytes(),
        9..=12 => changed(rng, model).to_bytes(),
        13..=20 => scribbled(rng, model),
        21 | 22 => copied(rng, model),
        _ => any_bytes::<MODEL_BYTES>(rng).to_vec(),
    }
}

/// The bytes of a model with one or two of them changed, mostly a count or a place that is not used.
fn scribbled(rng: &mut Rng, model: &Model) -> Vec<u8> {
    let mut bytes = model.to_bytes();
    for _ in 0..rng.pick(&[1, 1, 1, 2]) {
        let byte = &mut bytes[random_place(rng, model)];
        let near = [byte.wrapping_add(1), byte.wrapping_sub(1)];
        let far = [0, 1, 2, 7, 8, 9, 16, 17, 32, 33, 254, 255];
        *byte = match rng.chance(40) {
            true => rng.pick(&near),
            false => rng.pick(&far),
        };
    }
    bytes
}

/// A place in a model's bytes: a count, or one that is not used, or any of a subject that is there.
fn random_place(rng: &mut Rng, model: &Model) -> usize {
    let s = rng.below(model.n());
    let subject = &model.subjects[s];
    let states = subject.states.len();
    let t = rng.below(states);
    let exits = subject.states[t].exits.len();
    match rng.below(12) {
        0 => rng.below(3),
        1 => subject_at(s) + rng.pick(&[0, 2]),
        2 => state_at(s, t) + 1,
        3 | 4 if exits < MOST_STATE_EXITS => {
            rng.between(exit_at(s, t, exits), state_at(s, t + 1) - 1)
        }
        5 if subject.limits.len() < MOST_ROWS => {
            let unused = row_at(s, subject.limits.len());
            rng.between(unused, subject_at(s + 1) - 1)
        }
        6 | 7 if states < MOST_STATES => {
            let any = rng.below(STATE_BYTES);
            let unused = rng.between(states, MOST_STATES - 1);
            state_at(s, unused) + rng.pick(&[0, 1, 1, any])
        }
        8 if model.n() < MOST_SUBJECTS => {
            let s = rng.between(model.n(), MOST_SUBJECTS - 1);
            subject_at(s) + rng.below(SUBJECT_BYTES)
        }
        9 => subject_at(s) + rng.below(SUBJECT_BYTES),
        10 => state_at(s, t) + rng.below(STATE_BYTES),
        _ => rng.below(MODEL_BYTES),
    }
}

/// The bytes of a model with those of one state copied to another place of its subject, mostly one that is used.
fn copied(rng: &mut Rng, model: &Model) -> Vec<u8> {
    let mut bytes = model.to_bytes();
    let s = rng.below(model.n());
    let states = model.subjects[s].states.len();
    let from = state_at(s, rng.below(states));
    let to = match rng.chance(70) {
        true => rng.below(states),
        false => rng.below(MOST_STATES),
    };
    bytes.copy_within(from..from + STATE_BYTES, state_at(s, to));
    bytes
}
