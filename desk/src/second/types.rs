//! The plain values of a model, and what makes a model valid.

use std::ops::RangeInclusive;

/// 'Any' in a sender or type, 'none' in a timeout or cancel target.
pub const ANY: u8 = 255;
pub const NONE: u8 = 255;

pub const INTERNAL: u8 = 1;
pub const SEND: u8 = 2;
pub const RECEIVE: u8 = 3;
pub const CLOSE: u8 = 4;
pub const OPEN: u8 = 5;
pub const ASK_EMPTY: u8 = 6;
pub const END: u8 = 7;

pub const MOST_SUBJECTS: usize = 16;
pub const MOST_STATES: usize = 32;
pub const MOST_STATE_EXITS: usize = 8;
pub const MOST_EXITS: usize = 1024;
pub const MOST_ROWS: usize = 8;
pub const TYPES: u8 = 32;
pub const POOL: usize = 16;

/// One way out of a state.
#[derive(Clone, Copy, Debug, PartialEq, Eq)]
pub struct Exit {
    pub target: u8,
    pub sender: u8,
    pub typ: u8,
}

/// One state of a subject; its number is its place in the list.
#[derive(Clone, Debug, PartialEq, Eq)]
pub struct State {
    pub kind: u8,
    pub sender: u8,
    pub typ: u8,
    pub duration: u16,
    pub timeout: u8,
    pub cancel: u8,
    pub receivers: u16,
    pub exits: Vec<Exit>,
}

/// One limit row of the owner's pool.
#[derive(Clone, Copy, Debug, PartialEq, Eq)]
pub struct Limit {
    pub sender: u8,
    pub typ: u8,
    pub limit: u8,
}

/// One subject; its number is its place in the list.
#[derive(Clone, Debug, Default, PartialEq, Eq)]
pub struct Subject {
    pub initial: u8,
    pub states: Vec<State>,
    pub limits: Vec<Limit>,
}

/// A whole model; the empty model has no subjects.
#[derive(Clone, Debug, Default, PartialEq, Eq)]
pub struct Model {
    pub start: u16,
    pub subjects: Vec<Subject>,
}

impl Model {
    /// The number of subjects.
    pub fn n(&self) -> usize {
        self.subjects.len()
    }

    /// The number of exits of all states together.
    pub fn exits(&self) -> usize {
        let states = self.subjects.iter().flat_map(|s| &s.states);
        states.map(|s| s.exits.len()).sum()
    }
}

impl State {
    /// A state of this kind with nothing else said.
    pub fn plain(kind: u8) -> State {
        State {
            kind,
            sender: ANY,
            typ: ANY,
            duration: 0,
            timeout: NONE,
            cancel: NONE,
            receivers: 0,
            exits: Vec::new(),
        }
    }
}

/// Whether a named value covers this one: the same, or any.
pub fn covers(named: u8, value: u8) -> bool {
    named == ANY || named == value
}

impl Limit {
    /// Whether the row counts entries of this sender and type.
    pub fn matches(&self, sender: u8, typ: u8) -> bool {
        covers(self.sender, sender) && covers(self.typ, typ)
    }
}

/// How many exits a state of this kind has; an empty range for no such kind.
pub fn exits_allowed(kind: u8) -> RangeInclusive<usize> {
    match kind {
        INTERNAL | RECEIVE => 1..=MOST_STATE_EXITS,
        SEND | CLOSE | OPEN => 1..=1,
        ASK_EMPTY => 2..=2,
        END => 0..=0,
        _ => RangeInclusive::new(1, 0),
    }
}

/// Whether some file loads to this model.
pub fn model_valid(model: &Model) -> bool {
    let n = model.n();
    (1..=MOST_SUBJECTS).contains(&n)
        && model.start != 0
        && u32::from(model.start) >> n == 0
        && model.exits() <= MOST_EXITS
        && model.subjects.iter().all(|s| subject_valid(s, n))
}

/// Whether a subject fits a model of n subjects.
fn subject_valid(subject: &Subject, n: usize) -> bool {
    let count = subject.states.len();
    (1..=MOST_STATES).contains(&count)
        && usize::from(subject.initial) < count
        && subject.states[usize::from(subject.initial)].kind != END
        && subject.states.iter().all(|s| state_valid(s, n, count))
        && limits_valid(&subject.limits, n)
}

/// Whether a state fits a subject of `count` states in a model of n subjects.
fn state_valid(state: &State, n: usize, count: usize) -> bool {
    let names_pool = matches!(state.kind, CLOSE | OPEN | ASK_EMPTY);
    let may_leave = matches!(state.kind, INTERNAL | SEND | RECEIVE);
    let target_fits = |t: u8| t == NONE || (may_leave && usize::from(t) < count);
    let pool_fits = if names_pool {
        sender_or_any(state.sender, n) && type_or_any(state.typ)
    } else {
        state.sender == ANY && state.typ == ANY
    };
    exits_allowed(state.kind).contains(&state.exits.len())
        && pool_fits
        && target_fits(state.timeout)
        && target_fits(state.cancel)
        && (state.duration == 0) == (state.timeout == NONE)
        && (state.receivers != 0) == (state.kind == SEND)
        && u32::from(state.receivers) >> n == 0
        && state
            .exits
            .iter()
            .all(|e| exit_valid(e, state.kind, n, count))
}

/// Whether an exit fits a state of this kind.
fn exit_valid(exit: &Exit, kind: u8, n: usize, count: usize) -> bool {
    let fields = match kind {
        RECEIVE => usize::from(exit.sender) < n && exit.typ < TYPES,
        SEND => exit.sender == ANY && exit.typ < TYPES,
        _ => exit.sender == ANY && exit.typ == ANY,
    };
    fields && usize::from(exit.target) < count
}

/// Whether the rows of one owner are in order, at most eight, and fit the model.
fn limits_valid(limits: &[Limit], n: usize) -> bool {
    limits.len() <= MOST_ROWS
        && limits.iter().all(|l| {
            sender_or_any(l.sender, n) && type_or_any(l.typ) && (1..=16).contains(&l.limit)
        })
        && limits
            .windows(2)
            .all(|w| (w[0].sender, w[0].typ) < (w[1].sender, w[1].typ))
}

fn sender_or_any(sender: u8, n: usize) -> bool {
    sender == ANY || usize::from(sender) < n
}

fn type_or_any(typ: u8) -> bool {
    typ == ANY || typ < TYPES
}
