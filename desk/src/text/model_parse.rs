//! Reads model text: first the lines as they stand, then the names in them.

use super::names::*;
use super::*;
use crate::second::*;

/// A word and the line it stands in.
#[derive(Clone, Copy)]
struct Word<'t> {
    line: usize,
    word: &'t str,
}

/// A type with its declared number, if it has one.
struct RawType<'t> {
    name: Word<'t>,
    number: Option<u8>,
}

struct RawExit<'t> {
    form: Form,
    typ: Word<'t>,
    sender: Word<'t>,
    target: Word<'t>,
}

/// What stands before an exit's arrow.
#[derive(Clone, Copy, PartialEq)]
enum Form {
    Plain,
    From,
    Empty,
    NotEmpty,
}

struct RawState<'t> {
    name: Word<'t>,
    kind: u8,
    typ: Word<'t>,
    sender: Word<'t>,
    receivers: Vec<Word<'t>>,
    exits: Vec<RawExit<'t>>,
    timeout: Option<(u16, Word<'t>)>,
    cancel: Option<Word<'t>>,
}

struct RawLimit<'t> {
    typ: Word<'t>,
    sender: Word<'t>,
    limit: u8,
}

struct RawSubject<'t> {
    name: Word<'t>,
    starts: bool,
    initial: Option<Word<'t>>,
    limits: Vec<RawLimit<'t>>,
    states: Vec<RawState<'t>>,
}

/// The text as it stands; `uses` are the words used as types, in order.
#[derive(Default)]
struct Raw<'t> {
    types: Vec<RawType<'t>>,
    uses: Vec<&'t str>,
    subjects: Vec<RawSubject<'t>>,
}

/// Words that name neither subjects nor types.
const KEPT: [&str; 12] = [
    "any",
    "from",
    "to",
    "type",
    "subject",
    "state",
    "limit",
    "initial",
    "timeout",
    "cancel",
    "empty",
    "not-empty",
];

/// The model of a text, with its names.
pub fn parse_model(text: &str) -> Result<Named, TextError> {
    let mut raw = Raw::default();
    for line in lines_of(text) {
        raw.read(&line)?;
    }
    resolve(&raw)
}

impl<'t> Raw<'t> {
    /// Reads one line into what the lines before it opened.
    fn read(&mut self, line: &Words<'t>) -> Result<(), TextError> {
        match line.words[0] {
            "type" => self.type_line(line),
            "subject" => self.subject_line(line),
            "initial" => self.initial_line(line),
            "limit" => self.limit_line(line),
            "state" => self.state_line(line),
            _ => self.exit_line(line),
        }
    }

    /// `type NAME` or `type NAME NUMBER`.
    fn type_line(&mut self, line: &Words<'t>) -> Result<(), TextError> {
        let (name, number) = match line.words[..] {
            [_, name] => (name, None),
            [_, name, number] => (
                name,
                Some(ranged(line, number, 0, 31, "a type from 0 to 31")?),
            ),
            _ => return line.wrong_line("'type NAME' or 'type NAME NUMBER'"),
        };
        let name = new_name(line, name)?;
        if self.types.iter().any(|t| t.name.word == name.word) {
            return line.wrong(name.word, "a type name not declared before");
        }
        let number = number.map(|x| x as u8);
        if number.is_some() && self.types.iter().any(|t| t.number == number) {
            return line.wrong_line("a number no other type has");
        }
        self.uses.push(name.word);
        self.types.push(RawType { name, number });
        Ok(())
    }

    /// `subject NAME` or `subject NAME starts`.
    fn subject_line(&mut self, line: &Words<'t>) -> Result<(), TextError> {
        let (name, starts) = match line.words[..] {
            [_, name] => (name, false),
            [_, name, "starts"] => (name, true),
            _ => return line.wrong_line("'subject NAME' or 'subject NAME starts'"),
        };
        let name = new_name(line, name)?;
        if self.subjects.iter().any(|s| s.name.word == name.word) {
            return line.wrong(name.word, "a subject name not used before");
        }
        if self.subjects.len() == MOST_SUBJECTS {
            return line.wrong_line("no more than 16 subjects");
        }
        self.subjects.push(RawSubject {
            name,
            starts,
            initial: None,
            limits: Vec::new(),
            states: Vec::new(),
        });
        Ok(())
    }

    /// The subject that the lines are about.
    fn subject(&mut self, line: &Words<'t>) -> Result<&mut RawSubject<'t>, TextError> {
        match self.subjects.last_mut() {
            Some(subject) => Ok(subject),
            None => line.wrong(line.words[0], "'subject NAME' before this line"),
        }
    }

    /// `initial STATE`.
    fn initial_line(&mut self, line: &Words<'t>) -> Result<(), TextError> {
        let [_, state] = line.words[..] else {
            return line.wrong_line("'initial STATE'");
        };
        let subject = self.subject(line)?;
        if subject.initial.is_some() {
            return line.wrong_line("one initial state for a subject");
        }
        subject.initial = Some(at(line, state));
        Ok(())
    }

    /// `limit TYPE from SENDER NUMBER`.
    fn limit_line(&mut self, line: &Words<'t>) -> Result<(), TextError> {
        let [_, typ, "from", sender, limit] = line.words[..] else {
            return line.wrong_line("'limit TYPE from SENDER NUMBER'");
        };
        let limit = ranged(line, limit, 1, 16, "a limit from 1 to 16")? as u8;
        self.uses.push(typ);
        let subject = self.subject(line)?;
        if subject.limits.len() == MOST_ROWS {
            return line.wrong_line("no more than 8 limits for a subject");
        }
        subject.limits.push(RawLimit {
            typ: at(line, typ),
            sender: at(line, sender),
            limit,
        });
        Ok(())
    }

    /// `state NAME KIND ...`.
    fn state_line(&mut self, line: &Words<'t>) -> Result<(), TextError> {
        let Some(name) = line.words.get(1) else {
            return line.wrong_line("'state NAME KIND'");
        };
        let name = at(line, name);
        if !is_name(name.word) {
            return line.wrong(name.word, NAME);
        }
        let state = state_of(line, name)?;
        self.uses.push(state.typ.word);
        let subject = self.subject(line)?;
        if subject.states.iter().any(|s| s.name.word == name.word) {
            return line.wrong(name.word, "a state name this subject has not used before");
        }
        if subject.states.len() == MOST_STATES {
            return line.wrong_line("no more than 32 states for a subject");
        }
        subject.states.push(state);
        Ok(())
    }

    /// An exit, a timeout or a cancel target of the state before.
    fn exit_line(&mut self, line: &Words<'t>) -> Result<(), TextError> {
        if let [typ, "from", ..] = line.words[..] {
            self.uses.push(typ);
        }
        let subject = self.subject(line)?;
        let Some(state) = subject.states.last_mut() else {
            return line.wrong_line("'state NAME KIND' before this line");
        };
        match line.words[..] {
            ["timeout", ticks, "->", target] => {
                let ticks = ranged(line, ticks, 1, 65_535, "1 to 65535 ticks")? as u16;
                may_leave(line, state, state.timeout.is_some())?;
                state.timeout = Some((ticks, at(line, target)));
            }
            ["cancel", "->", target] | ["cancel", target] => {
                may_leave(line, state, state.cancel.is_some())?;
                state.cancel = Some(at(line, target));
            }
            _ => add_exit(line, state)?,
        }
        Ok(())
    }
}

const NAME: &str = "a name: a letter, then letters, digits, '_', '-' or '.'";

fn at<'t>(line: &Words<'t>, word: &'t str) -> Word<'t> {
    Word {
        line: line.line,
        word,
    }
}

/// A name for a subject or type.
fn new_name<'t>(line: &Words<'t>, name: &'t str) -> Result<Word<'t>, TextError> {
    if KEPT.contains(&name) {
        return line.wrong(name, "a name that is no word of the model text");
    }
    if !is_name(name) {
        return line.wrong(name, NAME);
    }
    Ok(at(line, name))
}

/// A number within bounds.
fn ranged(
    line: &Words,
    word: &str,
    least: u64,
    most: u64,
    expected: &str,
) -> Result<u64, TextError> {
    match number(word) {
        Some(x) if (least..=most).contains(&x) => Ok(x),
        _ => line.wrong(word, expected),
    }
}

/// The state of a `state` line, its exits still to come.
fn state_of<'t>(line: &Words<'t>, name: Word<'t>) -> Result<RawState<'t>, TextError> {
    let any = at(line, "any");
    let mut state = RawState {
        name,
        kind: END,
        typ: any,
        sender: any,
        receivers: Vec::new(),
        exits: Vec::new(),
        timeout: None,
        cancel: None,
    };
    let word = line.words.get(2).copied().unwrap_or("");
    state.kind = match word {
        "internal" => INTERNAL,
        "send" => SEND,
        "receive" => RECEIVE,
        "close" => CLOSE,
        "open" => OPEN,
        "ask-empty" => ASK_EMPTY,
        "end" => END,
        _ => {
            let kinds = "internal, send, receive, close, open, ask-empty or end after the name";
            return line.wrong(word, kinds);
        }
    };
    state_fields(line, &mut state)?;
    Ok(state)
}

/// What follows the kind in a `state` line.
fn state_fields<'t>(line: &Words<'t>, state: &mut RawState<'t>) -> Result<(), TextError> {
    let rest = &line.words[3..];
    match (state.kind, rest) {
        (SEND, [typ, "to", receivers @ ..]) if !receivers.is_empty() => {
            state.typ = at(line, typ);
            state.receivers = receivers.iter().map(|r| at(line, r)).collect();
        }
        (SEND, _) => return line.wrong_line("'send TYPE to RECEIVER, RECEIVER'"),
        (_, []) => {}
        (INTERNAL | RECEIVE | END, _) => {
            return line.wrong_line("nothing after the kind of this state");
        }
        (_, ["from", sender]) => state.sender = at(line, sender),
        (_, [typ]) => state.typ = at(line, typ),
        (_, [typ, "from", sender]) => {
            state.typ = at(line, typ);
            state.sender = at(line, sender);
        }
        _ => return line.wrong_line("TYPE from SENDER after close, open or ask-empty"),
    }
    Ok(())
}

/// Only internal, send and receive states have a timeout and a cancel target, one of each.
fn may_leave(line: &Words, state: &RawState, has_one: bool) -> Result<(), TextError> {
    if !matches!(state.kind, INTERNAL | SEND | RECEIVE) {
        return line.wrong_line("this only in an internal, send or receive state");
    }
    if has_one {
        return line.wrong_line("one of these for a state");
    }
    Ok(())
}

/// Adds an exit, which must have the form that the state's kind asks for.
fn add_exit<'t>(line: &Words<'t>, state: &mut RawState<'t>) -> Result<(), TextError> {
    let any = "any";
    let (form, typ, sender, target) = match line.words[..] {
        ["->", target] => (Form::Plain, any, any, target),
        [typ, "from", sender, "->", target] => (Form::From, typ, sender, target),
        ["empty", "->", target] => (Form::Empty, any, any, target),
        ["not-empty", "->", target] => (Form::NotEmpty, any, any, target),
        _ => return line.wrong_line(exit_form(state.kind)),
    };
    let fits = match state.kind {
        INTERNAL | SEND | CLOSE | OPEN => form == Form::Plain,
        RECEIVE => form == Form::From,
        ASK_EMPTY => matches!(form, Form::Empty | Form::NotEmpty),
        _ => false,
    };
    let twice = state.kind == ASK_EMPTY && state.exits.iter().any(|e| e.form == form);
    if !fits || twice {
        return line.wrong_line(exit_form(state.kind));
    }
    if state.exits.len() == *exits_allowed(state.kind).end() {
        return line.wrong_line(&format!("no more than {}", exit_count(state.kind)));
    }
    let exit = RawExit {
        form,
        typ: at(line, typ),
        sender: at(line, sender),
        target: at(line, target),
    };
    let first = form == Form::Empty;
    state
        .exits
        .insert(if first { 0 } else { state.exits.len() }, exit);
    Ok(())
}

/// What an exit line looks like in a state of this kind.
fn exit_form(kind: u8) -> &'static str {
    match kind {
        INTERNAL | SEND => "'-> STATE', 'timeout TICKS -> STATE' or 'cancel -> STATE'",
        RECEIVE => "'TYPE from SENDER -> STATE', 'timeout TICKS -> STATE' or 'cancel -> STATE'",
        CLOSE | OPEN => "'-> STATE'",
        ASK_EMPTY => "'empty -> STATE' and 'not-empty -> STATE', each once",
        _ => "no exit after an end, but 'state', 'subject', 'limit' or 'type'",
    }
}

fn exit_count(kind: u8) -> &'static str {
    match kind {
        INTERNAL | RECEIVE => "8 exits",
        ASK_EMPTY => "2 exits",
        _ => "1 exit",
    }
}

/// What the names stand for.
struct Known<'r, 't> {
    raw: &'r Raw<'t>,
    types: Vec<Option<&'t str>>,
}

/// The model that the text describes.
fn resolve(raw: &Raw) -> Result<Named, TextError> {
    let known = Known {
        raw,
        types: type_numbers(raw)?,
    };
    let mut model = Model::default();
    let mut exits = 0;
    for (s, subject) in raw.subjects.iter().enumerate() {
        if subject.starts {
            model.start |= bit(s);
        }
        model.subjects.push(known.subject(subject, &mut exits)?);
    }
    if model.start == 0 {
        let line = raw.subjects.first().map_or(1, |s| s.name.line);
        return error(
            line,
            "no subject that starts".into(),
            "'subject NAME starts' at least once",
        );
    }
    if !model_valid(&model) {
        return error(1, "a model that breaks a rule".into(), "a valid model");
    }
    let names = known.names(&model);
    Ok(Named { model, names })
}

/// Gives every type a number: first those declared, then the lowest free ones in order of use.
fn type_numbers<'t>(raw: &Raw<'t>) -> Result<Vec<Option<&'t str>>, TextError> {
    let mut types: Vec<Option<&str>> = vec![None; usize::from(TYPES)];
    let mut taken = [false; TYPES as usize];
    for t in &raw.types {
        if let Some(x) = t.number {
            types[usize::from(x)] = Some(t.name.word);
            taken[usize::from(x)] = true;
        }
    }
    for x in raw
        .uses
        .iter()
        .filter_map(|u| number(u))
        .filter(|x| *x < 32)
    {
        taken[x as usize] = true;
    }
    for word in raw.uses.iter().filter(|u| is_name(u) && !KEPT.contains(u)) {
        if types.contains(&Some(*word)) {
            continue;
        }
        let Some(free) = taken.iter().position(|t| !t) else {
            return error(
                1,
                format!("more types than 32 (at '{word}')"),
                "types 0 to 31",
            );
        };
        taken[free] = true;
        types[free] = Some(*word);
    }
    Ok(types)
}

impl<'t> Known<'_, 't> {
    /// The number of a type, or any.
    fn typ(&self, w: Word) -> Result<u8, TextError> {
        if w.word == "any" {
            return Ok(ANY);
        }
        let named = self.types.iter().position(|t| *t == Some(w.word));
        let numbered = number(w.word).filter(|x| *x < u64::from(TYPES));
        match named.or(numbered.map(|x| x as usize)) {
            Some(x) => Ok(x as u8),
            None => error(
                w.line,
                quoted(w.word),
                "a type: a name, or a number from 0 to 31",
            ),
        }
    }

    /// The number of a type that must not be any.
    fn one_typ(&self, w: Word) -> Result<u8, TextError> {
        match self.typ(w)? {
            ANY => error(w.line, quoted(w.word), "one type, not any"),
            typ => Ok(typ),
        }
    }

    /// The number of a subject.
    fn one_subject(&self, w: Word) -> Result<u8, TextError> {
        let names: Vec<&str> = self.raw.subjects.iter().map(|s| s.name.word).collect();
        reference(w, &names, "the name of a subject")
    }

    /// The number of a sender, or any.
    fn sender(&self, w: Word) -> Result<u8, TextError> {
        if w.word == "any" {
            return Ok(ANY);
        }
        self.one_subject(w)
    }

    /// One subject with its states and limits.
    fn subject(&self, raw: &RawSubject, exits: &mut usize) -> Result<Subject, TextError> {
        if raw.states.is_empty() {
            let found = format!("'{}' without a state", raw.name.word);
            return error(raw.name.line, found, "1 to 32 states for a subject");
        }
        let names: Vec<&str> = raw.states.iter().map(|s| s.name.word).collect();
        let mut subject = Subject::default();
        for state in &raw.states {
            subject.states.push(self.state(state, &names)?);
            *exits += state.exits.len();
            if *exits > MOST_EXITS {
                let found = format!("{exits} exits up to here");
                return error(state.name.line, found, "no more than 1,024 exits in all");
            }
        }
        let initial = raw.initial.unwrap_or(raw.states[0].name);
        subject.initial = reference(initial, &names, STATE_NAME)?;
        if subject.states[usize::from(subject.initial)].kind == END {
            return error(
                initial.line,
                quoted(initial.word),
                "an initial state that is not an end",
            );
        }
        subject.limits = self.limits(raw)?;
        Ok(subject)
    }

    /// The limit rows of a subject in the file's order.
    fn limits(&self, raw: &RawSubject) -> Result<Vec<Limit>, TextError> {
        let mut limits: Vec<Limit> = Vec::new();
        for l in &raw.limits {
            let sender = self.sender(l.sender)?;
            let typ = self.typ(l.typ)?;
            if limits.iter().any(|o| (o.sender, o.typ) == (sender, typ)) {
                let found = format!("'{} from {}' again", l.typ.word, l.sender.word);
                return error(l.typ.line, found, "one limit for each type and sender");
            }
            limits.push(Limit {
                sender,
                typ,
                limit: l.limit,
            });
        }
        limits.sort_by_key(|l| (l.sender, l.typ));
        Ok(limits)
    }

    /// One state with its exits.
    fn state(&self, raw: &RawState, names: &[&str]) -> Result<State, TextError> {
        let mut state = State::plain(raw.kind);
        if raw.exits.len() < *exits_allowed(raw.kind).start() {
            let found = format!("'{}' with {} exits", raw.name.word, raw.exits.len());
            return error(raw.name.line, found, exit_form(raw.kind));
        }
        if matches!(raw.kind, CLOSE | OPEN | ASK_EMPTY) {
            state.typ = self.typ(raw.typ)?;
            state.sender = self.sender(raw.sender)?;
        }
        for r in &raw.receivers {
            state.receivers |= bit(usize::from(self.one_subject(*r)?));
        }
        if let Some((ticks, target)) = raw.timeout {
            state.duration = ticks;
            state.timeout = reference(target, names, STATE_NAME)?;
        }
        if let Some(target) = raw.cancel {
            state.cancel = reference(target, names, STATE_NAME)?;
        }
        for exit in &raw.exits {
            state.exits.push(self.exit(raw, exit, names)?);
        }
        Ok(state)
    }

    /// One exit.
    fn exit(&self, state: &RawState, raw: &RawExit, names: &[&str]) -> Result<Exit, TextError> {
        let (sender, typ) = match state.kind {
            SEND => (ANY, self.one_typ(state.typ)?),
            RECEIVE => (self.one_subject(raw.sender)?, self.one_typ(raw.typ)?),
            _ => (ANY, ANY),
        };
        Ok(Exit {
            target: reference(raw.target, names, STATE_NAME)?,
            sender,
            typ,
        })
    }

    /// The names of the text, with default names for types it has none for.
    fn names(&self, model: &Model) -> Names {
        let mut names = Names::default_of(model);
        let owned = |w: &Word| w.word.to_string();
        names.subjects = self.raw.subjects.iter().map(|s| owned(&s.name)).collect();
        names.states = self
            .raw
            .subjects
            .iter()
            .map(|s| s.states.iter().map(|t| owned(&t.name)).collect())
            .collect();
        for (x, name) in self.types.iter().enumerate() {
            names.types[x] = match name {
                Some(name) => name.to_string(),
                None => x.to_string(),
            };
        }
        names
    }
}

const STATE_NAME: &str = "the name of a state of this subject";

/// The number of a name in a list; a number stands for itself.
fn reference(w: Word, names: &[&str], expected: &str) -> Result<u8, TextError> {
    let named = names.iter().position(|n| *n == w.word);
    let numbered = number(w.word).filter(|x| *x < names.len() as u64);
    match named.or(numbered.map(|x| x as usize)) {
        Some(x) => Ok(x as u8),
        None => error(w.line, quoted(w.word), expected),
    }
}
