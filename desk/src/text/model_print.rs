//! Prints a model as text.

use super::names::*;
use crate::second::*;

/// The text of a model; building it gives the same model again.
pub fn model_text(named: &Named) -> String {
    let mut text = String::new();
    for typ in types_used(&named.model) {
        let name = named.names.typ(typ);
        if super::is_name(&name) {
            text += &format!("type {name} {typ}\n");
        }
    }
    for s in 0..named.model.n() {
        text += &subject_text(named, s as u8);
    }
    text
}

/// The types that the model names, in order.
fn types_used(model: &Model) -> Vec<u8> {
    let mut used = vec![false; 256];
    for subject in &model.subjects {
        for limit in &subject.limits {
            used[usize::from(limit.typ)] = true;
        }
        for state in &subject.states {
            used[usize::from(state.typ)] = true;
            for exit in &state.exits {
                used[usize::from(exit.typ)] = true;
            }
        }
    }
    (0..TYPES).filter(|t| used[usize::from(*t)]).collect()
}

/// One subject: its line, initial state, limits and states.
fn subject_text(named: &Named, s: u8) -> String {
    let Named { model, names } = named;
    let subject = &model.subjects[usize::from(s)];
    let starts = model.start & bit(usize::from(s)) != 0;
    let mark = if starts { " starts" } else { "" };
    let mut text = format!("subject {}{mark}\n", names.subject(s));
    if subject.initial != 0 {
        text += &format!("  initial {}\n", names.state(s, subject.initial));
    }
    for l in &subject.limits {
        let from = named_pool(names, l.typ, l.sender);
        text += &format!("  limit {from} {}\n", l.limit);
    }
    for (t, state) in subject.states.iter().enumerate() {
        text += &state_text(names, s, t as u8, state);
    }
    text
}

/// One state: its line, exits, timeout and cancel target.
fn state_text(names: &Names, s: u8, t: u8, state: &State) -> String {
    let mut text = format!("  state {} {}", names.state(s, t), kind_word(state.kind));
    match state.kind {
        SEND => {
            let typ = state.exits.first().map_or(ANY, |e| e.typ);
            text += &format!(" {} to {}", names.typ(typ), names.mask(state.receivers));
        }
        CLOSE | OPEN | ASK_EMPTY => {
            text += &format!(" {}", named_pool(names, state.typ, state.sender));
        }
        _ => {}
    }
    text += "\n";
    for (e, exit) in state.exits.iter().enumerate() {
        let target = names.state(s, exit.target);
        let what = exit_words(names, state.kind, e, exit);
        text += &format!("    {what}-> {target}\n");
    }
    if state.timeout != NONE {
        let target = names.state(s, state.timeout);
        text += &format!("    timeout {} -> {target}\n", state.duration);
    }
    if state.cancel != NONE {
        text += &format!("    cancel -> {}\n", names.state(s, state.cancel));
    }
    text
}

/// What stands before the arrow of an exit.
fn exit_words(names: &Names, kind: u8, e: usize, exit: &Exit) -> String {
    match (kind, e) {
        (RECEIVE, _) => named_pool(names, exit.typ, exit.sender) + " ",
        (ASK_EMPTY, 0) => "empty ".to_string(),
        (ASK_EMPTY, _) => "not-empty ".to_string(),
        _ => String::new(),
    }
}

/// A type from a sender.
fn named_pool(names: &Names, typ: u8, sender: u8) -> String {
    format!("{} from {}", names.typ(typ), names.sender(sender))
}
