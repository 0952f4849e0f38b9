//! Prints a trial that differs: the model, the tape, and what each engine said.

use super::calls::model_of;
use super::flat::{config_fields, model_fields, value_of};
use super::trial::{Call, Difference, Differing, Spare, Trial};
use crate::second::*;
use crate::show::{checks_aside, records_text, shown, trouble_text};
use crate::text::names::Named;
use crate::text::tape_print::tape_text;

/// The most differing or edited fields that are printed.
const MOST_FIELDS: usize = 12;

/// Everything about a trial that differs.
pub fn difference_text(trial: &Trial, difference: &Difference) -> String {
    let mut text = file_text(&trial.file);
    if trial.has_tape() {
        text += &start_text(trial);
        let commands = match trial.tape.len() / 8 {
            1 => "1 command".to_string(),
            more => format!("{more} commands"),
        };
        text += &format!("\nthe tape, {commands}:\n");
        text += &tape_text(&trial.tape, named(trial).as_ref());
    }
    text += &edits_text(trial);
    text += &format!("\n{}{}", call_text(trial), spare_text(trial.spare));
    if let Some(i) = difference.command.filter(|i| i * 8 < trial.tape.len()) {
        text += &format!(", command {} of the tape", i + 1);
    }
    text + ":\n" + &fields_text(difference)
}

/// The model as text, or the damaged file as it can still be read.
fn file_text(file: &[u8]) -> String {
    match load(file) {
        Ok(model) => shown(&model, file),
        Err(r) => {
            trouble_text("the file", file, &r) + &checks_aside(file, &r) + &records_text(file)
        }
    }
}

/// The names that a tape from the fresh start is shown with.
fn named(trial: &Trial) -> Option<Named> {
    match (load(&trial.file), trial.start) {
        (Ok(model), None) => Some(Named::unnamed(model)),
        _ => None,
    }
}

/// Where the tape starts: all fields that are not 0.
fn start_text(trial: &Trial) -> String {
    let Some(bytes) = trial.start else {
        return "\nfrom the fresh start\n".to_string();
    };
    let mut text = match Config::from_bytes(&bytes) {
        Some(_) => "\nfrom this configuration, all else 0:\n".to_string(),
        None => "\nfrom these bytes, which are no configuration, all else 0:\n".to_string(),
    };
    for field in config_fields() {
        match value_of(&field, &bytes) {
            0 => {}
            value => text += &format!("  {} {value}\n", field.name),
        }
    }
    text
}

/// What is edited in the model's bytes: every field that is, before and after.
fn edits_text(trial: &Trial) -> String {
    if trial.edits.is_empty() {
        return String::new();
    }
    let (before, after) = (model_of(&trial.file).to_bytes(), trial.edited_model());
    let mut lines = Vec::new();
    for field in model_fields() {
        match (value_of(&field, &before), value_of(&field, &after)) {
            (old, new) if old == new => {}
            (old, new) => lines.push(format!("  {} {old} -> {new}\n", field.name)),
        }
    }
    "\nwith these fields of the model edited:\n".to_string() + &most_lines(&lines)
}

/// The first of some lines, and how many more there are.
fn most_lines(lines: &[String]) -> String {
    let text = lines[..lines.len().min(MOST_FIELDS)].concat();
    match lines.len().saturating_sub(MOST_FIELDS) {
        0 => text,
        more => text + &format!("  and {more} more\n"),
    }
}

/// The call in words.
fn call_text(trial: &Trial) -> String {
    match trial.call {
        Call::Load => "loading the file (zs_load) and writing it back (zs_write)".to_string(),
        Call::Write if load(&trial.file).is_err() => {
            "writing the empty model, all zero but for edits (zs_write)".to_string()
        }
        Call::Write => "writing the model (zs_write)".to_string(),
        Call::Shared => format!("is the pool of s{} shared out (zs_shared)", trial.owner),
        Call::Fresh => "the fresh start (zs_fresh)".to_string(),
        Call::Step => "step by step (zs_step)".to_string(),
        Call::Run => "the whole tape (zs_run)".to_string(),
        Call::Walk => "the whole tape by public steps (zs_walk)".to_string(),
    }
}

/// The buffers that are shorter or longer than the call needs.
fn spare_text(spare: Spare) -> String {
    let mut text = String::new();
    for (buffer, spare) in [
        ("configuration", spare.config),
        ("model", spare.model),
        ("answer", spare.answer),
    ] {
        let than = if spare < 0 { "short" } else { "long" };
        if spare != 0 {
            text += &format!(", buffer of the {buffer} {} too {than}", spare.abs());
        }
    }
    text
}

/// What each engine said, a line a field.
fn fields_text(difference: &Difference) -> String {
    let line = |d: &Differing| format!("  {:<28}  {:<22}  {}\n", d.field, d.second, d.proved);
    let lines: Vec<String> = difference.fields.iter().map(line).collect();
    format!("  {:<28}  {:<22}  proved engine\n", "", "second engine") + &most_lines(&lines)
}
