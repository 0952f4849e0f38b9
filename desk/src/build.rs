//! `desk build`: model text to a model file.

use crate::args::*;
use crate::compare;
use crate::files;
use crate::proved;
use crate::second::*;
use crate::text::model_parse::parse_model;

/// Builds the model file of a text.
pub fn main(given: &[String]) -> Outcome {
    let args = Args::sort(given, &["-o"], &[])?;
    args.expect(&["the model text"])?;
    let Some(target) = args.option("-o") else {
        return usage("missing: -o and the file to write".to_string());
    };
    let path = &args.plain[0];
    let text = files::read_text(path)?;
    let named = parse_model(&text).map_err(|e| files::at(path, &e))?;
    let file = file_of(&named.model);
    engines_agree(path, &file)?;
    files::write(target, &file)?;
    files::print(&format!("{target}: {}\n", sizes(&named.model, &file)))
}

/// Refuses where the desk has the proved engine and that writes other bytes of the same model.
fn engines_agree(path: &str, file: &[u8]) -> Outcome {
    let Ok(engine) = proved::engine() else {
        return Ok(());
    };
    match compare::writing_differs(engine.as_ref(), file) {
        Some(text) => refused(format!(
            "{path}: no file is written, for the proved engine writes other bytes of this model\n\n{text}"
        )),
        None => Ok(()),
    }
}

/// The sizes of a model and its file in words.
pub fn sizes(model: &Model, file: &[u8]) -> String {
    let count = |n: usize, one: &str, more: &str| {
        let word = if n == 1 { one } else { more };
        format!("{n} {word}")
    };
    let states = model.subjects.iter().map(|s| s.states.len()).sum();
    let limits = model.subjects.iter().map(|s| s.limits.len()).sum();
    [
        count(file.len() / BLOCK, "block", "blocks"),
        count(model.n(), "subject", "subjects"),
        count(states, "state", "states"),
        count(model.exits(), "exit", "exits"),
        count(limits, "limit", "limits"),
    ]
    .join(", ")
}
