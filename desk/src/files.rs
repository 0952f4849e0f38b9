//! Reading, writing and printing for the subcommands.

use crate::args::*;
use crate::second::*;
use crate::text::model_parse::parse_model;
use crate::text::names::{refusal_word, Named};
use crate::text::tape_parse::parse_tape;
use crate::text::{is_text, TextError};
use std::io::{ErrorKind, Write};

/// The bytes of a file.
pub fn read(path: &str) -> Result<Vec<u8>, Stop> {
    match std::fs::read(path) {
        Ok(bytes) => Ok(bytes),
        Err(error) => usage(format!("{path}: {}", trouble(path, &error))),
    }
}

/// Writes a file.
pub fn write(path: &str, bytes: &[u8]) -> Outcome {
    match std::fs::write(path, bytes) {
        Ok(()) => Ok(()),
        Err(error) => usage(format!("{path}: {}", trouble(path, &error))),
    }
}

/// What went wrong with a file, in words.
fn trouble(path: &str, error: &std::io::Error) -> String {
    if std::path::Path::new(path).is_dir() {
        return "is a directory, a file was expected".to_string();
    }
    match error.kind() {
        ErrorKind::NotFound => "there is no such file or directory".to_string(),
        ErrorKind::PermissionDenied => "may not be opened".to_string(),
        _ => error.to_string(),
    }
}

/// Prints to standard output; a reader that has gone away is no error.
pub fn print(text: &str) -> Outcome {
    let mut out = std::io::stdout().lock();
    match out.write_all(text.as_bytes()).and_then(|()| out.flush()) {
        Err(e) if e.kind() != ErrorKind::BrokenPipe => usage(format!("standard output: {e}")),
        _ => Ok(()),
    }
}

/// The text of a file that must be text.
pub fn read_text(path: &str) -> Result<String, Stop> {
    match String::from_utf8(read(path)?) {
        Ok(text) => Ok(text),
        Err(e) => {
            let at = e.utf8_error().valid_up_to();
            refused(format!("{path}: byte {at} is not text in UTF-8"))
        }
    }
}

/// A model from a file of text or a binary one.
pub fn read_model(path: &str) -> Result<Named, Stop> {
    let bytes = read(path)?;
    if is_text(&bytes) {
        let text = String::from_utf8_lossy(&bytes);
        return parse_model(&text).map_err(|e| at(path, &e));
    }
    match load(&bytes) {
        Ok(model) => Ok(Named::unnamed(model)),
        Err(r) => refused(refusal_text(path, &r)),
    }
}

/// A tape from a file of text or a binary one.
pub fn read_tape(path: &str, named: &Named) -> Result<Vec<u8>, Stop> {
    let bytes = read(path)?;
    if is_text(&bytes) {
        let text = String::from_utf8_lossy(&bytes);
        return parse_tape(&text, Some(named)).map_err(|e| at(path, &e));
    }
    Ok(bytes)
}

/// A text's error with the file's name.
pub fn at(path: &str, error: &TextError) -> Stop {
    Stop::Refused(format!("{path}:{error}"))
}

/// A loader's refusal in one line.
pub fn refusal_text(path: &str, r: &Refused) -> String {
    let meaning = refusal_word(r.number);
    format!(
        "{path}: refused {} in block {}: {meaning}",
        r.number, r.block
    )
}
