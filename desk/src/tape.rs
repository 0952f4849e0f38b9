//! `desk tape`: tape text to bytes with -o, bytes to text without.

use crate::args::*;
use crate::files;
use crate::text::is_text;
use crate::text::tape_parse::parse_tape;
use crate::text::tape_print::tape_text;

/// Builds a tape from text, or prints one as text.
pub fn main(given: &[String]) -> Outcome {
    let args = Args::sort(given, &["-o", "--model"], &[])?;
    args.expect(&["the tape"])?;
    let path = &args.plain[0];
    let named = match args.option("--model") {
        Some(model) => Some(files::read_model(model)?),
        None => None,
    };
    let Some(target) = args.option("-o") else {
        let bytes = files::read(path)?;
        if is_text(&bytes) {
            return usage(format!("{path} is text: give -o and the file to write"));
        }
        return files::print(&tape_text(&bytes, named.as_ref()));
    };
    let text = files::read_text(path)?;
    let tape = parse_tape(&text, named.as_ref()).map_err(|e| files::at(path, &e))?;
    files::write(target, &tape)?;
    files::print(&format!("{target}: {} commands\n", tape.len() / 8))
}
