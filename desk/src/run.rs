//! `desk run`: a model steps through a tape, a line a command.

use crate::args::*;
use crate::files;
use crate::second::*;
use crate::text::names::*;
use crate::text::tape_print::command_text;

/// Runs a tape and prints what each command did and the pools at the end.
pub fn main(given: &[String]) -> Outcome {
    let args = Args::sort(given, &[], &["--plain"])?;
    args.expect(&["the model", "the tape"])?;
    let named = files::read_model(&args.plain[0])?;
    let tape = files::read_tape(&args.plain[1], &named)?;
    let text = match args.option("--plain") {
        Some(_) => plain_text(&named.model, &tape),
        None => run_text(&named, &tape),
    };
    files::print(&text)
}

/// The lines of the rules' program.
fn plain_text(model: &Model, tape: &[u8]) -> String {
    let mut config = fresh(model).1;
    let mut text = "n c s r state word pool\n".to_string();
    let lines = run_tape(model, &mut config, tape, numbers_of(tape));
    for (i, l) in lines.iter().flatten().enumerate() {
        text += &format!(
            "{} {} {} {} {} {} {}\n",
            i + 1,
            l.code,
            l.subject,
            l.refusal,
            l.state,
            l.word,
            l.entries
        );
    }
    if !tape.len().is_multiple_of(8) {
        text += "cut\n";
    }
    text
}

/// The lines with names, then every pool.
fn run_text(named: &Named, tape: &[u8]) -> String {
    let mut config = fresh(&named.model).1;
    let mut text = String::new();
    let pieces = tape.chunks_exact(8);
    let rest = pieces.remainder().len();
    for (i, piece) in pieces.enumerate() {
        let mut bytes = [0; 8];
        bytes.copy_from_slice(piece);
        let said = command_text(bytes, Some(named), Some(&config));
        let answer = step_coded(&named.model, &mut config, bytes);
        let told = answer_text(named, &answer);
        let after = subject_after(named, &config, bytes).unwrap_or_default();
        let line = format!("{:4}  {said:<26}  {told:<42}  {after}", i + 1);
        text += line.trim_end();
        text += "\n";
    }
    if rest != 0 {
        text += &format!("cut: {rest} bytes at the end are no whole command\n");
    }
    text + "\n" + &pools_text(named, &config)
}

/// What the step answered, in words.
pub fn answer_text(named: &Named, answer: &Answer) -> String {
    match *answer {
        Answer::Done => "accepted".to_string(),
        Answer::Refused(number) => format!("refused {number}: {}", refusal_word(number)),
        Answer::Reserved {
            placed,
            improper,
            closed,
            full,
            missing,
        } => {
            let mut parts = vec![format!("accepted, missing {missing}")];
            let masks = [
                ("placed", placed),
                ("improper", improper),
                ("closed", closed),
                ("full", full),
            ];
            for (word, mask) in masks.iter().filter(|(_, mask)| *mask != 0) {
                parts.push(format!("{word} {}", named.names.mask(*mask)));
            }
            parts.join("; ")
        }
    }
}

/// The command's subject afterwards; nothing for Tick and where there is no such subject.
fn subject_after(named: &Named, config: &Config, bytes: [u8; 8]) -> Option<String> {
    let (_, command) = decode(bytes);
    let subject = bytes[1];
    if command == Some(Command::Tick) || usize::from(subject) >= named.model.n() {
        return None;
    }
    let actor = &config.subjects[usize::from(subject)];
    Some(format!(
        "{} {} in {}, word {}, pool {}",
        named.names.subject(subject),
        mode_word(actor.mode),
        named.names.state(subject, actor.state),
        actor.word,
        actor.pool.count
    ))
}

/// Every subject with its pool.
pub fn pools_text(named: &Named, config: &Config) -> String {
    let mut text = String::new();
    for s in 0..named.model.n() {
        let actor = &config.subjects[s];
        let name = named.names.subject(s as u8);
        let state = named.names.state(s as u8, actor.state);
        let share = match shared_out(&named.model, s as u8) {
            Share::Yes => "shared out",
            _ => "not shared out",
        };
        text += &format!(
            "{name}: {} in {state}, word {}, waited {}; pool {} of 16, {share}\n",
            mode_word(actor.mode),
            actor.word,
            actor.waited,
            actor.pool.count
        );
        for (i, entry) in actor.pool.used().iter().enumerate() {
            text += &format!("  {i:2}  {}\n", entry_text(&named.names, entry));
        }
        text += &closed_text(&named.names, actor);
    }
    text
}

/// A message with its content, or a reservation.
fn entry_text(names: &Names, entry: &Entry) -> String {
    let from = format!(
        "{} from {}",
        names.typ(entry.typ),
        names.subject(entry.sender)
    );
    if entry.message {
        format!("{from}: {}", entry.content)
    } else {
        format!("{from}: reserved")
    }
}

/// The closed marks of a pool, a line a sender.
fn closed_text(names: &Names, actor: &Actor) -> String {
    let mut text = String::new();
    for (s, marks) in (0u8..).zip(actor.closed) {
        if marks == 0 {
            continue;
        }
        let types: Vec<String> = (0..TYPES)
            .filter(|t| marks >> t & 1 != 0)
            .map(|t| names.typ(t))
            .collect();
        let what = if marks == u32::MAX {
            "everything".to_string()
        } else {
            types.join(", ")
        };
        text += &format!("  closed for {what} from {}\n", names.subject(s));
    }
    text
}
