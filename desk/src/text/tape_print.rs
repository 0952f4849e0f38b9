//! Prints commands and whole tapes as text.

use super::names::*;
use crate::second::*;

/// The words of the commands by code.
pub const WORDS: [&str; 9] = [
    "", "do", "reserve", "deliver", "take", "run", "expire", "cancel", "tick",
];

/// The text of a tape; building it with the same model gives the same bytes.
pub fn tape_text(tape: &[u8], named: Option<&Named>) -> String {
    let mut text = String::new();
    let mut ticks = 0;
    let mut config = named.map(|n| fresh(&n.model).1);
    let pieces = tape.chunks_exact(8);
    let rest = pieces.remainder();
    for piece in pieces {
        let mut bytes = [0; 8];
        bytes.copy_from_slice(piece);
        if bytes == Command::Tick.encode() {
            ticks += 1;
        } else {
            text += &ticks_text(&mut ticks);
            text += &format!("{}\n", command_text(bytes, named, config.as_ref()));
        }
        if let (Some(named), Some(config), (_, Some(command))) =
            (named, config.as_mut(), decode(bytes))
        {
            step_valid(&named.model, config, command);
        }
    }
    text += &ticks_text(&mut ticks);
    if !rest.is_empty() {
        let bytes: Vec<String> = rest.iter().map(|b| b.to_string()).collect();
        text += &format!("cut {}\n", bytes.join(" "));
    }
    text
}

/// The lines for some ticks in a row; none are left.
fn ticks_text(ticks: &mut u64) -> String {
    let mut text = String::new();
    while *ticks > 0 {
        let now = (*ticks).min(super::tape_parse::MOST_TICKS);
        text += &match now {
            1 => "tick\n".to_string(),
            _ => format!("tick {now}\n"),
        };
        *ticks -= now;
    }
    text
}

/// One command in words; in the raw form where the words would lose some of its bytes.
pub fn command_text(bytes: [u8; 8], named: Option<&Named>, config: Option<&Config>) -> String {
    let (_, command) = decode(bytes);
    let Some(command) = command.filter(|c| c.encode() == bytes) else {
        return raw_text(bytes);
    };
    let word = WORDS[usize::from(command.code())];
    let who = match named {
        Some(named) => named.names.subject(command.subject()),
        None => command.subject().to_string(),
    };
    let exit = |subject, exit| match (named, config) {
        (Some(named), Some(config)) => exit_text(named, config, subject, exit),
        _ => exit.to_string(),
    };
    match command {
        Command::Do {
            subject,
            exit: e,
            word: w,
        } => format!("{word} {who} {} {w}", exit(subject, e)),
        Command::Take { subject, exit: e } => format!("{word} {who} {}", exit(subject, e)),
        Command::Tick => word.to_string(),
        _ => format!("{word} {who}"),
    }
}

/// The raw form: the code and every other byte that is not 0.
fn raw_text(b: [u8; 8]) -> String {
    let word = u32::from_le_bytes([b[4], b[5], b[6], b[7]]);
    let mut text = format!("code {}", b[0]);
    let fields = [
        ("subject", u32::from(b[1])),
        ("exit", u32::from(b[2])),
        ("ignored", u32::from(b[3])),
        ("word", word),
    ];
    for (name, value) in fields {
        if value != 0 {
            text += &format!(" {name} {value}");
        }
    }
    text
}

/// The state the subject is in now, if there is such a subject.
pub fn state_now<'n>(named: &'n Named, config: &Config, subject: u8) -> Option<&'n State> {
    let owner = named.model.subjects.get(usize::from(subject))?;
    let at = config.subjects.get(usize::from(subject))?.state;
    owner.states.get(usize::from(at))
}

/// The exit by its target's name where only one exit of the state leads there, else its number.
fn exit_text(named: &Named, config: &Config, subject: u8, exit: u8) -> String {
    let by_number = exit.to_string();
    let Some(state) = state_now(named, config, subject) else {
        return by_number;
    };
    let Some(chosen) = state.exits.get(usize::from(exit)) else {
        return by_number;
    };
    let alike = state.exits.iter().filter(|e| e.target == chosen.target);
    if alike.count() == 1 {
        named.names.state(subject, chosen.target)
    } else {
        by_number
    }
}
