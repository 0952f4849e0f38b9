//! Reads tape text, one command a line.

use super::names::*;
use super::tape_print::{state_now, WORDS};
use super::*;
use crate::second::*;

/// The most ticks one line may ask for.
pub const MOST_TICKS: u64 = 1_000_000;

/// What is known while the lines are read: the model, if one was given, and where it stands.
struct Reader<'n> {
    named: Option<&'n Named>,
    config: Config,
    tape: Vec<u8>,
    cut: bool,
}

/// The bytes of a tape text. Exits by name are those of the state the subject has reached by then.
pub fn parse_tape(text: &str, named: Option<&Named>) -> Result<Vec<u8>, TextError> {
    let mut reader = Reader {
        named,
        config: named.map_or(Config::default(), |n| fresh(&n.model).1),
        tape: Vec::new(),
        cut: false,
    };
    for line in lines_of(text) {
        reader.read(&line)?;
    }
    Ok(reader.tape)
}

impl Reader<'_> {
    /// Reads one line.
    fn read(&mut self, line: &Words) -> Result<(), TextError> {
        if self.cut {
            return line.wrong_line("nothing after 'cut'");
        }
        match line.words[..] {
            ["code", ..] => {
                let bytes = raw(line)?;
                self.put(bytes);
            }
            ["cut", ref bytes @ ..] => self.cut_line(line, bytes)?,
            ["tick"] => self.put(Command::Tick.encode()),
            ["tick", count] => {
                let expected = "a number of ticks from 1 to 1000000";
                for _ in 0..value(line, count, 1, MOST_TICKS, expected)? {
                    self.put(Command::Tick.encode());
                }
            }
            _ => {
                let command = self.command(line)?;
                self.put(command.encode());
            }
        }
        Ok(())
    }

    /// Adds a command and takes the step, so that later names fit.
    fn put(&mut self, bytes: [u8; 8]) {
        self.tape.extend(bytes);
        if let (Some(named), (_, Some(command))) = (self.named, decode(bytes)) {
            step_valid(&named.model, &mut self.config, command);
        }
    }

    /// `cut` and 1 to 7 bytes: the last piece of a tape.
    fn cut_line(&mut self, line: &Words, bytes: &[&str]) -> Result<(), TextError> {
        if !(1..=7).contains(&bytes.len()) {
            return line.wrong_line("'cut' and 1 to 7 bytes");
        }
        for word in bytes {
            let byte = value(line, word, 0, 255, "a byte from 0 to 255")?;
            self.tape.push(byte as u8);
        }
        self.cut = true;
        Ok(())
    }

    /// A command in words other than Tick.
    fn command(&self, line: &Words) -> Result<Command, TextError> {
        let words = &line.words;
        let code = WORDS.iter().position(|w| *w == words[0]);
        let (most, form) = match code {
            Some(1) => (4, "'do SUBJECT EXIT WORD'"),
            Some(4) => (3, "'take SUBJECT EXIT'"),
            Some(8) => (1, "'tick' or 'tick NUMBER'"),
            Some(_) => (2, "the command and a subject"),
            None => return line.wrong(words[0], COMMANDS),
        };
        let least = most.min(3);
        if words.len() < least || words.len() > most {
            return line.wrong_line(form);
        }
        let subject = self.subject(line, words[1])?;
        Ok(match code {
            Some(1) => Command::Do {
                subject,
                exit: self.exit(line, subject, words[2])?,
                word: match words.get(3) {
                    Some(w) => value(line, w, 0, u64::from(u32::MAX), WORD)? as u32,
                    None => 0,
                },
            },
            Some(4) => Command::Take {
                subject,
                exit: self.exit(line, subject, words[2])?,
            },
            Some(2) => Command::Reserve { subject },
            Some(3) => Command::Deliver { subject },
            Some(5) => Command::Run { subject },
            Some(6) => Command::Expire { subject },
            _ => Command::Cancel { subject },
        })
    }

    /// A subject by name or number.
    fn subject(&self, line: &Words, word: &str) -> Result<u8, TextError> {
        if number(word).is_some() || self.named.is_none() {
            let expected = "a subject's number (a name needs the model: --model)";
            return Ok(value(line, word, 0, 255, expected)? as u8);
        }
        let names = self.named.map_or(&[][..], |n| &n.names.subjects[..]);
        match names.iter().position(|n| n == word) {
            Some(s) => Ok(s as u8),
            None => line.wrong(word, "a subject's name or number"),
        }
    }

    /// An exit by number, or by the name of the state it leads to.
    fn exit(&self, line: &Words, subject: u8, word: &str) -> Result<u8, TextError> {
        if number(word).is_some() || self.named.is_none() {
            let expected = "an exit's number (a name needs the model: --model)";
            return Ok(value(line, word, 0, 255, expected)? as u8);
        }
        let found = self.exits_to(subject, word);
        match found[..] {
            [exit] => Ok(exit),
            [] => line.wrong(word, &self.exits_here(subject)),
            _ => line.wrong(word, "an exit's number, for several exits lead there"),
        }
    }

    /// The exits of the subject's state of now that lead to the named state.
    fn exits_to(&self, subject: u8, target: &str) -> Vec<u8> {
        let Some(named) = self.named else {
            return Vec::new();
        };
        let Some(state) = state_now(named, &self.config, subject) else {
            return Vec::new();
        };
        let leads = |e: &Exit| named.names.state(subject, e.target) == target;
        let exits = (0..).zip(&state.exits);
        exits.filter(|(_, e)| leads(e)).map(|(i, _)| i).collect()
    }

    /// What an exit of the subject's state of now could be.
    fn exits_here(&self, subject: u8) -> String {
        let state = self.named.and_then(|n| state_now(n, &self.config, subject));
        let (Some(named), Some(state)) = (self.named, state) else {
            return "an exit's number".to_string();
        };
        let at = self.config.subjects[usize::from(subject)].state;
        let who = named.names.subject(subject);
        let here = named.names.state(subject, at);
        let name = |e: &Exit| named.names.state(subject, e.target);
        let targets: Vec<String> = state.exits.iter().map(name).collect();
        format!(
            "an exit's number, or a state that an exit of '{here}' leads to, for '{who}' is there now ({})",
            targets.join(", ")
        )
    }
}

const WORD: &str = "a word from 0 to 4294967295";
const COMMANDS: &str = "do, reserve, deliver, take, run, expire, cancel, tick, code or cut";

/// A number within bounds.
fn value(line: &Words, word: &str, least: u64, most: u64, expect: &str) -> Result<u64, TextError> {
    match number(word) {
        Some(x) if (least..=most).contains(&x) => Ok(x),
        _ => line.wrong(word, expect),
    }
}

/// `code C subject S exit E ignored I word W`; what is not said is 0.
fn raw(line: &Words) -> Result<[u8; 8], TextError> {
    if !line.words.len().is_multiple_of(2) {
        return line.wrong_line("pairs of a field and a number");
    }
    let mut bytes = [0; 8];
    for pair in line.words.chunks_exact(2) {
        let byte = "a byte from 0 to 255";
        match pair[0] {
            "code" => bytes[0] = value(line, pair[1], 0, 255, byte)? as u8,
            "subject" => bytes[1] = value(line, pair[1], 0, 255, byte)? as u8,
            "exit" => bytes[2] = value(line, pair[1], 0, 255, byte)? as u8,
            "ignored" => bytes[3] = value(line, pair[1], 0, 255, byte)? as u8,
            "word" => {
                let word = value(line, pair[1], 0, u64::from(u32::MAX), WORD)? as u32;
                bytes[4..].copy_from_slice(&word.to_le_bytes());
            }
            other => return line.wrong(other, "code, subject, exit, ignored or word"),
        }
    }
    Ok(bytes)
}
