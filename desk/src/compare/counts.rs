//! How often each command, refusal and answer came while comparing.

use crate::second::*;
use crate::text::names::refusal_word;
use crate::text::tape_print::WORDS;

/// The codes of a Reserve and of a Tick.
const RESERVE: u8 = 2;
const TICK: u8 = 8;

/// The counts of one comparison.
#[derive(Clone, Debug, Default)]
pub struct Counts {
    pub models: u64,
    pub files: u64,
    pub loaded: u64,
    pub steps: u64,
    pub lines: u64,
    pub walked: u64,
    /// Configurations given in bytes, and those of them that are none.
    pub configs: u64,
    pub none: u64,
    /// Those that are not valid for nothing but that somebody ended improperly and holds no message.
    pub hollow: u64,
    /// Ends entered with nothing left in the own pool, with reservations only, and with a message.
    pub ends: [u64; 3],
    pub accepted: [u64; 9],
    pub refusals: [u64; 21],
    /// Reserve's answers with somebody placed, improper, closed, full, and with nobody missing.
    pub replies: [u64; 5],
    pub yes: u64,
    pub no: u64,
    /// Writes accepted, refused 8 and refused 6.
    pub writes: [u64; 3],
    /// Writes of edited models, and those of them that are still valid.
    pub edited: u64,
    pub still_valid: u64,
    /// Files that were loaded and written back.
    pub back: u64,
}

impl Counts {
    /// Counts a refusal; 0 is none.
    pub fn refusal(&mut self, number: u8) {
        if let Some(count) = self.refusals.get_mut(usize::from(number)) {
            *count += 1;
        }
    }

    /// Counts a loaded or refused file.
    pub fn file(&mut self, refusal: u8) {
        self.files += 1;
        self.loaded += u64::from(refusal == 0);
        self.refusal(refusal);
    }

    /// Counts the answer for a pool.
    pub fn share(&mut self, answer: u8) {
        match answer {
            1 => self.yes += 1,
            0 => self.no += 1,
            number => self.refusal(number),
        }
    }

    /// Counts a write of a model as it was loaded, or of an edited one.
    pub fn write(&mut self, refusal: u8, edited: bool) {
        self.refusal(refusal);
        let answer = match refusal {
            0 => 0,
            8 => 1,
            _ => 2,
        };
        self.writes[answer] += 1;
        if edited {
            self.edited += 1;
            self.still_valid += u64::from(refusal != 8);
        }
    }

    /// Counts bytes in the place of a configuration.
    pub fn config(&mut self, model: &Model, bytes: &[u8]) {
        self.configs += 1;
        match Config::from_bytes(bytes) {
            Some(config) => self.hollow += u64::from(lacks_a_message(model, &config)),
            None => self.none += 1,
        }
    }

    /// Counts one step with its nine values and the configuration after it.
    pub fn step(&mut self, command: [u8; 8], refusal: u8, values: &[u8], config: &[u8]) {
        let [code, subject, ..] = command;
        self.steps += 1;
        self.refusal(refusal);
        if refusal != 0 {
            return;
        }
        self.accepted[usize::from(code)] += 1;
        if let (true, Some(config)) = (code != TICK, Config::from_bytes(config)) {
            self.end(&config.subjects[usize::from(subject)]);
        }
        if code == RESERVE {
            for (count, mask) in self.replies.iter_mut().zip(values.chunks_exact(2).take(4)) {
                *count += u64::from(mask != [0, 0]);
            }
            self.replies[4] += u64::from(values[8] == 0);
        }
    }

    /// Counts a subject that its own command has ended, by what is left in its pool.
    fn end(&mut self, actor: &Actor) {
        if matches!(actor.mode, ENDED | ENDED_IMPROPERLY) {
            let left = match actor.pool.count {
                0 => 0,
                _ => 1 + usize::from(actor.pool.holds_message()),
            };
            self.ends[left] += 1;
        }
    }

    /// The table for the end of a comparison.
    pub fn table(&self) -> String {
        let mut text = format!(
            "models {}, files {} ({} loaded), steps {}, tape lines {}, walked commands {}\n\
             configurations in bytes {} ({} are none)\n",
            self.models,
            self.files,
            self.loaded,
            self.steps,
            self.lines,
            self.walked,
            self.configs,
            self.none
        );
        text += "\ncommand       accepted\n";
        for (code, word) in WORDS.iter().enumerate().skip(1) {
            text += &format!("{code} {word:<8} {:>11}\n", self.accepted[code]);
        }
        text += "\nrefusal          times\n";
        for number in (1u8..=20).filter(|number| *number != 7) {
            let times = self.refusals[usize::from(number)];
            text += &format!("{number:2} {times:>19}  {}\n", refusal_word(number));
        }
        let words = ["placed", "improper", "closed", "full", "none missing"];
        text += &answers("Reserve", &words, &self.replies);
        let [nothing, reservations, message] = self.ends;
        text += &format!(
            "\nends entered: {nothing} with nothing left, {reservations} with reservations only, {message} with a message\n\
             configurations wrong only by an improper end without a message: {}\n",
            self.hollow
        );
        text += &format!("\nshared out: yes {}, no {}\n", self.yes, self.no);
        let words = ["accepted", "refused 8", "refused 6"];
        text += &answers("Write", &words, &self.writes);
        text + &format!(
            "\nedited models {} ({} still valid), files written back {}\n",
            self.edited, self.still_valid, self.back
        )
    }
}

/// Whether a configuration is not valid, and would be if those who ended improperly with no message had ended properly.
pub fn lacks_a_message(model: &Model, config: &Config) -> bool {
    let mut other = *config;
    for actor in &mut other.subjects {
        if actor.mode == ENDED_IMPROPERLY && !actor.pool.holds_message() {
            actor.mode = ENDED;
        }
    }
    other != *config && config_valid(model, &other)
}

/// How often each answer of a call came, a line each.
fn answers(call: &str, words: &[&str], times: &[u64]) -> String {
    let mut text = format!("\n{call} answered\n");
    for (word, times) in words.iter().zip(times) {
        text += &format!("{word:<12} {times:>9}\n");
    }
    text
}
