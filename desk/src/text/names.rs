//! The names of subjects, states and types, and the model they belong to.

use crate::second::*;

/// Names by number.
#[derive(Clone, Debug, PartialEq, Eq)]
pub struct Names {
    pub subjects: Vec<String>,
    pub states: Vec<Vec<String>>,
    pub types: Vec<String>,
}

/// A model with its names.
#[derive(Clone, Debug)]
pub struct Named {
    pub model: Model,
    pub names: Names,
}

impl Names {
    /// The names a binary model is shown with: subjects s0.., their states t0.., types m0..
    pub fn default_of(model: &Model) -> Names {
        let numbered = |letter: char, count: usize| -> Vec<String> {
            (0..count).map(|i| format!("{letter}{i}")).collect()
        };
        Names {
            subjects: numbered('s', model.n()),
            states: model
                .subjects
                .iter()
                .map(|s| numbered('t', s.states.len()))
                .collect(),
            types: numbered('m', usize::from(TYPES)),
        }
    }

    /// The subject's name, or its number where there is no such subject.
    pub fn subject(&self, subject: u8) -> String {
        name_or_number(&self.subjects, subject)
    }

    /// The state's name within its subject, or its number.
    pub fn state(&self, subject: u8, state: u8) -> String {
        match self.states.get(usize::from(subject)) {
            Some(states) => name_or_number(states, state),
            None => state.to_string(),
        }
    }

    /// The type's name, or 'any'.
    pub fn typ(&self, typ: u8) -> String {
        if typ == ANY {
            "any".to_string()
        } else {
            name_or_number(&self.types, typ)
        }
    }

    /// The sender's name, or 'any'.
    pub fn sender(&self, sender: u8) -> String {
        if sender == ANY {
            "any".to_string()
        } else {
            self.subject(sender)
        }
    }

    /// The names of the subjects in a mask, or 'nobody'.
    pub fn mask(&self, mask: u16) -> String {
        let members: Vec<String> = (0..16u8)
            .filter(|s| mask & bit(usize::from(*s)) != 0)
            .map(|s| self.subject(s))
            .collect();
        if members.is_empty() {
            "nobody".to_string()
        } else {
            members.join(", ")
        }
    }
}

impl Named {
    /// A model without names of its own.
    pub fn unnamed(model: Model) -> Named {
        let names = Names::default_of(&model);
        Named { model, names }
    }
}

fn name_or_number(names: &[String], index: u8) -> String {
    match names.get(usize::from(index)) {
        Some(name) => name.clone(),
        None => index.to_string(),
    }
}

/// A state kind in words.
pub fn kind_word(kind: u8) -> &'static str {
    match kind {
        INTERNAL => "internal",
        SEND => "send",
        RECEIVE => "receive",
        CLOSE => "close",
        OPEN => "open",
        ASK_EMPTY => "ask-empty",
        END => "end",
        _ => "no such kind",
    }
}

/// A mode in words.
pub fn mode_word(mode: u8) -> &'static str {
    match mode {
        ASLEEP => "asleep",
        RUNNING => "running",
        ENDED => "ended",
        ENDED_IMPROPERLY => "ended improperly",
        _ => "no such mode",
    }
}

/// A refusal's meaning in words.
pub fn refusal_word(number: u8) -> &'static str {
    match number {
        0 => "accepted",
        1 => "the length is not 1 to 43 whole blocks",
        2 => "a block's check is wrong",
        3 => "a block's number, kind, record count, fullness or unused room is wrong",
        4 => "a record breaks a rule of its own or stands out of order",
        5 => "the records do not fit together",
        6 => "a buffer is too short",
        8 => "the model is not valid",
        9 => "no such command code",
        10 => "the configuration is not valid for the model",
        11 => "no such subject",
        12 => "the subject is not running",
        13 => "the state is of the wrong kind",
        14 => "no such exit",
        15 => "no matching message",
        16 => "a place is missing",
        17 => "a receiver ended improperly",
        18 => "no timeout or cancel target",
        19 => "waited less than the duration",
        20 => "Deliver would be accepted",
        _ => "no such refusal",
    }
}
