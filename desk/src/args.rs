//! Arguments of a subcommand, and how a subcommand stops.

/// Why a subcommand stopped short: wrong use (status 2) or refused input (status 1).
#[derive(Debug, PartialEq, Eq)]
pub enum Stop {
    Usage(String),
    Refused(String),
}

pub type Outcome = Result<(), Stop>;

/// The plain arguments in order, and the options given with their values.
pub struct Args {
    pub plain: Vec<String>,
    options: Vec<(String, String)>,
}

impl Args {
    /// Sorts arguments: `valued` options take the next one, `flags` stand alone.
    pub fn sort(given: &[String], valued: &[&str], flags: &[&str]) -> Result<Args, Stop> {
        let mut args = Args {
            plain: Vec::new(),
            options: Vec::new(),
        };
        let mut rest = given.iter();
        while let Some(arg) = rest.next() {
            let value = if valued.contains(&arg.as_str()) {
                match rest.next() {
                    Some(value) => value.clone(),
                    None => return usage(format!("{arg} needs a value after it")),
                }
            } else if flags.contains(&arg.as_str()) {
                String::new()
            } else if arg.starts_with('-') {
                return usage(format!("there is no option {arg} here"));
            } else {
                args.plain.push(arg.clone());
                continue;
            };
            if args.option(arg).is_some() {
                return usage(format!("{arg} is given twice"));
            }
            args.options.push((arg.clone(), value));
        }
        Ok(args)
    }

    /// The value of an option, if it was given.
    pub fn option(&self, name: &str) -> Option<&str> {
        let found = self.options.iter().find(|(n, _)| n == name);
        found.map(|(_, value)| value.as_str())
    }

    /// The number an option gives, if it was given.
    pub fn number(&self, name: &str) -> Result<Option<u64>, Stop> {
        let Some(word) = self.option(name) else {
            return Ok(None);
        };
        match crate::text::number(word) {
            Some(value) => Ok(Some(value)),
            None => usage(format!("{name}: '{word}' is no number")),
        }
    }

    /// Refuses unless there are as many plain arguments as the words say.
    pub fn expect(&self, words: &[&str]) -> Outcome {
        if self.plain.len() < words.len() {
            return usage(format!("missing: {}", words[self.plain.len()..].join(", ")));
        }
        match self.plain.get(words.len()) {
            Some(extra) => usage(format!("'{extra}' is one argument too many")),
            None => Ok(()),
        }
    }
}

/// Stops for wrong use.
pub fn usage<T>(message: String) -> Result<T, Stop> {
    Err(Stop::Usage(message))
}

/// Stops for refused input.
pub fn refused<T>(message: String) -> Result<T, Stop> {
    Err(Stop::Refused(message))
}
