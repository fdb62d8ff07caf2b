//! The words after a command: operands and options.

use crate::commands::Command;
use crate::failure::Failure;
use std::ffi::{OsStr, OsString};
use std::fmt::Display;
use std::str::FromStr;

pub struct Args {
    command: &'static Command,
    operands: Vec<OsString>,
    options: Vec<(&'static str, OsString)>,
}

/// The words of a command, none if they ask for its help.
pub fn parse(command: &'static Command, mut words: impl Iterator<Item = OsString>) -> Result<Option<Args>, Failure> {
    let mut args = Args { command, operands: Vec::new(), options: Vec::new() };
    while let Some(word) = words.next() {
        match word.to_str() {
            Some("-h") | Some("--help") => return Ok(None),
            Some("--") => args.operands.extend(&mut words),
            Some(option) if option.starts_with('-') && option != "-" => args.take(option, &mut words)?,
            _ => args.operands.push(word),
        }
    }
    args.check_operands()?;
    Ok(Some(args))
}

impl Args {
    /// Takes an option, `--name=value` too.
    fn take(&mut self, word: &str, words: &mut impl Iterator<Item = OsString>) -> Result<(), Failure> {
        let (name, joined) = match word.split_once('=') {
            Some((name, value)) => (name, Some(OsString::from(value))),
            None => (word, None),
        };
        let name = if name == "--output" { "-o" } else { name };
        let option = self.command.options.iter().find(|option| option.name == name);
        let option = option.ok_or_else(|| self.usage(format!("has no option {}", name)))?;
        if self.option(name).is_some() {
            return Err(self.usage(format!("has {} twice", name)));
        }
        let value = match (option.has_value, joined) {
            (true, Some(value)) => value,
            (true, None) => words.next().ok_or_else(|| self.usage(format!("wants a value after {}", name)))?,
            (false, None) => OsString::new(),
            (false, Some(_)) => return Err(self.usage(format!("takes no value with {}", name))),
        };
        self.options.push((option.name, value));
        Ok(())
    }

    fn check_operands(&self) -> Result<(), Failure> {
        let names = self.command.operands;
        if let Some(extra) = self.operands.get(names.len()) {
            return Err(self.usage(format!("takes no further operand: {}", extra.to_string_lossy())));
        }
        if self.operands.iter().filter(|operand| *operand == "-").count() > 1 {
            return Err(self.usage("reads standard input once only".into()));
        }
        match names.get(self.operands.len()) {
            Some(missing) if !missing.starts_with('[') => Err(self.usage(format!("wants {}", missing))),
            _ => Ok(()),
        }
    }

    fn usage(&self, what: String) -> Failure {
        Failure::Usage(format!("{} {}", self.command.name, what))
    }

    pub fn operand(&self, index: usize) -> Option<&OsStr> {
        self.operands.get(index).map(OsString::as_os_str)
    }

    pub fn option(&self, name: &str) -> Option<&OsStr> {
        self.options.iter().find(|(taken, _)| *taken == name).map(|(_, value)| value.as_os_str())
    }

    pub fn required(&self, name: &str) -> Result<&OsStr, Failure> {
        self.option(name).ok_or_else(|| self.usage(format!("wants {}", name)))
    }

    /// Refuses one file for two outputs.
    pub fn apart(&self, one: &str, other: &str) -> Result<(), Failure> {
        match self.option(one) {
            Some(file) if self.option(other) == Some(file) => {
                Err(self.usage(format!("wants two different files after {} and {}", one, other)))
            }
            _ => Ok(()),
        }
    }

    /// The number that an option has, `otherwise` if it is not given.
    pub fn number<T: FromStr + Display>(&self, name: &str, most: T, otherwise: T) -> Result<T, Failure> {
        match self.option(name) {
            None => Ok(otherwise),
            Some(value) => {
                let number = value.to_str().and_then(|digits| digits.parse().ok());
                number.ok_or_else(|| self.usage(format!("wants a number of 0 to {} after {}", most, name)))
            }
        }
    }
}
