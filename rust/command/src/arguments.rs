//! What stands after the name of a subcommand: operands and options.

use std::ffi::{OsStr, OsString};
use std::io;
use std::os::unix::ffi::OsStrExt;
use std::path::Path;

use crate::failure::Failure;
use crate::identity::Identity;
use crate::output_file::OutputFile;

/// An option that a subcommand takes.
pub struct CommandOption {
    /// As it is written, `--budget`.
    pub name: &'static str,
    /// What stands after it; nothing for an option that is given or not.
    pub value: Option<Value>,
    /// The value that it has where it is not given.
    pub default: Option<&'static str>,
    /// What it does, for the help.
    pub meaning: &'static str,
}

/// What stands after an option. The library judges numbers; the command says which are meant where a word is none.
pub enum Value {
    /// A whole number, with the least and the most that the library takes.
    Number(u64, u64),
    /// A decimal number of ohms.
    Ohms,
    /// A file that is read, by the word that the help has for it.
    FileRead(&'static str),
    /// One of these words, or a file that is read, by the word that the help has for all of them.
    WordOrFileRead(&'static str, &'static [&'static str]),
    /// A file that is written, by the word that the help has for it.
    FileWritten(&'static str),
}

impl CommandOption {
    /// The option as the help writes it, `--budget N`.
    pub fn written(&self) -> String {
        let value = match self.value {
            None => return self.name.to_string(),
            Some(Value::Number(..)) => "N",
            Some(Value::Ohms) => "R",
            Some(Value::FileRead(word) | Value::FileWritten(word)) => word,
            Some(Value::WordOrFileRead(word, _)) => word,
        };
        format!("{} {value}", self.name)
    }

    /// Whether a word that begins with `-` and a digit can only be meant as the option's value.
    fn takes_number(&self) -> bool {
        matches!(self.value, Some(Value::Number(..) | Value::Ohms))
    }
}

/// The operands and options that were given.
pub struct Arguments {
    pub operands: Vec<OsString>,
    options: Vec<(&'static CommandOption, OsString)>,
}

impl Arguments {
    /// Takes the arguments apart, by the options that there are. `--` ends the options.
    pub fn parse(words: &[OsString], options: &[&'static CommandOption]) -> Result<Self, Failure> {
        let mut words = words.iter().cloned();
        let mut arguments = Arguments {
            operands: Vec::new(),
            options: Vec::new(),
        };
        while let Some(word) = words.next() {
            if word == "--" {
                arguments.operands.extend(words.by_ref());
            } else if is_option(&word) {
                arguments.take_option(&word, &mut words, options)?;
            } else {
                arguments.operands.push(word);
            }
        }
        if arguments.named().filter(|word| *word == "-").count() > 1 {
            let message = "standard input is given for more than one file";
            return Err(Failure::usage(message));
        }
        Ok(arguments)
    }

    /// All operands and all values of options.
    fn named(&self) -> impl Iterator<Item = &OsString> {
        let values = self.options.iter().map(|(_, value)| value);
        self.operands.iter().chain(values)
    }

    /// Takes an option, and its value from the same word, after `=`, or from the next one.
    fn take_option(
        &mut self,
        word: &OsStr,
        rest: &mut impl Iterator<Item = OsString>,
        options: &[&'static CommandOption],
    ) -> Result<(), Failure> {
        let (name, value) = split_at_equals(word);
        let Some(option) = options.iter().find(|option| name == option.name) else {
            let word = word.display();
            return Err(Failure::usage(format_args!("there is no option {word}")));
        };
        let name = option.name;
        if self.has(name) {
            return Err(Failure::usage(format_args!("{name} is given twice")));
        }
        let value = match (&option.value, value) {
            (None, None) => OsString::new(),
            (None, Some(_)) => return Err(Failure::usage(format_args!("{name} takes no value"))),
            (Some(_), value) => {
                let is_value = |word: &OsString| {
                    !is_option(word) || option.takes_number() && is_negative(word)
                };
                let next = || rest.next().filter(is_value);
                let value = value.map(OsStr::to_os_string).or_else(next);
                value.filter(|value| !value.is_empty()).ok_or_else(|| {
                    let written = option.written();
                    Failure::usage(format_args!("{name} takes a value: {written}"))
                })?
            }
        };
        self.options.push((option, value));
        Ok(())
    }

    /// Whether an option is given.
    pub fn has(&self, name: &str) -> bool {
        self.value(name).is_some()
    }

    /// The value of an option that is given.
    pub fn value(&self, name: &str) -> Option<&OsStr> {
        let mut options = self.options.iter();
        let (_, value) = options.find(|(given, _)| given.name == name)?;
        Some(value)
    }

    /// The file that an option names for the command to write: none that another word names, whatever the name, and
    /// none that a standard stream comes from or goes to.
    pub fn written_file(&self, option: &CommandOption) -> Result<Option<OutputFile>, Failure> {
        let name = option.name;
        let Some(path) = self.value(name) else {
            return Ok(None);
        };
        if path == "-" {
            return Err(Failure::usage(format_args!(
                "{name} takes the name of a file; - is standard input"
            )));
        }
        let file = OutputFile::at(path)?;
        if let Some(other) = self.same_file(option, Path::new(path)) {
            let path = path.display();
            return Err(Failure::usage(format_args!(
                "{name} {path} is the same file as {other}"
            )));
        }
        Ok(Some(file))
    }

    /// What else is the file that an option names. Of a file that does not exist yet nothing is read: a word of a
    /// pattern is an operand too.
    fn same_file(&self, option: &CommandOption, path: &Path) -> Option<String> {
        let file = Identity::of(path).ok()?;
        let is_same = |word: &OsStr| Identity::of(word.as_ref()).is_ok_and(|other| other == file);
        let mut operands = self.operands.iter().filter(|_| file.exists());
        let is_read = |(other, given): &&(&CommandOption, OsString)| match other.value {
            Some(Value::FileWritten(_)) => other.name != option.name,
            Some(Value::FileRead(_)) => file.exists(),
            Some(Value::WordOrFileRead(_, words)) => {
                file.exists() && !words.iter().any(|word| given == word)
            }
            _ => false,
        };
        let mut options = self.options.iter().filter(is_read);
        let streams = [
            (Identity::of_stream(io::stdin()), "standard input"),
            (Identity::of_stream(io::stdout()), "standard output"),
            (Identity::of_stream(io::stderr()), "standard error"),
        ];
        let mut streams = streams.iter();
        let operand = operands.find(|word| is_same(word));
        let option = options.find(|(_, word)| is_same(word));
        let stream = streams.find(|(stream, _)| stream.as_ref() == Some(&file));
        operand
            .map(|word| word.display().to_string())
            .or_else(|| option.map(|(other, word)| format!("{} {}", other.name, word.display())))
            .or_else(|| stream.map(|(_, name)| name.to_string()))
    }

    /// The value that an option has, given or by default.
    pub fn value_or_default(&self, option: &CommandOption) -> &OsStr {
        let default = option.default.unwrap_or_default();
        self.value(option.name).unwrap_or(default.as_ref())
    }

    /// The number that an option has, given or by default.
    pub fn number(&self, option: &CommandOption) -> Result<u64, Failure> {
        let value = self.value_or_default(option);
        let number = value.to_str().and_then(|digits| digits.parse().ok());
        number.ok_or_else(|| {
            let (name, value) = (option.name, value.display());
            let Some(Value::Number(least, most)) = option.value else {
                unreachable!("{name} is asked for a number");
            };
            Failure::usage(format_args!(
                "{name} takes a whole number, {least} to {most}, and not {value}"
            ))
        })
    }
}

/// Whether a word is an option; `-` alone is standard input.
fn is_option(word: &OsStr) -> bool {
    word != "-" && word.as_bytes().starts_with(b"-")
}

/// Whether a word begins as a negative number does.
fn is_negative(word: &OsStr) -> bool {
    matches!(word.as_bytes(), [b'-', b'0'..=b'9' | b'.', ..])
}

/// What stands before the first `=`, and what stands after it.
fn split_at_equals(word: &OsStr) -> (&OsStr, Option<&OsStr>) {
    let mut parts = word.as_bytes().splitn(2, |byte| *byte == b'=');
    let name = parts.next().unwrap_or_default();
    (OsStr::from_bytes(name), parts.next().map(OsStr::from_bytes))
}
