//! The words after a command: its options and its operands.

use crate::failure::Failure;
use crate::input::Name;
use std::ffi::{OsStr, OsString};

/// An option. One with a value takes the rest of its word, or the next word.
#[derive(Debug, PartialEq, Eq)]
pub struct Choice {
    /// `-o`; empty where there is no short form.
    short: &'static str,
    long: &'static str,
    takes_value: bool,
}

pub const JSON: Choice = Choice {
    short: "",
    long: "--json",
    takes_value: false,
};
pub const JOBS: Choice = Choice {
    short: "-j",
    long: "--jobs",
    takes_value: true,
};
pub const OUTPUT: Choice = Choice {
    short: "-o",
    long: "--output",
    takes_value: true,
};
pub const PARTNERS: Choice = Choice {
    short: "-p",
    long: "--partners",
    takes_value: false,
};
pub const HELP: Choice = Choice {
    short: "-h",
    long: "--help",
    takes_value: false,
};

#[derive(Debug, Default)]
pub struct Arguments {
    chosen: Vec<(&'static Choice, OsString)>,
    operands: Vec<OsString>,
}

/// What a word is to a command.
enum Word {
    Operand,
    /// Everything after it is an operand.
    End,
    Chosen(&'static Choice, Option<OsString>),
}

impl Arguments {
    /// Takes the words apart by the options that a command has, and `--help`.
    pub fn parse(words: Vec<OsString>, choices: &[&'static Choice]) -> Result<Arguments, Failure> {
        let mut arguments = Arguments::default();
        let mut words = words.into_iter();
        while let Some(word) = words.next() {
            match read_word(&word, choices)? {
                Word::Operand => arguments.operands.push(word),
                Word::End => arguments.operands.extend(words.by_ref()),
                Word::Chosen(choice, attached) => {
                    let value = match attached {
                        Some(value) => value,
                        None if choice.takes_value => words.next().ok_or_else(|| {
                            Failure::Usage(format!("{} has no value", word.to_string_lossy()))
                        })?,
                        None => OsString::new(),
                    };
                    arguments.choose(choice, value)?;
                }
            }
        }
        Ok(arguments)
    }

    fn choose(&mut self, choice: &'static Choice, value: OsString) -> Result<(), Failure> {
        if choice.takes_value && self.has(choice) {
            return Err(Failure::Usage(format!("{} is given twice", choice.long)));
        }
        self.chosen.push((choice, value));
        Ok(())
    }

    pub fn has(&self, choice: &Choice) -> bool {
        self.value(choice).is_some()
    }

    fn value(&self, choice: &Choice) -> Option<&OsStr> {
        let chosen = self.chosen.iter().find(|(chosen, _)| *chosen == choice);
        chosen.map(|(_, value)| value.as_os_str())
    }

    /// The files, at least one; standard input can be read once.
    pub fn files(&self) -> Result<Vec<Name>, Failure> {
        let files: Vec<Name> = self.operands.iter().map(|word| Name::input(word)).collect();
        if files.is_empty() {
            return Err(Failure::Usage("no file is given".to_string()));
        }
        if files.iter().filter(|file| file.is_dash()).count() > 1 {
            return Err(Failure::Usage("'-' is given twice".to_string()));
        }
        Ok(files)
    }

    /// The files, or standard input where none is given.
    pub fn files_or_input(&self) -> Result<Vec<Name>, Failure> {
        match self.operands.is_empty() {
            true => Ok(vec![Name::input("-".as_ref())]),
            false => self.files(),
        }
    }

    /// The only file, and no other word.
    pub fn file(&self, what: &str) -> Result<Name, Failure> {
        match self.file_and_words(what)? {
            (file, []) => Ok(file),
            (_, [more, ..]) => Err(Failure::Usage(format!(
                "one {what} is taken, '{}' is one too many",
                more.to_string_lossy()
            ))),
        }
    }

    /// A file and the words after it.
    pub fn file_and_words(&self, what: &str) -> Result<(Name, &[OsString]), Failure> {
        match self.operands.split_first() {
            Some((file, words)) => Ok((Name::input(file), words)),
            None => Err(Failure::Usage(format!("no {what} is given"))),
        }
    }

    /// The output, where one is named.
    pub fn output(&self) -> Option<Name> {
        self.value(&OUTPUT).map(Name::output)
    }

    /// The output of a command that has to be told one.
    pub fn needed_output(&self) -> Result<Name, Failure> {
        let none = || Failure::Usage("no output is given: -o FILE, or -o -".to_string());
        self.output().ok_or_else(none)
    }

    /// How many files are worked on at once.
    pub fn jobs(&self) -> Result<usize, Failure> {
        let Some(value) = self.value(&JOBS) else {
            return Ok(1);
        };
        match value.to_str().and_then(|text| text.parse().ok()) {
            Some(jobs) if jobs > 0 => Ok(jobs),
            _ => Err(Failure::Usage(format!(
                "-j takes a number from 1, not '{}'",
                value.to_string_lossy()
            ))),
        }
    }
}

fn read_word(word: &OsStr, choices: &[&'static Choice]) -> Result<Word, Failure> {
    if word == "-" || !word.as_encoded_bytes().starts_with(b"-") {
        return Ok(Word::Operand);
    }
    if word == "--" {
        return Ok(Word::End);
    }
    let text = word.to_string_lossy();
    let choices = choices.iter().copied().chain([&HELP]);
    for choice in choices {
        if text == choice.long || text == choice.short {
            return Ok(Word::Chosen(choice, None));
        }
        if let Some(value) = attached(word, choice) {
            return Ok(Word::Chosen(choice, Some(value)));
        }
    }
    Err(Failure::Usage(format!("unknown option {text}")))
}

/// The value in the option's own word: `-oFILE`, `--output=FILE`.
fn attached(word: &OsStr, choice: &Choice) -> Option<OsString> {
    let text = word.to_str().filter(|_| choice.takes_value)?;
    let value = match text.strip_prefix(choice.long) {
        Some(rest) => rest.strip_prefix('=')?,
        None if choice.short.is_empty() => return None,
        None => text.strip_prefix(choice.short)?,
    };
    Some(OsString::from(value))
}
