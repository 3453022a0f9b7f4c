//! Why there is no answer, how it is told, and the exit status.

use crate::input::Name;
use crate::json::Object;
use edge_sst::Refusal;
use std::fmt;
use std::process::ExitCode;

/// The exit status; of several the last in this order counts.
#[derive(Clone, Copy, Debug, PartialEq, Eq, PartialOrd, Ord)]
pub enum Status {
    Fine = 0,
    Refused = 1,
    Error = 2,
}

#[derive(Debug)]
pub enum Failure {
    /// The words of the command line are not as the command takes them.
    Usage(String),
    /// A file cannot be read, understood or written.
    Trouble { file: Name, why: String },
    /// The library refuses what the file holds.
    Refused(Refused),
    /// Nobody reads standard output any more.
    Closed,
}

/// A refusal of a file, with its place in words, which are empty where it has none.
#[derive(Debug)]
pub struct Refused {
    pub file: Name,
    pub refusal: Refusal,
    pub place: String,
}

impl From<Status> for ExitCode {
    fn from(status: Status) -> ExitCode {
        ExitCode::from(status as u8)
    }
}

impl Failure {
    pub fn trouble(file: &Name, why: impl fmt::Display) -> Failure {
        Failure::Trouble {
            file: file.clone(),
            why: why.to_string(),
        }
    }

    pub fn status(&self) -> Status {
        match self {
            Failure::Refused(_) => Status::Refused,
            _ => Status::Error,
        }
    }

    /// The object that tells it; `None` where it is about no file.
    pub fn json(&self) -> Option<Object> {
        let about = |file: &Name| Object::new().string("file", &file.word());
        match self {
            Failure::Usage(_) | Failure::Closed => None,
            Failure::Trouble { file, .. } => Some(self.told_in(about(file))),
            Failure::Refused(refused) => Some(self.told_in(about(&refused.file))),
        }
    }

    /// Adds to an object, which says what was asked, that it has failed and why.
    pub fn told_in(&self, object: Object) -> Object {
        let object = object.truth("ok", false);
        match self {
            Failure::Refused(refused) => object.object("refused", refused.json()),
            Failure::Trouble { why, .. } => object.string("error", why),
            other => object.string("error", &other.to_string()),
        }
    }
}

impl fmt::Display for Failure {
    fn fmt(&self, f: &mut fmt::Formatter<'_>) -> fmt::Result {
        match self {
            Failure::Usage(why) => f.write_str(why),
            Failure::Trouble { file, why } => write!(f, "{file}: {why}"),
            Failure::Refused(refused) => refused.fmt(f),
            Failure::Closed => f.write_str("standard output is closed"),
        }
    }
}

impl Refused {
    fn json(&self) -> Object {
        Object::new()
            .number("number", self.refusal.number)
            .string("text", self.refusal.text())
            .number("place", self.refusal.place)
            .number("beside", self.refusal.beside)
            .string("where", &self.place)
    }
}

impl fmt::Display for Refused {
    fn fmt(&self, f: &mut fmt::Formatter<'_>) -> fmt::Result {
        let (number, text) = (self.refusal.number, self.refusal.text());
        write!(f, "{}: {number}: {text}", self.file)?;
        match self.place.as_str() {
            "" => Ok(()),
            place => write!(f, ", {place}"),
        }
    }
}
