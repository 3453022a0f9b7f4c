use super::{told, Command};
use crate::arguments::{Arguments, JSON, PARTNERS};
use crate::batch_text::print_edge;
use crate::failure::{Failure, Status};
use crate::id::{self, Hex};
use crate::input::{self, Name};
use crate::json::Object;
use crate::output;
use crate::place::{refused, Source};
use crate::watch::Watch;
use edge_sst::{Edge, EdgeSst, Id, Opened, Refusal};
use std::ffi::OsString;
use std::io::{self, Write};

pub const COMMAND: Command = Command {
    name: "lookup",
    usage: "[-p] [--json] FILE KEY..",
    summary: "The edges of keys, each vouched for by its own group",
    help: "\
A key has 32 hexadecimal digits. A line for each edge of each key in the order given,
as 'print' has them, or 'KEY absent', which is an answer too:

  00000000000000010000000000000002 00000000000000050000000000000001 lsn 7 live

The file is opened once, which checks its frame, keys, offsets, fences and the order
of its start index. Of the groups only those of the keys are read, so that a bad one
does not hide the others; a key whose group is bad is told on standard error, and the
other keys are answered.

  -p, --partners  partners alone, as lines 'KEY PARTNER': quicker, and neither the
                  start index nor the degrees of earlier groups are needed
  --json          an object for each key, with \"found\", and if it is there \"index\",
                  \"compared\" (keys compared) and \"edges\"; log numbers are strings,
                  since they go up to 2^64 - 1, where many readers of JSON round
",
    choices: &[&PARTNERS, &JSON],
    run,
};

/// How the keys are asked for and told.
struct Manner {
    file: Name,
    alone: bool,
    json: bool,
}

/// What is there of a key: its partners, with log numbers and marks if asked for.
struct Found {
    partners: Partners,
    index: u64,
    compared: u64,
}

enum Partners {
    Alone(Vec<Id>),
    Edges(Vec<Edge>),
}

fn run(arguments: &Arguments, watch: &Watch) -> Result<Status, Failure> {
    let (file, words) = arguments.file_and_words("file")?;
    let keys = keys(words)?;
    let manner = Manner {
        file,
        alone: arguments.has(&PARTNERS),
        json: arguments.has(&JSON),
    };
    let _working = watch.begin(&manner.file);
    let bytes = input::edge_file(&manner.file)?;
    let refuse = |refusal| refused(&manner.file, &Source::File(&bytes), refusal);
    let opened = EdgeSst::open(&bytes).map_err(refuse)?;
    let mut worst = Status::Fine;
    for key in &keys {
        let found = find(&opened, key, manner.alone).map_err(refuse);
        worst = worst.max(watch.aside(|| manner.tell(key, found))?);
    }
    Ok(worst)
}

fn keys(words: &[OsString]) -> Result<Vec<Id>, Failure> {
    if words.is_empty() {
        return Err(Failure::Usage("no key is given".to_string()));
    }
    let key = |word: &OsString| {
        let word = word.to_string_lossy();
        let none = || Failure::Usage(format!("'{word}' is no key: 32 hexadecimal digits"));
        id::parse(&word).ok_or_else(none)
    };
    words.iter().map(key).collect()
}

fn find(opened: &Opened, key: &Id, alone: bool) -> Result<Option<Found>, Refusal> {
    if alone {
        return Ok(opened.partners(key)?.map(|found| Found {
            partners: Partners::Alone(found.ids),
            index: found.index,
            compared: found.compared,
        }));
    }
    Ok(opened.lookup(key)?.map(|found| Found {
        partners: Partners::Edges(found.edges),
        index: found.index,
        compared: found.compared,
    }))
}

impl Manner {
    fn tell(&self, key: &Id, found: Result<Option<Found>, Failure>) -> Result<Status, Failure> {
        match found {
            Err(failure) if !self.json => told(failure, false),
            Err(failure) => {
                let object = failure.told_in(self.about(key));
                output::print(|out| writeln!(out, "{object}"))?;
                Ok(failure.status())
            }
            Ok(found) => {
                output::print(|out| match self.json {
                    true => writeln!(out, "{}", self.object(key, found)),
                    false => print(out, key, found),
                })?;
                Ok(Status::Fine)
            }
        }
    }

    fn about(&self, key: &Id) -> Object {
        Object::new()
            .string("file", &self.file.word())
            .string("key", &Hex(key).to_string())
    }

    fn object(&self, key: &Id, found: Option<Found>) -> Object {
        let object = self.about(key).truth("ok", true);
        let Some(found) = found else {
            return object.truth("found", false);
        };
        let object = object
            .truth("found", true)
            .number("index", found.index)
            .number("compared", found.compared);
        match found.partners {
            Partners::Alone(ids) => object.array("edges", ids.iter().map(partner)),
            Partners::Edges(edges) => object.array("edges", edges.iter().map(edge)),
        }
    }
}

fn partner(id: &Id) -> Object {
    Object::new().string("partner", &Hex(id).to_string())
}

fn edge(edge: &Edge) -> Object {
    partner(&edge.partner)
        .string("lsn", &edge.log.to_string())
        .truth("dead", edge.dead)
}

fn print(out: &mut dyn Write, key: &Id, found: Option<Found>) -> io::Result<()> {
    match found.map(|found| found.partners) {
        None => writeln!(out, "{} absent", Hex(key)),
        Some(Partners::Alone(ids)) => ids
            .iter()
            .try_for_each(|id| writeln!(out, "{} {}", Hex(key), Hex(id))),
        Some(Partners::Edges(edges)) => {
            edges.iter().try_for_each(|edge| print_edge(out, key, edge))
        }
    }
}
