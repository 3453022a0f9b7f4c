//! Files that are read, `-` being standard input.

use crate::failure::Failure;
use std::ffi::{OsStr, OsString};
use std::fmt;
use std::fs::File;
use std::io::{self, BufRead, BufReader, Read};

/// The most bytes that a file may have. One more is read, and tells the library
/// that there are more.
const LONGEST: u64 = 1 << 30;

/// The most bytes of a chunk.
const CHUNK: usize = 65_536;

/// A file as the user named it.
#[derive(Clone, Debug)]
pub struct Name {
    path: OsString,
    /// What `-` stands for.
    dash: &'static str,
}

impl Name {
    pub fn input(path: &OsStr) -> Name {
        let dash = "standard input";
        let path = path.to_owned();
        Name { path, dash }
    }

    pub fn output(path: &OsStr) -> Name {
        let dash = "standard output";
        let path = path.to_owned();
        Name { path, dash }
    }

    pub fn is_dash(&self) -> bool {
        self.path == "-"
    }

    pub fn path(&self) -> &OsStr {
        &self.path
    }

    /// The word of the command line, for programs.
    pub fn word(&self) -> String {
        self.path.to_string_lossy().into_owned()
    }

    /// The word with control characters escaped, so that it stays on one line.
    pub fn on_a_line(&self) -> String {
        let mut line = String::new();
        for c in self.path.to_string_lossy().chars() {
            match c.is_control() {
                true => line.extend(c.escape_default()),
                false => line.push(c),
            }
        }
        line
    }
}

/// The name for people.
impl fmt::Display for Name {
    fn fmt(&self, f: &mut fmt::Formatter<'_>) -> fmt::Result {
        match self.is_dash() {
            true => f.write_str(self.dash),
            false => f.write_str(&self.on_a_line()),
        }
    }
}

/// The bytes of an edge file; of one that is too long, as many as show it.
pub fn edge_file(name: &Name) -> Result<Vec<u8>, Failure> {
    read(name, LONGEST + 1).map_err(|error| Failure::trouble(name, error))
}

/// All bytes of a batch.
pub fn whole(name: &Name) -> Result<Vec<u8>, Failure> {
    read(name, u64::MAX).map_err(|error| Failure::trouble(name, error))
}

/// Gives the bytes of a file chunk by chunk, so that it is never held whole, until
/// there are no more or one is not taken.
pub fn in_chunks(
    name: &Name,
    mut take: impl FnMut(&[u8]) -> Result<(), Failure>,
) -> Result<(), Failure> {
    let trouble = |error| Failure::trouble(name, error);
    let mut file: Box<dyn Read> = match name.is_dash() {
        true => Box::new(io::stdin().lock()),
        false => Box::new(File::open(name.path()).map_err(trouble)?),
    };
    let mut chunk = vec![0; CHUNK];
    loop {
        match file.read(&mut chunk) {
            Ok(0) => return Ok(()),
            Ok(length) => take(&chunk[..length])?,
            Err(error) if error.kind() == io::ErrorKind::Interrupted => {}
            Err(error) => return Err(trouble(error)),
        }
    }
}

/// A text, to be read line by line.
pub fn text(name: &Name) -> Result<Box<dyn BufRead>, Failure> {
    if name.is_dash() {
        return Ok(Box::new(io::stdin().lock()));
    }
    match File::open(name.path()) {
        Ok(file) => Ok(Box::new(BufReader::new(file))),
        Err(error) => Err(Failure::trouble(name, error)),
    }
}

fn read(name: &Name, most: u64) -> io::Result<Vec<u8>> {
    let mut bytes = Vec::new();
    if name.is_dash() {
        io::stdin().lock().take(most).read_to_end(&mut bytes)?;
        return Ok(bytes);
    }
    let file = File::open(name.path())?;
    let expected = file.metadata()?.len().min(most);
    bytes.try_reserve_exact(usize::try_from(expected).unwrap_or(usize::MAX))?;
    file.take(most).read_to_end(&mut bytes)?;
    Ok(bytes)
}
