//! Runs the program and the second program, and gives tests a folder of their own.

use std::ffi::OsStr;
use std::fs;
use std::io::Write;
use std::path::{Path, PathBuf};
use std::process::{Command, Stdio};
use std::sync::OnceLock;
use std::thread;

pub const PROGRAM: &str = env!("CARGO_BIN_EXE_edge-sst");
const TOP: &str = concat!(env!("CARGO_MANIFEST_DIR"), "/..");

/// What a program did.
#[derive(Debug, PartialEq)]
pub struct Ran {
    pub status: i32,
    pub out: Vec<u8>,
    pub err: String,
}

impl Ran {
    pub fn text(&self) -> &str {
        std::str::from_utf8(&self.out).expect("text")
    }

    pub fn lines(&self) -> Vec<&str> {
        self.text().lines().collect()
    }

    /// The output of a run that has to be fine and say nothing else.
    #[track_caller]
    pub fn fine(self) -> Vec<u8> {
        assert_eq!((self.status, self.err.as_str()), (0, ""));
        self.out
    }

    /// A run that has to print nothing and say this on standard error.
    #[track_caller]
    pub fn fails(&self, status: i32, said: &str) {
        assert_eq!((self.status, self.err.as_str()), (status, said));
        assert_eq!(self.text(), "");
    }
}

/// Runs the program with an input on standard input.
pub fn run_on<A: AsRef<OsStr>>(arguments: &[A], input: &[u8]) -> Ran {
    ran(Command::new(PROGRAM).args(arguments), input)
}

pub fn run<A: AsRef<OsStr>>(arguments: &[A]) -> Ran {
    run_on(arguments, &[])
}

/// Runs the program in a folder.
pub fn run_in(folder: &Path, arguments: &[&str]) -> Ran {
    ran(
        Command::new(PROGRAM).args(arguments).current_dir(folder),
        &[],
    )
}

pub fn ran(command: &mut Command, input: &[u8]) -> Ran {
    let command = command.stdin(Stdio::piped()).stdout(Stdio::piped());
    let mut child = command.stderr(Stdio::piped()).spawn().expect("it runs");
    let mut stdin = child.stdin.take().expect("a pipe");
    let output = thread::scope(|scope| {
        // It may end before it has read all.
        scope.spawn(move || drop(stdin.write_all(input)));
        child.wait_with_output().expect("it ends")
    });
    Ran {
        status: output.status.code().expect("it ends by itself"),
        out: output.stdout,
        err: String::from_utf8(output.stderr).expect("text"),
    }
}

/// What the second program answers; it is built if it is not there.
pub fn second(arguments: &[&str], input: &[u8]) -> Vec<u8> {
    static PROGRAM: OnceLock<PathBuf> = OnceLock::new();
    let program = PROGRAM.get_or_init(|| {
        let folder = top("second");
        let mut cargo = Command::new(env!("CARGO"));
        cargo.args(["build", "--quiet", "--release", "--offline"]);
        let built = cargo.current_dir(&folder).status().expect("cargo runs");
        assert!(built.success(), "the second program is not built");
        folder.join("target/release/second")
    });
    ran(Command::new(program).args(arguments), input).fine()
}

/// A path in the repository.
pub fn top(path: &str) -> PathBuf {
    Path::new(TOP).join(path)
}

pub fn sample(name: &str) -> Vec<u8> {
    fs::read(top("samples").join(name)).expect("a sample")
}

/// An empty folder for one test.
pub struct Folder(PathBuf);

pub fn folder(test: &str) -> Folder {
    let path = Path::new(env!("CARGO_TARGET_TMPDIR")).join(test);
    let _ = fs::remove_dir_all(&path);
    fs::create_dir_all(&path).expect("a folder");
    Folder(path)
}

impl Folder {
    pub fn path(&self) -> &Path {
        &self.0
    }

    /// The path of a file here, as a word of a command line.
    pub fn file(&self, name: &str) -> String {
        self.0.join(name).to_str().expect("text").to_string()
    }

    pub fn put(&self, name: &str, bytes: &[u8]) -> String {
        fs::write(self.0.join(name), bytes).expect("a file");
        self.file(name)
    }

    pub fn get(&self, name: &str) -> Vec<u8> {
        fs::read(self.0.join(name)).expect("a file")
    }

    pub fn run(&self, arguments: &[&str]) -> Ran {
        run_in(&self.0, arguments)
    }

    /// The names of all that is here.
    pub fn names(&self) -> Vec<String> {
        let entries = fs::read_dir(&self.0).expect("a folder");
        let name = |entry: fs::DirEntry| entry.file_name().into_string().expect("text");
        let mut names: Vec<String> = entries
            .map(|entry| name(entry.expect("an entry")))
            .collect();
        names.sort();
        names
    }
}
