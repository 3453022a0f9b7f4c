//! The progress line: on a terminal, files that take longer than a second are
//! named on standard error while they are worked on.

use crate::input::Name;
use std::io::{self, IsTerminal, Write};
use std::sync::{Arc, Mutex, MutexGuard, PoisonError};
use std::thread;
use std::time::{Duration, Instant};

/// Files are named when they have taken so long.
const PATIENCE: Duration = Duration::from_secs(1);
const TICK: Duration = Duration::from_millis(200);

/// Erases the line on which the cursor stands.
const ERASE: &str = "\r\x1b[K";

/// As many characters of a name fit beside the time.
const WIDTH: usize = 50;

pub struct Watch {
    /// `None` where standard error is no terminal.
    board: Option<Arc<Mutex<Board>>>,
}

/// A file that is worked on.
pub struct Working<'a> {
    watch: &'a Watch,
    number: Option<u64>,
}

#[derive(Default)]
struct Board {
    under_way: Vec<Task>,
    started: u64,
    /// A line stands on the terminal.
    shown: bool,
}

struct Task {
    number: u64,
    name: String,
    since: Instant,
}

impl Watch {
    pub fn new() -> Watch {
        if !io::stderr().is_terminal() {
            return Watch { board: None };
        }
        let board = Arc::new(Mutex::new(Board::default()));
        let watched = Arc::clone(&board);
        let tick = move || loop {
            thread::sleep(TICK);
            lock(&watched).show();
        };
        // Where no thread can be had there is no line. It ends with the program.
        let started = thread::Builder::new().spawn(tick).is_ok();
        Watch {
            board: started.then_some(board),
        }
    }

    /// The work on a file begins; it ends when this is dropped.
    #[must_use]
    pub fn begin(&self, name: &Name) -> Working<'_> {
        let number = self.board.as_ref().map(|board| lock(board).begin(name));
        Working {
            watch: self,
            number,
        }
    }

    /// Prints while files are worked on, with no line in between.
    pub fn aside<T>(&self, print: impl FnOnce() -> T) -> T {
        let Some(board) = &self.board else {
            return print();
        };
        let mut board = lock(board);
        board.erase();
        print()
    }
}

impl Drop for Working<'_> {
    fn drop(&mut self) {
        if let (Some(board), Some(number)) = (&self.watch.board, self.number) {
            lock(board).end(number);
        }
    }
}

fn lock(board: &Mutex<Board>) -> MutexGuard<'_, Board> {
    board.lock().unwrap_or_else(PoisonError::into_inner)
}

impl Board {
    fn begin(&mut self, name: &Name) -> u64 {
        self.started += 1;
        self.under_way.push(Task {
            number: self.started,
            name: shortened(&name.to_string()),
            since: Instant::now(),
        });
        self.started
    }

    fn end(&mut self, number: u64) {
        self.under_way.retain(|task| task.number != number);
        self.erase();
    }

    /// Names the file that was begun first, if it has taken long.
    fn show(&mut self) {
        let Some(task) = self.under_way.first() else {
            return;
        };
        let taken = task.since.elapsed();
        if taken < PATIENCE {
            return;
        }
        let beside = match self.under_way.len() - 1 {
            0 => String::new(),
            more => format!(", {more} more"),
        };
        let line = format!("{ERASE}{}: {} s{beside}", task.name, taken.as_secs());
        self.shown = true;
        say(&line);
    }

    fn erase(&mut self) {
        if self.shown {
            self.shown = false;
            say(ERASE);
        }
    }
}

/// A line that cannot be shown is not missed.
fn say(text: &str) {
    let mut terminal = io::stderr().lock();
    let _ = terminal.write_all(text.as_bytes());
    let _ = terminal.flush();
}

/// The end of a name that is too long for the line.
fn shortened(name: &str) -> String {
    match name.chars().count() {
        0..=WIDTH => name.to_string(),
        count => {
            let end: String = name.chars().skip(count - WIDTH).collect();
            format!("..{end}")
        }
    }
}
