//! Work on many items side by side, told in their order.

use std::collections::BTreeMap;
use std::sync::atomic::{AtomicUsize, Ordering};
use std::sync::mpsc::{channel, Receiver, Sender};
use std::thread;

/// Does the work on each item, on so many threads, and tells each outcome in the
/// order of the items as soon as it and those before it are there. Where telling
/// fails, no further item is begun.
pub fn in_order<T: Sync, R: Send, E>(
    items: &[T],
    threads: usize,
    work: impl Fn(&T) -> R + Sync,
    tell: impl FnMut(R) -> Result<(), E>,
) -> Result<(), E> {
    let next = AtomicUsize::new(0);
    let worker = |outcomes: Sender<(usize, R)>| {
        while let Some((i, item)) = taken(items, &next) {
            if outcomes.send((i, work(item))).is_err() {
                break;
            }
        }
    };
    let worker = &worker;
    thread::scope(|scope| {
        let (send, receive) = channel();
        let spawn = |_: &usize| {
            let send = send.clone();
            let thread = thread::Builder::new().spawn_scoped(scope, move || worker(send));
            thread.is_ok()
        };
        let started = (0..threads.min(items.len())).filter(spawn).count();
        // Where no thread can be had the work is done here, before it is told.
        if started == 0 {
            worker(send.clone());
        }
        drop(send);
        let told = sorted(receive, tell);
        next.store(items.len(), Ordering::Relaxed);
        told
    })
}

/// The next item that nobody has taken, with its index.
fn taken<'a, T>(items: &'a [T], next: &AtomicUsize) -> Option<(usize, &'a T)> {
    let i = next.fetch_add(1, Ordering::Relaxed);
    items.get(i).map(|item| (i, item))
}

fn sorted<R, E>(
    outcomes: Receiver<(usize, R)>,
    mut tell: impl FnMut(R) -> Result<(), E>,
) -> Result<(), E> {
    let mut early = BTreeMap::new();
    let mut due = 0;
    for (i, outcome) in outcomes {
        early.insert(i, outcome);
        while let Some(outcome) = early.remove(&due) {
            tell(outcome)?;
            due += 1;
        }
    }
    Ok(())
}

#[cfg(test)]
mod tests {
    use super::*;
    use std::time::Duration;

    #[test]
    fn outcomes_come_in_order() {
        let items: Vec<u64> = (0..20).collect();
        for threads in [1, 2, 7, 100] {
            let mut told = Vec::new();
            let work = |i: &u64| {
                thread::sleep(Duration::from_millis((20 - i) % 5));
                *i
            };
            let tell = |i| {
                told.push(i);
                Ok::<(), ()>(())
            };
            assert_eq!(in_order(&items, threads, work, tell), Ok(()));
            assert_eq!(told, items);
        }
    }

    #[test]
    fn what_cannot_be_told_ends_the_work() {
        let items: Vec<u64> = (0..1000).collect();
        let work = |i: &u64| {
            thread::sleep(Duration::from_millis(1));
            *i
        };
        let begun = AtomicUsize::new(0);
        let counted = |i: &u64| {
            begun.fetch_add(1, Ordering::Relaxed);
            work(i)
        };
        let tell = |i| if i == 3 { Err("closed") } else { Ok(()) };
        assert_eq!(in_order(&items, 2, counted, tell), Err("closed"));
        assert!(begun.into_inner() < 1000);
    }

    #[test]
    fn no_items_are_no_work() {
        let none: [u64; 0] = [];
        assert_eq!(in_order(&none, 4, |i| *i, |_| Err("told")), Ok(()));
    }
}
