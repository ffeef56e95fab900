//! Files that are handled in threads, whose results come in the order of the files.

use std::collections::BTreeMap;
use std::io::{self, IsTerminal, Write};
use std::num::NonZero;
use std::sync::atomic::{AtomicUsize, Ordering};
use std::sync::mpsc::{self, Receiver, RecvTimeoutError};
use std::thread;
use std::time::{Duration, Instant};

/// How much stack a thread has: lowering recurses, as syn does. Memory is taken only for what is used of it.
const STACK: usize = 1 << 30;

/// How long nothing is said on a terminal, and then how often something is.
const SILENT: Duration = Duration::from_millis(500);
const OFTEN: Duration = Duration::from_millis(100);

/// How many threads handle so many files: as many as the machine has, where nothing else is said.
fn threads(files: usize, most: Option<NonZero<usize>>) -> usize {
    let most = most
        .or_else(|| thread::available_parallelism().ok())
        .map_or(1, NonZero::get);
    files.min(most).max(1)
}

/// How far it is.
pub struct Progress {
    /// How many files there are.
    files: usize,
    /// How many of them are done.
    files_done: AtomicUsize,
    /// How many functions were found so far.
    functions: AtomicUsize,
    /// How many of them are done.
    functions_done: AtomicUsize,
}

impl Progress {
    fn of(files: usize) -> Progress {
        Progress {
            files,
            files_done: AtomicUsize::new(0),
            functions: AtomicUsize::new(0),
            functions_done: AtomicUsize::new(0),
        }
    }

    /// A file has so many functions.
    pub fn found(&self, functions: usize) {
        self.functions.fetch_add(functions, Ordering::Relaxed);
    }

    /// A function is done.
    pub fn did_function(&self) {
        self.functions_done.fetch_add(1, Ordering::Relaxed);
    }

    /// As `3 of 12 files, 140 of 385 functions`.
    fn line(&self) -> String {
        let read = |count: &AtomicUsize| count.load(Ordering::Relaxed);
        format!(
            "{} of {} files, {} of {} functions",
            read(&self.files_done),
            self.files,
            read(&self.functions_done),
            read(&self.functions),
        )
    }
}

/// A line on a terminal, which is written over again and again. Where standard error is none, nothing is written.
struct Line {
    is_wanted: bool,
    since: Instant,
    /// The characters of what stands there.
    width: usize,
}

impl Line {
    fn new() -> Line {
        Line {
            is_wanted: io::stderr().is_terminal(),
            since: Instant::now(),
            width: 0,
        }
    }

    /// How long to wait for a result before something is said.
    fn patience(&self) -> Duration {
        if self.is_wanted {
            OFTEN
        } else {
            Duration::from_secs(3600)
        }
    }

    fn write(&mut self, text: &str) {
        // What can't be written to a terminal is no loss.
        let _ = write!(io::stderr(), "\r{text:width$}\r", width = self.width);
        self.width = text.chars().count();
    }

    fn say(&mut self, progress: &Progress) {
        if self.is_wanted && self.since.elapsed() >= SILENT {
            self.write(&progress.line());
        }
    }

    /// Takes the line away, before anything else is written.
    fn clear(&mut self) {
        if self.width > 0 {
            self.write("");
            self.width = 0;
        }
    }
}

/// The results in the order of their numbers.
struct InOrder<T> {
    results: Receiver<(usize, T)>,
    /// Those that came before their turn.
    early: BTreeMap<usize, T>,
    next: usize,
}

impl<T> InOrder<T> {
    /// The next result; `None` where it didn't come in this time. It is an error where no thread is left to send it.
    fn wait(&mut self, patience: Duration) -> Result<Option<T>, RecvTimeoutError> {
        loop {
            if let Some(result) = self.early.remove(&self.next) {
                self.next += 1;
                return Ok(Some(result));
            }
            match self.results.recv_timeout(patience) {
                Ok((number, result)) => self.early.insert(number, result),
                Err(RecvTimeoutError::Timeout) => return Ok(None),
                Err(error) => return Err(error),
            };
        }
    }
}

/// Does the work of each of so many files, in so many threads at most, and takes the results in the order of the files. It stops where a
/// result isn't taken.
pub fn in_order<T: Send>(
    files: usize,
    most: Option<NonZero<usize>>,
    work: impl Fn(usize, &Progress) -> T + Sync,
    mut take: impl FnMut(T) -> io::Result<()>,
) -> io::Result<()> {
    let progress = Progress::of(files);
    let next = AtomicUsize::new(0);
    let (sender, results) = mpsc::channel();
    let (progress, next, work) = (&progress, &next, &work);
    thread::scope(|scope| {
        for _ in 0..threads(files, most) {
            let sender = sender.clone();
            let thread = thread::Builder::new().stack_size(STACK);
            thread.spawn_scoped(scope, move || loop {
                let file = next.fetch_add(1, Ordering::Relaxed);
                if file >= files {
                    return;
                }
                let result = work(file, progress);
                progress.files_done.fetch_add(1, Ordering::Relaxed);
                if sender.send((file, result)).is_err() {
                    return;
                }
            })?;
        }
        drop(sender);
        let mut line = Line::new();
        let mut results = InOrder {
            results,
            early: BTreeMap::new(),
            next: 0,
        };
        // The threads take no more files once what they send isn't received.
        while let Ok(result) = results.wait(line.patience()) {
            match result {
                Some(result) => {
                    line.clear();
                    take(result)?;
                }
                None => line.say(progress),
            }
        }
        line.clear();
        Ok(())
    })
}

#[cfg(test)]
mod tests {
    use super::in_order;
    use std::io;
    use std::num::NonZero;
    use std::thread;
    use std::time::Duration;

    #[test]
    fn results_come_in_order() {
        let mut found = Vec::new();
        let work = |number: usize, _: &_| {
            thread::sleep(Duration::from_millis((7 * number as u64) % 5));
            number
        };
        let taken = in_order(40, NonZero::new(4), work, |number| {
            found.push(number);
            Ok(())
        });
        assert!(taken.is_ok());
        assert_eq!(found, (0..40).collect::<Vec<_>>());
    }

    #[test]
    fn what_isn_t_taken_ends_it() {
        let taken = in_order(
            1000,
            None,
            |number, _: &_| number,
            |number| match number {
                3 => Err(io::Error::other("full")),
                _ => Ok(()),
            },
        );
        assert!(taken.is_err());
    }
}
