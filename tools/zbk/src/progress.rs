//! How far some work is, on standard error, where it takes more than a second.

use crate::trouble::say;
use std::sync::atomic::{AtomicUsize, Ordering};
use std::sync::mpsc::{self, RecvTimeoutError, Sender};
use std::sync::Arc;
use std::thread::{self, JoinHandle};
use std::time::Duration;

/// Work of several steps; ends with it.
pub struct Progress {
    done: Arc<AtomicUsize>,
    teller: Option<(Sender<()>, JoinHandle<()>)>,
}

const EVERY: Duration = Duration::from_secs(1);

impl Progress {
    /// Tells every second how many steps are done, unless it is to be quiet.
    pub fn new(what: &'static str, total: usize, quiet: bool) -> Progress {
        let done = Arc::new(AtomicUsize::new(0));
        let counted = done.clone();
        let teller = (!quiet).then(|| {
            let (end, ended) = mpsc::channel();
            let tell = move || {
                while let Err(RecvTimeoutError::Timeout) = ended.recv_timeout(EVERY) {
                    say(format!("{what}, {} of {total} done", counted.load(Ordering::Relaxed)));
                }
            };
            (end, thread::spawn(tell))
        });
        Progress { done, teller }
    }

    /// So many more steps are done.
    pub fn step(&self, more: usize) {
        self.done.fetch_add(more, Ordering::Relaxed);
    }
}

impl Drop for Progress {
    fn drop(&mut self) {
        if let Some((end, teller)) = self.teller.take() {
            drop(end);
            let _ = teller.join();
        }
    }
}
