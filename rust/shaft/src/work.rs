//! Work on all cores, with results in order, and a progress line.
use std::io::{self, IsTerminal, Write};
use std::sync::atomic::{AtomicUsize, Ordering};
use std::thread;
use std::time::{Duration, Instant};

/// As many threads as there are cores, but none without work.
pub fn threads(count: usize) -> usize {
    thread::available_parallelism().map_or(1, usize::from).min(count).max(1)
}

/// What `make` gives for 0, 1, ... `count` - 1, in that order, whatever the number of threads.
pub fn in_order<T: Send>(count: usize, threads: usize, make: impl Fn(usize) -> T + Sync) -> Vec<T> {
    let (next, done) = (AtomicUsize::new(0), AtomicUsize::new(0));
    let work = |thread: usize| {
        // One thread alone writes the line.
        let mut progress = (thread == 0 && io::stderr().is_terminal()).then(Progress::start);
        let mut made = Vec::new();
        loop {
            let at = next.fetch_add(1, Ordering::Relaxed);
            if at >= count {
                return made;
            }
            made.push((at, make(at)));
            let done = done.fetch_add(1, Ordering::Relaxed) + 1;
            if let Some(progress) = &mut progress {
                progress.show(done, count);
            }
        }
    };
    let mut made: Vec<(usize, T)> = thread::scope(|scope| {
        let work = &work;
        let started: Vec<_> = (0..threads).map(|thread| scope.spawn(move || work(thread))).collect();
        started.into_iter().flat_map(|thread| thread.join().expect("no thread has failed")).collect()
    });
    made.sort_by_key(|&(at, _)| at);
    made.into_iter().map(|(_, made)| made).collect()
}

// A line on a terminal, written over itself and cleared at the end; none in the first second.
struct Progress {
    due: Instant,
    shown: bool,
}

impl Progress {
    fn start() -> Progress {
        Progress { due: Instant::now() + Duration::from_secs(1), shown: false }
    }

    fn show(&mut self, done: usize, count: usize) {
        let now = Instant::now();
        if now >= self.due {
            let _ = write!(io::stderr(), "\r{done} of {count} sheets");
            self.due = now + Duration::from_millis(100);
            self.shown = true;
        }
    }
}

impl Drop for Progress {
    fn drop(&mut self) {
        if self.shown {
            let _ = write!(io::stderr(), "\r\x1b[K");
        }
    }
}
