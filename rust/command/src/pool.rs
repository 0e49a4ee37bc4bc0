//! Work on many files by several threads, taken up in the files' order, until all is done or the user ends it.

use std::process;
use std::sync::Once;
use std::sync::atomic::{AtomicBool, Ordering};
use std::thread;

use rayon::prelude::*;
use rayon::{ThreadPool, ThreadPoolBuilder};

use crate::status::Failure;

/// Room for the library's scratch memory in each thread.
const STACK: usize = 16 << 20;
/// More threads than this help no one.
const MOST: usize = 256;
/// So many files for each thread are done before their outcomes are taken up, so memory stays bounded.
const ROUND: usize = 128;

static ENDED: AtomicBool = AtomicBool::new(false);
static HANDLER: Once = Once::new();

/// Some threads.
pub struct Pool(ThreadPool);

impl Pool {
    /// So many threads, or as many as there are processors. An interrupt is heeded from now on.
    pub fn new(jobs: Option<usize>) -> Result<Pool, Failure> {
        watch();
        let jobs = jobs.unwrap_or_else(|| thread::available_parallelism().map_or(1, usize::from)).min(MOST);
        let pool = ThreadPoolBuilder::new().num_threads(jobs).stack_size(STACK).build();
        pool.map(Pool).map_err(|error| Failure::File(format!("no threads could be started: {error}")))
    }

    /// Works on each file and hands the outcomes on in order. Where the user ends it, that happens between two rounds,
    /// and `cut` makes the message of the number of files that are done.
    pub fn in_order<T: Sync, R: Send>(
        &self,
        files: &[T],
        work: impl Fn(&T) -> R + Sync,
        mut take_up: impl FnMut(&T, R) -> Result<(), Failure>,
        cut: impl FnOnce(usize) -> String,
    ) -> Result<(), Failure> {
        let size = ROUND * self.0.current_num_threads();
        let mut rounds = files.chunks(size);
        let mut done = 0;
        while !is_ended() {
            let Some(some) = rounds.next() else { return Ok(()) };
            let outcomes: Vec<R> = self.0.install(|| some.par_iter().map(&work).collect());
            for (file, outcome) in some.iter().zip(outcomes) {
                take_up(file, outcome)?;
            }
            done += some.len();
        }
        Err(Failure::Cut(cut(done)))
    }
}

/// Has the user ended the run?
pub fn is_ended() -> bool {
    ENDED.load(Ordering::Relaxed)
}

/// From now on an interrupt ends the run at the next round, and a second one at once.
fn watch() {
    HANDLER.call_once(|| {
        let _ = ctrlc::set_handler(|| {
            if ENDED.swap(true, Ordering::Relaxed) {
                process::exit(130);
            }
        });
    });
}
