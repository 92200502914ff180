//! The threads of a batch: one reads, others rule.

use super::arguments::Shard;
use super::chunk::{Chunk, Feed};
use super::input;
use super::rule::{rule, Done, Ruler, Setup};
use crate::failure::Failure;
use std::panic::{catch_unwind, AssertUnwindSafe};
use std::sync::atomic::AtomicU64;
use std::sync::mpsc::{channel, sync_channel, Receiver};
use std::sync::{Arc, Mutex};
use std::thread;

/// A check needs 573 KB of stack.
const STACK: usize = 4 << 20;
/// Chunks under way for each job; one that is slow holds up no more than these.
const CHUNKS: usize = 8;

/// The threads that read and rule.
pub struct Pipeline {
    /// None where a case could not be ruled on.
    pub done: Receiver<Option<Done>>,
    /// Has one for each chunk that is under way.
    pub under_way: Receiver<()>,
    reader: thread::JoinHandle<Result<(), Failure>>,
    /// Bytes of files that were read.
    pub read: Arc<AtomicU64>,
}

impl Pipeline {
    pub fn start(setup: &Arc<Setup>, shard: Option<Shard>, old: u64, jobs: usize) -> Self {
        let (to_rule, chunks) = channel();
        let (to_write, done) = channel();
        let (room, under_way) = sync_channel(CHUNKS * jobs);
        let chunks = Arc::new(Mutex::new(chunks));
        for _ in 0..jobs {
            let (setup, chunks, to_write) =
                (Arc::clone(setup), Arc::clone(&chunks), to_write.clone());
            let work = move || {
                let mut ruler = Ruler::new();
                while let Some(chunk) = next_chunk(&chunks) {
                    // A fault of the tool is told by the missing answer.
                    let rule = AssertUnwindSafe(|| rule(chunk, &setup, &mut ruler));
                    if to_write.send(catch_unwind(rule).ok()).is_err() {
                        return;
                    }
                }
            };
            spawn(work);
        }
        let read = Arc::new(AtomicU64::new(0));
        let (setup, counted) = (Arc::clone(setup), Arc::clone(&read));
        let reader = spawn(move || {
            let mut feed = Feed::new(shard.unwrap_or(Shard::WHOLE), old, room, to_rule);
            input::feed(&setup.inputs, setup.bare, &counted, &mut feed)
        });
        Pipeline {
            done,
            under_way,
            reader,
            read,
        }
    }

    /// How reading ended, once nothing is done any more.
    pub fn join(self) -> Result<(), Failure> {
        let fault = |_| Failure::Disagreement("reading failed; this is a fault of the tool".into());
        self.reader.join().map_err(fault)?
    }
}

fn spawn<T: Send + 'static>(run: impl FnOnce() -> T + Send + 'static) -> thread::JoinHandle<T> {
    let thread = thread::Builder::new().stack_size(STACK).spawn(run);
    thread.expect("the system has threads")
}

fn next_chunk(chunks: &Mutex<Receiver<Chunk>>) -> Option<Chunk> {
    chunks.lock().ok()?.recv().ok()
}
