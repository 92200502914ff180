//! Cases on their way from the reader to those that rule on them: some hundred at a time, with their bytes.

use super::arguments::Shard;
use crate::case::{GRAPH_FILE, PROPERTY_FILE, PROTOCOL_FILE, STEPS_FILE};
use crate::failure::Failure;
use crate::model::limits;
use std::ops::Range;
use std::path::PathBuf;
use std::sync::mpsc::{Sender, SyncSender};

/// The files of a case with their limits, in the order in which a case has them.
pub const FILES: [(&str, usize); 4] = [
    (PROTOCOL_FILE, limits::PROTOCOL_BYTES),
    (PROPERTY_FILE, limits::PROPERTY_BYTES),
    (GRAPH_FILE, limits::GRAPH_BYTES),
    (STEPS_FILE, limits::STEPS_BYTES),
];
pub const PROTOCOL: usize = 0;
pub const PROPERTY: usize = 1;
pub const GRAPH: usize = 2;
pub const STEPS: usize = 3;

/// A chunk is full with so many cases, or so many bytes.
const MOST_CASES: usize = 256;
const MOST_BYTES: usize = 256 << 10;
/// Of cases whose files are still to be read, a chunk has fewer.
const MOST_UNREAD: usize = 32;

/// Where the files of a case are.
pub enum At {
    /// In the chunk.
    Here,
    /// In a folder, under their names.
    Folder(PathBuf),
    /// This is the graph's file, and there is no other.
    Graph(PathBuf),
}

/// Where a case's files are in the chunk's bytes.
pub type Ranges = [Option<Range<usize>>; 4];

pub struct Case {
    /// The place of its input among all.
    pub input: usize,
    /// Where its name is in the chunk's names.
    name: Range<usize>,
    pub files: Ranges,
    pub at: At,
}

#[derive(Default)]
pub struct Chunk {
    pub index: usize,
    /// Its cases are in the report that is resumed.
    pub old: bool,
    pub bytes: Vec<u8>,
    /// In one piece of memory: pieces of their own would be taken on one thread and given back on another, and the two wait for each other.
    names: String,
    pub cases: Vec<Case>,
}

impl Chunk {
    /// A case's name within its input.
    pub fn name(&self, case: &Case) -> &str {
        &self.names[case.name.clone()]
    }

    pub fn file(&self, case: &Case, which: usize) -> Option<&[u8]> {
        case.files[which].clone().map(|range| &self.bytes[range])
    }

    fn is_full(&self) -> bool {
        let unread = matches!(self.cases.last(), Some(Case { at, .. }) if !matches!(at, At::Here));
        let most = if unread { MOST_UNREAD } else { MOST_CASES };
        self.cases.len() >= most || self.bytes.len() >= MOST_BYTES
    }
}

/// Hands the cases of this run's shard on, in chunks.
pub struct Feed {
    pub chunk: Chunk,
    chunks: usize,
    shard: Shard,
    /// Cases of the input so far, and those of the shard.
    seen: u64,
    taken: u64,
    /// The first of the shard's cases are in the report already.
    old: u64,
    /// Full as long as there are as many chunks under way as memory is for.
    under_way: SyncSender<()>,
    to: Sender<Chunk>,
}

impl Feed {
    pub fn new(shard: Shard, old: u64, under_way: SyncSender<()>, to: Sender<Chunk>) -> Self {
        let chunk = Chunk {
            old: old > 0,
            ..Chunk::default()
        };
        Feed {
            chunk,
            chunks: 0,
            shard,
            seen: 0,
            taken: 0,
            old,
            under_way,
            to,
        }
    }

    /// A case whose bytes, if they are here, begin at the `start` of the chunk's.
    pub fn case(
        &mut self,
        input: usize,
        name: &str,
        files: Ranges,
        start: usize,
        at: At,
    ) -> Result<(), Failure> {
        let place = self.seen;
        self.seen += 1;
        if !self.shard.has(place) {
            self.chunk.bytes.truncate(start);
            return Ok(());
        }
        self.taken += 1;
        let Chunk { names, cases, .. } = &mut self.chunk;
        let from = names.len();
        names.push_str(name);
        cases.push(Case {
            input,
            name: from..names.len(),
            files,
            at,
        });
        // A chunk's cases are all old or all new.
        match self.chunk.is_full() || self.taken == self.old {
            true => self.flush(),
            false => Ok(()),
        }
    }

    /// Hands over what there is, once there is room for it.
    pub fn flush(&mut self) -> Result<(), Failure> {
        self.chunks += 1;
        // The next one is likely as large.
        let next = Chunk {
            index: self.chunks,
            old: self.taken < self.old,
            bytes: Vec::with_capacity(self.chunk.bytes.len()),
            names: String::with_capacity(self.chunk.names.len()),
            cases: Vec::with_capacity(self.chunk.cases.len()),
        };
        let chunk = std::mem::replace(&mut self.chunk, next);
        let room = self.under_way.send(());
        let sent = room.is_ok() && self.to.send(chunk).is_ok();
        // Whoever has stopped listening says why.
        sent.then_some(()).ok_or(Failure::File("stopped".into()))
    }
}
