//! The refusal table's rows and items.

use crate::figures::TERM_BYTES;
use crate::number::Read;

/// "An item is 1 protocol, 2 property, 3 graph, 4 term, 5 steps where "file" stands."
#[derive(Clone, Copy, Debug, PartialEq, Eq)]
pub enum File {
    Protocol = 1,
    Property = 2,
    Graph = 3,
    Term = 4,
    Steps = 5,
}

impl File {
    /// The most bytes allowed.
    pub fn limit(self) -> usize {
        match self {
            File::Protocol => 4_096,
            File::Property => 1_024,
            File::Graph => 61_440,
            File::Term => TERM_BYTES,
            File::Steps => 32_768,
        }
    }

    /// Cause 2.
    pub fn within_limit(self, bytes: &[u8]) -> Judged<()> {
        if bytes.len() > self.limit() {
            return refuse(2, self as usize);
        }
        Ok(())
    }

    /// Cause 3.
    pub fn layout<T>(self, read: Read<T>) -> Judged<T> {
        read.or_else(|_| refuse(3, self as usize))
    }
}

/// A cause's number and the item returned.
#[derive(Clone, Copy, Debug, PartialEq, Eq, Hash)]
pub struct Refusal {
    pub number: u32,
    pub item: u32,
}

pub type Judged<T> = Result<T, Refusal>;

pub fn refuse<T>(number: u32, item: usize) -> Judged<T> {
    let item = item as u32;
    Err(Refusal { number, item })
}

/// "the smallest item wins": refuses the first of the items, numbered from 1, that has the cause.
pub fn refuse_first<T>(number: u32, items: &[T], has_cause: impl FnMut(&T) -> bool) -> Judged<()> {
    match items.iter().position(has_cause) {
        Some(place) => refuse(number, place + 1),
        None => Ok(()),
    }
}
