//! The names of an archive's cases.

use std::collections::hash_map::DefaultHasher;
use std::hash::Hasher;

/// The names that were seen in an archive, by their hashes; as many as there is room for, so that memory does not grow with the archive.
pub struct Names {
    slots: Vec<u64>,
    room: usize,
    /// The greatest name: shorter ones come first, as numbers are counted.
    greatest: String,
    /// Hashes that are not in the slots yet.
    waiting: Vec<u64>,
}

impl Names {
    const SLOTS: usize = 1 << 21;
    const WAITING: usize = 256;

    pub fn new() -> Self {
        Names {
            slots: vec![0; Self::SLOTS],
            room: Self::SLOTS / 4 * 3,
            greatest: String::new(),
            waiting: Vec::with_capacity(Self::WAITING),
        }
    }

    /// Whether this name was not there before. Where there is no room any more, all are new.
    pub fn is_new(&mut self, name: &str) -> bool {
        // A slot is seldom in a cache. Names that are in order are new without a look at it, and are entered many at a time, which takes hardly longer
        // than one: the processor waits for all at once.
        if (name.len(), name) > (self.greatest.len(), &self.greatest) {
            self.greatest.clear();
            self.greatest.push_str(name);
            self.waiting.push(hash(name));
            if self.waiting.len() == Self::WAITING {
                self.enter_waiting();
            }
            return true;
        }
        self.enter_waiting();
        self.enter(hash(name))
    }

    fn enter_waiting(&mut self) {
        let mut waiting = std::mem::take(&mut self.waiting);
        for hash in waiting.drain(..) {
            self.enter(hash);
        }
        self.waiting = waiting;
    }

    /// Enters a hash, if it was not there before.
    fn enter(&mut self, hash: u64) -> bool {
        let mut slot = (hash >> 32) as usize % Self::SLOTS;
        while self.slots[slot] != 0 {
            if self.slots[slot] == hash {
                return false;
            }
            slot = (slot + 1) % Self::SLOTS;
        }
        if self.room > 0 {
            self.room -= 1;
            self.slots[slot] = hash;
        }
        true
    }
}

/// Never 0, which is an empty slot.
fn hash(name: &str) -> u64 {
    let mut hasher = DefaultHasher::new();
    hasher.write(name.as_bytes());
    hasher.finish() | 1
}

#[cfg(test)]
mod tests {
    use super::*;

    #[test]
    fn each_name_is_new_once() {
        let counted = |range: std::ops::Range<u32>| range.map(|i| format!("g{i}"));
        let apart = (0..1_000).map(|i| format!("{}", i * 7_919 % 1_000));
        let all: Vec<String> = counted(0..700)
            .chain(apart)
            .chain(counted(700..900))
            .collect();
        let mut names = Names::new();
        for (i, name) in all.iter().enumerate() {
            assert!(names.is_new(name), "{name}");
            // The last one, one that may be waiting, and the first.
            for before in [i, i.saturating_sub(100), 0] {
                assert!(i % 3 > 0 || !names.is_new(&all[before]), "{name}");
            }
        }
        assert!(all.iter().all(|name| !names.is_new(name)));
    }
}
