//! The bytes of an archive, with the place that was read last.

use std::cell::{Cell, RefCell};
use std::io::{self, BufRead, Cursor, ErrorKind, Read, Seek, SeekFrom};
use std::rc::Rc;

/// What was read of a stream so far, and how that ended.
#[derive(Default)]
pub struct Place {
    pub read: Cell<u64>,
    pub ended: Cell<bool>,
    /// Why the system or the unpacker gave no more.
    pub error: RefCell<Option<String>>,
}

impl Place {
    /// What reading has answered.
    fn note(&self, read: &io::Result<usize>) {
        match read {
            Ok(0) => self.ended.set(true),
            Ok(count) => self.read.set(self.read.get() + *count as u64),
            Err(error) => {
                self.error.replace(Some(error.to_string()));
            }
        }
    }
}

pub struct Stream {
    inner: Box<dyn BufRead>,
    place: Rc<Place>,
    /// The place from which `seek` counts.
    start: u64,
}

impl Stream {
    pub fn new(inner: Box<dyn BufRead>, place: &Rc<Place>) -> Self {
        Stream {
            inner,
            place: Rc::clone(place),
            start: place.read.get(),
        }
    }

    /// Goes so many bytes on, and lends them piece by piece.
    pub fn pass(&mut self, count: u64, mut lend: impl FnMut(&[u8])) -> io::Result<()> {
        let mut left = count;
        while left > 0 {
            let there = self.inner.fill_buf().map(|bytes| {
                let piece = &bytes[..left.min(bytes.len() as u64) as usize];
                lend(piece);
                piece.len()
            });
            self.place.note(&there);
            match there? {
                0 => return Err(ErrorKind::UnexpectedEof.into()),
                count => {
                    self.inner.consume(count);
                    left -= count as u64;
                }
            }
        }
        Ok(())
    }

    /// The next bytes, as many as there is place for.
    pub fn fill(&mut self, place: &mut [u8]) -> io::Result<()> {
        let mut filled = 0;
        self.pass(place.len() as u64, |piece| {
            place[filled..][..piece.len()].copy_from_slice(piece);
            filled += piece.len();
        })
    }

    /// The same stream from before the last of its bytes, where it starts anew.
    pub fn before(self, last: &[u8]) -> Self {
        let inner = Box::new(Cursor::new(last.to_vec()).chain(self.inner));
        let read = &self.place.read;
        read.set(read.get() - last.len() as u64);
        Stream::new(inner, &self.place)
    }
}

impl Read for Stream {
    fn read(&mut self, buffer: &mut [u8]) -> io::Result<usize> {
        let read = self.inner.read(buffer);
        if !buffer.is_empty() {
            self.place.note(&read);
        }
        read
    }
}

/// What the archive skips is passed over where it is buffered, and not copied. Of a stream that can be done ahead only.
impl Seek for Stream {
    fn seek(&mut self, to: SeekFrom) -> io::Result<u64> {
        let SeekFrom::Current(ahead @ 0..) = to else {
            return Err(ErrorKind::Unsupported.into());
        };
        self.pass(ahead as u64, |_| {})?;
        Ok(self.place.read.get() - self.start)
    }
}
