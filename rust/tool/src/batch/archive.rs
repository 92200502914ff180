//! The cases of a tar archive. Members NAME/protocol.bin, NAME/property.bin and NAME/graph.bin (or steps.bin) in a row are a case; all else is
//! passed over. An archive that is cut off or damaged is a fault at its byte, never an end.

use super::chunk::{At, Feed, Ranges, FILES, GRAPH};
use super::header::{Plain, BLOCK};
use super::input::is_graph;
use super::names::Names;
use super::stream::{Place, Stream};
use crate::failure::Failure;
use std::io::{self, BufRead, ErrorKind, Read};
use std::rc::Rc;

pub enum Fault {
    /// A byte of the archive, and what is wrong there.
    At(u64, String),
    /// The cases are not wanted any more.
    Stopped(Failure),
}

pub const NO_CASE: &str =
    "there is no case in it; a case is a folder with protocol.bin, property.bin and graph.bin, \
    or where --protocol and --property are given a file NAME.bin";
const CUT_OFF: &str = "the archive ends in the middle: it is cut off, or no tar archive";

/// Feeds the cases of an archive, the input of this place.
pub fn cases(
    stream: Box<dyn BufRead>,
    input: usize,
    bare: bool,
    feed: &mut Feed,
) -> Result<(), Fault> {
    let place = Rc::new(Place::default());
    let mut members = Members::new(input, bare, Rc::clone(&place), feed);
    let rest = members.plain(Stream::new(stream, &place))?;
    let mut archive = tar::Archive::new(rest);
    members.others(&mut archive)?;
    if place.ended.get() {
        return Err(Fault::At(place.read.get(), CUT_OFF.into()));
    }
    only_zeros(archive.into_inner(), &place)?;
    // Only now is the last case known to be whole.
    members.end()?;
    match members.files_seen && !members.cases_seen {
        true => Err(Fault::At(place.read.get(), NO_CASE.into())),
        false => Ok(()),
    }
}

/// The fault that made reading the archive fail.
fn fault(place: &Place, error: io::Error) -> Fault {
    let read = place.read.get();
    if let Some(below) = place.error.take() {
        return Fault::At(read, format!("it is cut off or damaged: {below}"));
    }
    if place.ended.get() {
        return Fault::At(read, CUT_OFF.into());
    }
    let block = BLOCK as u64;
    let header = read.saturating_sub(1) / block * block;
    let message = format!("this is no tar archive, or a damaged one: {error}");
    Fault::At(header, message)
}

/// What is behind the end mark is read to its end: a stream's writer is not cut off, and gzip's checksum is compared.
fn only_zeros(mut rest: Stream, place: &Place) -> Result<(), Fault> {
    let mut buffer = [0; 1 << 14];
    loop {
        let before = place.read.get();
        let count = rest.read(&mut buffer).map_err(|e| fault(place, e))?;
        if count == 0 {
            return Ok(());
        }
        if let Some(at) = buffer[..count].iter().position(|byte| *byte != 0) {
            let message = "there are bytes behind the end of the archive; archives that were put together are to be given one by one";
            return Err(Fault::At(before + at as u64, message.into()));
        }
    }
}

/// The members of an archive, from which its cases are put together.
struct Members<'a> {
    feed: &'a mut Feed,
    input: usize,
    bare: bool,
    place: Rc<Place>,
    names: Names,
    files_seen: bool,
    cases_seen: bool,
    /// The case that is under way: its name, the byte where it begins, its files, and where these begin in the chunk.
    name: Vec<u8>,
    at: u64,
    files: Ranges,
    start: usize,
}

impl<'a> Members<'a> {
    fn new(input: usize, bare: bool, place: Rc<Place>, feed: &'a mut Feed) -> Self {
        let start = feed.chunk.bytes.len();
        Members {
            feed,
            input,
            bare,
            place,
            names: Names::new(),
            files_seen: false,
            cases_seen: false,
            name: Vec::new(),
            at: 0,
            files: Default::default(),
            start,
        }
    }

    /// Takes members as long as they are plain ones; what comes then is left.
    fn plain(&mut self, mut stream: Stream) -> Result<Stream, Fault> {
        let mut block = [0; BLOCK];
        loop {
            let at = self.place.read.get();
            let read = stream.fill(&mut block);
            read.map_err(|e| fault(&self.place, e))?;
            let Some(header) = Plain::of(&block) else {
                return Ok(stream.before(&block));
            };
            let which = match header.is_folder {
                true => None,
                false => self.begin(header.path, true, at)?,
            };
            let passed = match which {
                None => stream.pass(header.padded(), |_| {}),
                Some(which) => self.take(which, header.size, |wanted, bytes| {
                    stream.pass(wanted, |piece| bytes.extend_from_slice(piece))?;
                    stream.pass(header.padded() - wanted, |_| {})
                }),
            };
            passed.map_err(|e| fault(&self.place, e))?;
        }
    }

    /// Takes all other members, and plain ones behind them.
    fn others(&mut self, archive: &mut tar::Archive<Stream>) -> Result<(), Fault> {
        let start = self.place.read.get();
        let entries = archive.entries_with_seek();
        for entry in entries.map_err(|e| fault(&self.place, e))? {
            let mut entry = entry.map_err(|e| fault(&self.place, e))?;
            let kind = entry.header().entry_type();
            if kind.is_dir() || kind.is_pax_global_extensions() {
                continue;
            }
            let is_file = kind.is_file() || kind.is_contiguous() || kind.is_gnu_sparse();
            let at = start + entry.raw_header_position();
            let Some(which) = self.begin(&entry.path_bytes(), is_file, at)? else {
                continue;
            };
            let taken = self.take(which, entry.size(), |wanted, bytes| {
                match (&mut entry).take(wanted).read_to_end(bytes)? as u64 == wanted {
                    true => Ok(()),
                    false => Err(ErrorKind::UnexpectedEof.into()),
                }
            });
            taken.map_err(|e| fault(&self.place, e))?;
        }
        Ok(())
    }

    /// Which file of the case under way a member is, if it is one. Where it is of another case, that one begins.
    fn begin(&mut self, path: &[u8], is_file: bool, at: u64) -> Result<Option<usize>, Fault> {
        self.files_seen = true;
        let Some((name, which)) = case_of(path, self.bare) else {
            return Ok(None);
        };
        if !is_file {
            let path = String::from_utf8_lossy(path);
            let message = format!("{path} is a link or no plain file, and what it stands for is not in the archive here; `tar --dereference --hard-dereference` writes files");
            return Err(Fault::At(at, message));
        }
        if self.name != name || self.files[which].is_some() {
            self.end()?;
            self.name.clear();
            self.name.extend_from_slice(name);
            self.at = at;
        }
        Ok(Some(which))
    }

    /// Takes a file's bytes, one over its limit at most.
    fn take(
        &mut self,
        which: usize,
        size: u64,
        append: impl FnOnce(u64, &mut Vec<u8>) -> io::Result<()>,
    ) -> io::Result<()> {
        let bytes = &mut self.feed.chunk.bytes;
        let start = bytes.len();
        append(size.min(FILES[which].1 as u64 + 1), bytes)?;
        self.files[which] = Some(start..bytes.len());
        Ok(())
    }

    /// The case that was under way is whole.
    fn end(&mut self) -> Result<(), Fault> {
        let files = std::mem::take(&mut self.files);
        if files.iter().all(Option::is_none) {
            return Ok(());
        }
        self.cases_seen = true;
        let name = match self.name.is_empty() {
            true => ".".into(),
            false => String::from_utf8_lossy(&self.name),
        };
        if !self.names.is_new(&name) {
            let message = format!("the case {name} was there before; each name stands once, and a case's files in a row");
            return Err(Fault::At(self.at, message));
        }
        let fed = self
            .feed
            .case(self.input, &name, files, self.start, At::Here);
        self.start = self.feed.chunk.bytes.len();
        fed.map_err(Fault::Stopped)
    }
}

/// The name of the case that a member belongs to, and which file of it the member is.
fn case_of(path: &[u8], bare: bool) -> Option<(&[u8], usize)> {
    let path = path.strip_prefix(b"./").unwrap_or(path);
    let slash = path.iter().rposition(|byte| *byte == b'/');
    let (folder, file) = match slash {
        Some(slash) => (&path[..slash], &path[slash + 1..]),
        None => (&path[..0], path),
    };
    match FILES.iter().position(|(name, _)| file == name.as_bytes()) {
        Some(which) => Some((folder, which)),
        None => (bare && is_graph(file)).then_some((path, GRAPH)),
    }
}
