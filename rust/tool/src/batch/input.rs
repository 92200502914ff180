//! Folders, lists, tar files and streams: what is given, and its cases one after another.

use super::archive;
use super::chunk::{At, Feed, Ranges, FILES};
use crate::case::{GRAPH_FILE, PROPERTY_FILE, PROTOCOL_FILE, STEPS_FILE};
use crate::failure::Failure;
use flate2::read::MultiGzDecoder;
use std::collections::HashSet;
use std::ffi::OsString;
use std::fs::File;
use std::io::{self, BufRead, BufReader, Cursor, Read};
use std::os::unix::ffi::OsStringExt;
use std::path::{Path, PathBuf};
use std::sync::atomic::{AtomicU64, Ordering};
use std::sync::Arc;

/// Reads of a file or stream at once.
const BUFFER: usize = 128 << 10;

pub enum Kind {
    /// Standard input.
    Stream,
    /// A file, of so many bytes where it is a plain one.
    File(Option<u64>),
    /// A folder with a case's files.
    Case,
    /// A folder with cases, in the order of their names.
    Cases(Vec<OsString>),
}

pub struct Input {
    pub path: PathBuf,
    /// As it was given.
    pub name: String,
    pub kind: Kind,
}

/// How much there is to read, where that is known.
#[derive(Clone, Copy)]
pub enum Size {
    Bytes(u64),
    Cases(u64),
    Unknown,
}

/// All inputs, each of which is there and given once. With `bare`, NAME.bin is a graph.
pub fn inputs(given: &[PathBuf], list: Option<&Path>, bare: bool) -> Result<Vec<Input>, Failure> {
    let mut inputs = Vec::new();
    let mut known = HashSet::new();
    let mut add = |path: PathBuf, place: &str| {
        let said = |error: String| Failure::File(format!("{place}{}: {error}", path.display()));
        if !known.insert(path.clone()) {
            return Err(said("it is given twice".into()));
        }
        let kind = kind(&path, bare).map_err(|e| said(e.to_string()))?;
        if matches!(&kind, Kind::Cases(names) if names.is_empty()) && !is_empty(&path) {
            return Err(said(archive::NO_CASE.into()));
        }
        let name = path.to_string_lossy().into_owned();
        inputs.push(Input { path, name, kind });
        Ok(())
    };
    for path in given {
        add(path.clone(), "")?;
    }
    for (number, path) in listed(list)? {
        let list = list.map_or(String::new(), |list| list.display().to_string());
        add(path, &format!("{list}:{number}: "))?;
    }
    Ok(inputs)
}

/// The paths of a list with their lines' numbers. Empty lines are none.
pub fn listed(list: Option<&Path>) -> Result<Vec<(usize, PathBuf)>, Failure> {
    let Some(list) = list else {
        return Ok(Vec::new());
    };
    let failure = |e| Failure::file(list, e);
    let file: Box<dyn Read> = match is_stream(list) {
        true => Box::new(io::stdin()),
        false => Box::new(File::open(list).map_err(failure)?),
    };
    let mut paths = Vec::new();
    for (i, line) in BufReader::new(file).split(b'\n').enumerate() {
        let mut line = line.map_err(failure)?;
        if line.last() == Some(&b'\r') {
            line.pop();
        }
        if !line.is_empty() {
            paths.push((i + 1, PathBuf::from(OsString::from_vec(line))));
        }
    }
    Ok(paths)
}

pub fn is_stream(path: &Path) -> bool {
    path.as_os_str() == "-"
}

fn is_empty(folder: &Path) -> bool {
    std::fs::read_dir(folder).is_ok_and(|mut entries| entries.next().is_none())
}

fn kind(path: &Path, bare: bool) -> io::Result<Kind> {
    if is_stream(path) {
        return Ok(Kind::Stream);
    }
    let there = std::fs::metadata(path)?;
    if !there.is_dir() {
        return Ok(Kind::File(there.is_file().then_some(there.len())));
    }
    if FILES.iter().any(|(file, _)| path.join(file).exists()) {
        return Ok(Kind::Case);
    }
    let mut names = Vec::new();
    for entry in std::fs::read_dir(path)? {
        let entry = entry?;
        let name = entry.file_name();
        let kind = entry.file_type()?;
        let is_folder = kind.is_dir() || kind.is_symlink() && entry.path().is_dir();
        if is_folder || bare && is_graph(name.as_encoded_bytes()) {
            names.push(name);
        }
    }
    names.sort_unstable();
    Ok(Kind::Cases(names))
}

/// Whether a file is a graph by itself, where protocol and property are given.
pub fn is_graph(file: &[u8]) -> bool {
    let others = [PROTOCOL_FILE, PROPERTY_FILE, GRAPH_FILE, STEPS_FILE];
    file.ends_with(b".bin") && !others.iter().any(|other| file == other.as_bytes())
}

/// What can be told of the size before anything is read.
pub fn size(inputs: &[Input]) -> Size {
    let mut bytes = Some(0);
    let mut cases = Some(0);
    for input in inputs {
        let (more_bytes, more_cases) = match &input.kind {
            Kind::Stream => (None, None),
            Kind::File(length) => (*length, None),
            Kind::Case => (None, Some(1)),
            Kind::Cases(names) => (None, Some(names.len() as u64)),
        };
        bytes = bytes.zip(more_bytes).map(|(a, b)| a + b);
        cases = cases.zip(more_cases).map(|(a, b)| a + b);
    }
    match (bytes, cases) {
        (Some(0), Some(0)) | (None, None) => Size::Unknown,
        (Some(bytes), _) => Size::Bytes(bytes),
        (_, Some(cases)) => Size::Cases(cases),
    }
}

/// Counts what is read of files, for the progress.
struct Metered<R> {
    inner: R,
    read: Arc<AtomicU64>,
}

impl<R: Read> Read for Metered<R> {
    fn read(&mut self, buffer: &mut [u8]) -> io::Result<usize> {
        let count = self.inner.read(buffer)?;
        self.read.fetch_add(count as u64, Ordering::Relaxed);
        Ok(count)
    }
}

/// Feeds the cases of all inputs. What is read of files is counted.
pub fn feed(
    inputs: &[Input],
    bare: bool,
    read: &Arc<AtomicU64>,
    feed: &mut Feed,
) -> Result<(), Failure> {
    for (place, input) in inputs.iter().enumerate() {
        let fed = match &input.kind {
            Kind::Stream => archive_cases(io::stdin(), "standard input", place, bare, read, feed),
            Kind::File(_) => {
                let file = File::open(&input.path).map_err(|e| Failure::file(&input.path, e))?;
                archive_cases(file, &input.name, place, bare, read, feed)
            }
            Kind::Case => folder_case(&input.path, ".", place, feed),
            Kind::Cases(names) => folder_cases(&input.path, names, place, feed),
        };
        // What was read before a fault is ruled on.
        if fed.is_err() {
            feed.flush()?;
            return fed;
        }
    }
    feed.flush()
}

fn folder_case(path: &Path, name: &str, input: usize, feed: &mut Feed) -> Result<(), Failure> {
    let at = match is_graph(name.as_bytes()) && !path.is_dir() {
        true => At::Graph(path.into()),
        false => At::Folder(path.into()),
    };
    feed.case(input, name, Ranges::default(), 0, at)
}

fn folder_cases(
    folder: &Path,
    names: &[OsString],
    input: usize,
    feed: &mut Feed,
) -> Result<(), Failure> {
    for name in names {
        let path = folder.join(name);
        folder_case(&path, &name.to_string_lossy(), input, feed)?;
    }
    Ok(())
}

/// How other compressed files begin, and what unpacks them.
const OTHERS: [(&[u8], &str); 3] = [
    (b"\x28\xB5\x2F\xFD", "zstd"),
    (b"\xFD7zXZ\0", "xz"),
    (b"BZh", "bzip2"),
];

fn archive_cases(
    raw: impl Read + 'static,
    name: &str,
    input: usize,
    bare: bool,
    read: &Arc<AtomicU64>,
    feed: &mut Feed,
) -> Result<(), Failure> {
    let read = Arc::clone(read);
    let mut raw = Metered { inner: raw, read };
    let mut start = Vec::new();
    let peeked = (&mut raw).take(6).read_to_end(&mut start);
    peeked.map_err(|e| Failure::File(format!("{name}: {e}")))?;
    if let Some((_, program)) = OTHERS.iter().find(|(mark, _)| start.starts_with(mark)) {
        let message = format!("{name}: this is packed by {program}; `{program} -dc {name} | levtosziv batch -` rules on it");
        return Err(Failure::File(message));
    }
    let packed = start.starts_with(&[0x1F, 0x8B]);
    let raw = Cursor::new(start).chain(raw);
    let stream: Box<dyn BufRead> = match packed {
        true => Box::new(BufReader::with_capacity(BUFFER, MultiGzDecoder::new(raw))),
        false => Box::new(BufReader::with_capacity(BUFFER, raw)),
    };
    archive::cases(stream, input, bare, feed).map_err(|fault| match fault {
        archive::Fault::Stopped(failure) => failure,
        archive::Fault::At(byte, message) => {
            let inside = if packed { " of what gzip unpacks" } else { "" };
            Failure::File(format!("{name}: byte {byte}{inside}: {message}"))
        }
    })
}
