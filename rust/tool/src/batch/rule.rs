//! Chunks of cases to lines of the report, by the core.

use super::arguments::Keep;
use super::chunk::{At, Case, Chunk, FILES, GRAPH, PROPERTY, PROTOCOL, STEPS};
use super::input::Input;
use super::report::{push_head, push_ruling, Head, Totals};
use crate::case::{append_file, word};
use crate::failure::Failure;
use crate::kernel::{Kernel, Ruled};
use crc32fast::Hasher;
use std::io::ErrorKind;
use std::path::Path;

/// The bytes of a line of the report, as most are.
const USUAL_LINE: usize = 160;

/// What all that rule have before them.
pub struct Setup {
    pub inputs: Vec<Input>,
    /// Protocol and property are given, so that NAME.bin is a graph.
    pub bare: bool,
    /// The protocol and the property of cases that have none.
    pub protocol: Option<Vec<u8>>,
    pub property: Option<Vec<u8>>,
    pub keep: Vec<Keep>,
}

/// The files of a case, or what stands in for them.
pub type Files<'a> = [Option<&'a [u8]>; 4];

impl Setup {
    pub fn files<'a>(&'a self, chunk: &'a Chunk, case: &Case) -> Files<'a> {
        let own = |which| chunk.file(case, which);
        [
            own(PROTOCOL).or(self.protocol.as_deref()),
            own(PROPERTY).or(self.property.as_deref()),
            own(GRAPH),
            own(STEPS),
        ]
    }
}

/// What became of a chunk.
#[derive(Default)]
pub struct Done {
    pub index: usize,
    pub old: bool,
    /// Of an old chunk each line's head, else the lines.
    pub lines: Vec<u8>,
    pub totals: Totals,
    /// The chunk itself, where files of its cases may be kept, and the cases to keep.
    pub chunk: Option<Chunk>,
    pub kept: Vec<(usize, usize)>,
    /// Why it stops behind these lines.
    pub failure: Option<Failure>,
}

/// What one that rules has for itself.
pub struct Ruler {
    kernel: Kernel,
    checksum: Checksum,
}

impl Ruler {
    pub fn new() -> Self {
        Ruler {
            kernel: Kernel::new(&[]),
            checksum: Checksum::default(),
        }
    }
}

pub fn rule(mut chunk: Chunk, setup: &Setup, ruler: &mut Ruler) -> Done {
    let mut done = Done {
        index: chunk.index,
        old: chunk.old,
        lines: Vec::with_capacity(chunk.cases.len() * USUAL_LINE),
        ..Done::default()
    };
    for place in 0..chunk.cases.len() {
        if let Err(failure) = load(&mut chunk, place) {
            done.failure = Some(failure);
            break;
        }
        let case = &chunk.cases[place];
        let files = setup.files(&chunk, case);
        let head = Head {
            input: &setup.inputs[case.input].name,
            case: chunk.name(case),
            crc: ruler.checksum.of(&ruled_on(&files)),
            missing: &missing(&files),
        };
        push_head(&mut done.lines, &head);
        if chunk.old {
            done.lines.push(b'\n');
            continue;
        }
        let ruling = ruling(&files, &mut ruler.kernel);
        push_ruling(&mut done.lines, &ruling);
        let word = word(&ruling);
        done.totals
            .add(word, ruling.err().map(|refusal| refusal.number));
        done.kept
            .extend(kept(&setup.keep, word).map(|keep| (place, keep)));
    }
    if !setup.keep.is_empty() {
        done.chunk = Some(chunk);
    }
    done
}

/// Which of the folders take a case of this ruling.
pub fn kept<'a>(keep: &'a [Keep], ruling: &'a str) -> impl Iterator<Item = usize> + 'a {
    let asked = keep.iter().enumerate();
    asked
        .filter(move |(_, keep)| keep.ruling == ruling)
        .map(|(i, _)| i)
}

fn ruling(files: &Files, kernel: &mut Kernel) -> Ruled {
    let [protocol, property, graph, steps] = files;
    let property = property.unwrap_or_default();
    kernel.under(protocol.unwrap_or_default());
    match (graph, steps) {
        (None, Some(steps)) => {
            let drawn = kernel.draw(steps);
            kernel.check_drawn(property, drawn.as_deref().map_err(|refusal| *refusal))
        }
        _ => kernel.check(property, graph.unwrap_or_default()),
    }
}

/// Protocol, property, and the graph, or where there is none the steps.
fn ruled_on<'a>(files: &Files<'a>) -> [Option<&'a [u8]>; 3] {
    let [protocol, property, graph, steps] = *files;
    [protocol, property, graph.or(steps)]
}

fn missing(files: &Files) -> Vec<&'static str> {
    let ruled_on = ruled_on(files).into_iter().zip(FILES);
    ruled_on
        .filter_map(|(file, (name, _))| file.is_none().then_some(name))
        .collect()
}

/// CRC-32 of a case's files. Most often protocol and property are those of the case before: so much is known then.
#[derive(Default)]
struct Checksum {
    protocol: Vec<u8>,
    property: Vec<u8>,
    of_both: Hasher,
}

impl Checksum {
    fn of(&mut self, files: &[Option<&[u8]>; 3]) -> u32 {
        let [protocol, property, graph] = files.map(Option::unwrap_or_default);
        if self.protocol != protocol || self.property != property {
            self.protocol = protocol.to_vec();
            self.property = property.to_vec();
            self.of_both = Hasher::new();
            self.of_both.update(protocol);
            self.of_both.update(property);
        }
        let mut hasher = self.of_both.clone();
        hasher.update(graph);
        hasher.finalize()
    }
}

/// Reads the files of a case that lie in a folder. "A file that cannot be opened counts as empty", but only one that is not there is
/// passed over here: others may be there the next time.
fn load(chunk: &mut Chunk, place: usize) -> Result<(), Failure> {
    let case = &mut chunk.cases[place];
    let bytes = &mut chunk.bytes;
    let mut read = |path: &Path, which: usize| {
        let start = bytes.len();
        match append_file(path, FILES[which].1, bytes) {
            Ok(()) => Ok(Some(start..bytes.len())),
            Err(e) if e.kind() == ErrorKind::NotFound => Ok(None),
            Err(e) => Err(Failure::file(path, e)),
        }
    };
    match std::mem::replace(&mut case.at, At::Here) {
        At::Here => {}
        At::Graph(path) => case.files[GRAPH] = read(&path, GRAPH)?,
        At::Folder(folder) => {
            for (which, (name, _)) in FILES.iter().enumerate() {
                // Steps are of use where there is no graph.
                if which != STEPS || case.files[GRAPH].is_none() {
                    case.files[which] = read(&folder.join(name), which)?;
                }
            }
        }
    }
    Ok(())
}
