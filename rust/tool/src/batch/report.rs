//! The report: a line that says what it is, a line for each case in the order of the input, and a last line with the counts. A report without
//! that last line is unfinished.

use super::arguments::Shard;
use crate::case::word;
use crate::failure::Failure;
use crate::kernel::{Ruled, Ruling};
use crate::print::grouped;
use serde::{Deserialize, Serialize};
use std::borrow::Cow;
use std::collections::BTreeMap;
use std::fs::{File, OpenOptions, TryLockError};
use std::io::{BufRead, BufReader, Write};
use std::path::{Path, PathBuf};

/// The version of the format. Fields are only ever added within one.
pub const VERSION: u32 = 1;
pub const TOOL: &str = concat!("levtosziv ", env!("CARGO_PKG_VERSION"));

/// The first line.
#[derive(Clone, Debug, PartialEq, Serialize, Deserialize)]
pub struct Header {
    pub report: u32,
    pub tool: String,
    #[serde(default, skip_serializing_if = "Option::is_none")]
    pub shard: Option<String>,
}

impl Header {
    pub fn new(shard: Option<Shard>) -> Self {
        Header {
            shard: shard.map(|shard| shard.to_string()),
            ..Header::by(TOOL)
        }
    }

    /// Of a report that is no shard's, by this version of the tool.
    pub fn by(tool: &str) -> Self {
        Header {
            report: VERSION,
            tool: tool.into(),
            shard: None,
        }
    }

    pub fn shard(&self) -> Option<Shard> {
        self.shard.as_ref()?.parse().ok()
    }

    /// The header that a line is.
    fn read(line: &[u8]) -> Option<Self> {
        let header: Header = serde_json::from_slice(line).ok()?;
        let sound = header.shard.is_none() || header.shard().is_some();
        (header.report == VERSION && sound).then_some(header)
    }
}

/// What a case's line says of the case itself; the ruling stands behind it.
pub struct Head<'a> {
    pub input: &'a str,
    pub case: &'a str,
    /// CRC-32 of its files.
    pub crc: u32,
    pub missing: &'a [&'static str],
}

/// An object as a line.
pub fn line(object: &impl Serialize) -> Vec<u8> {
    let mut line = Vec::new();
    push(&mut line, object);
    line.push(b'\n');
    line
}

fn push(lines: &mut Vec<u8>, object: &(impl Serialize + ?Sized)) {
    serde_json::to_writer(lines, object).expect("memory is written, and these have names as keys");
}

/// A case's line without its end. Lines of cases are written field by field, which is faster than an object.
pub fn push_head(lines: &mut Vec<u8>, head: &Head) {
    lines.extend_from_slice(b"{\"input\":");
    push(lines, head.input);
    lines.extend_from_slice(b",\"case\":");
    push(lines, head.case);
    let digit = |place| b"0123456789abcdef"[(head.crc >> (28 - 4 * place)) as usize % 16];
    let crc: [u8; 8] = std::array::from_fn(digit);
    lines.extend_from_slice(b",\"crc\":\"");
    lines.extend_from_slice(&crc);
    lines.push(b'"');
    if !head.missing.is_empty() {
        lines.extend_from_slice(b",\"missing\":");
        push(lines, head.missing);
    }
}

/// The line's end: the ruling, as `Figures` has it.
pub fn push_ruling(lines: &mut Vec<u8>, ruling: &Ruled) {
    let word = word(ruling).as_bytes();
    let figures: &[(&[u8], u32)] = match ruling {
        Ok(Ruling::Attack(counts) | Ruling::Run(counts)) => &[
            (b"nodes", counts.nodes),
            (b"with_action", counts.with_action),
            (b"edges", counts.edges),
        ],
        Err(refusal) => &[(b"refusal", refusal.number), (b"item", refusal.item)],
    };
    lines.extend_from_slice(b",\"line\":\"");
    lines.extend_from_slice(word);
    for (_, figure) in figures {
        lines.push(b' ');
        push(lines, figure);
    }
    lines.extend_from_slice(b"\",\"ruling\":\"");
    lines.extend_from_slice(word);
    lines.push(b'"');
    for (name, figure) in figures {
        lines.extend_from_slice(b",\"");
        lines.extend_from_slice(name);
        lines.extend_from_slice(b"\":");
        push(lines, figure);
    }
    lines.extend_from_slice(b"}\n");
}

/// How many of each ruling.
#[derive(Clone, Debug, Default, PartialEq, Serialize, Deserialize)]
pub struct Totals {
    pub cases: u64,
    pub attack: u64,
    pub run: u64,
    pub refused: u64,
    #[serde(skip)]
    pub by_number: BTreeMap<u32, u64>,
}

impl Totals {
    pub fn add(&mut self, ruling: &str, refusal: Option<u32>) {
        self.cases += 1;
        match ruling {
            "attack" => self.attack += 1,
            "run" => self.run += 1,
            _ => self.refused += 1,
        }
        if let Some(number) = refusal {
            *self.by_number.entry(number).or_default() += 1;
        }
    }

    pub fn add_all(&mut self, other: &Totals) {
        self.cases += other.cases;
        self.attack += other.attack;
        self.run += other.run;
        self.refused += other.refused;
        for (number, count) in &other.by_number {
            *self.by_number.entry(*number).or_default() += count;
        }
    }

    fn counts(&self) -> [u64; 4] {
        [self.cases, self.attack, self.run, self.refused]
    }
}

/// The last line.
#[derive(Serialize, Deserialize)]
struct End {
    end: bool,
    #[serde(flatten)]
    totals: Totals,
}

/// How the last line begins, and no other one.
const END: &[u8] = b"{\"end\":";

pub fn is_end(line: &[u8]) -> bool {
    line.starts_with(END)
}

pub fn end_line(totals: &Totals) -> Vec<u8> {
    let totals = totals.clone();
    line(&End { end: true, totals })
}

/// What is looked at in a case's line.
#[derive(Deserialize)]
pub struct CaseLine<'a> {
    #[serde(borrow)]
    pub input: Cow<'a, str>,
    #[serde(borrow)]
    pub ruling: Cow<'a, str>,
    pub refusal: Option<u32>,
}

impl<'a> CaseLine<'a> {
    fn read(line: &'a [u8]) -> Option<Self> {
        let read: CaseLine = serde_json::from_slice(line).ok()?;
        matches!(&*read.ruling, "attack" | "run" | "refused").then_some(read)
    }
}

/// A report that is read, line by line.
pub struct Reader {
    path: PathBuf,
    lines: BufReader<File>,
    number: u64,
    line: Vec<u8>,
    totals: Totals,
}

/// What stands next in a report.
pub enum Next<'a> {
    /// A case, and its line with the line's end.
    Case(CaseLine<'a>, &'a [u8]),
    End,
    Unfinished,
}

impl Reader {
    pub fn open(path: &Path) -> Result<(Self, Header), Failure> {
        let file = File::open(path).map_err(|e| Failure::file(path, e))?;
        let mut reader = Reader {
            path: path.into(),
            lines: BufReader::new(file),
            number: 0,
            line: Vec::new(),
            totals: Totals::default(),
        };
        reader.advance()?;
        match Header::read(&reader.line) {
            Some(header) => Ok((reader, header)),
            None => {
                Err(reader
                    .failure("this is no report of `levtosziv batch` that this version can read"))
            }
        }
    }

    /// The next line, empty where there is none or it has no end.
    fn advance(&mut self) -> Result<(), Failure> {
        self.line.clear();
        let read = self.lines.read_until(b'\n', &mut self.line);
        read.map_err(|e| Failure::file(&self.path, e))?;
        self.number += 1;
        if self.line.last() != Some(&b'\n') {
            self.line.clear();
        }
        Ok(())
    }

    pub fn next(&mut self) -> Result<Next<'_>, Failure> {
        self.advance()?;
        if self.line.is_empty() {
            return Ok(Next::Unfinished);
        }
        if is_end(&self.line) {
            let end: Option<End> = serde_json::from_slice(&self.line).ok();
            let counts = end.map(|end| end.totals.counts());
            return match counts == Some(self.totals.counts()) {
                true => Ok(Next::End),
                false => Err(self.failure("the counts are not those of the lines before")),
            };
        }
        match CaseLine::read(&self.line) {
            Some(case) => {
                self.totals.add(&case.ruling, case.refusal);
                Ok(Next::Case(case, &self.line))
            }
            None => Err(self.failure("this is no line of a case")),
        }
    }

    /// A failure at the line that was read last.
    pub fn failure(&self, message: &str) -> Failure {
        Failure::File(format!(
            "{}:{}: {message}",
            self.path.display(),
            self.number
        ))
    }
}

/// Where a report goes.
pub struct Output {
    to: Box<dyn Write>,
    name: String,
}

impl Output {
    /// Standard output, or a new file. What is there already is not written over.
    pub fn create(path: Option<&Path>) -> Result<Self, Failure> {
        let Some(path) = path else {
            return Ok(Output {
                to: Box::new(std::io::stdout()),
                name: "standard output".into(),
            });
        };
        let there = std::fs::metadata(path);
        if there.is_ok_and(|there| there.is_file() && there.len() > 0) {
            let message =
                "it is there already and is not written over; `batch --resume` goes on with a report";
            return Err(Failure::file(path, message));
        }
        let file = open_alone(path, OpenOptions::new().write(true).create(true))?;
        Ok(Output::to_file(path, file))
    }

    pub fn to_file(path: &Path, file: File) -> Self {
        Output {
            to: Box::new(file),
            name: path.display().to_string(),
        }
    }

    pub fn write(&mut self, lines: &[u8]) -> Result<(), Failure> {
        let written = self.to.write_all(lines).and_then(|()| self.to.flush());
        written.map_err(|e| Failure::File(format!("{}: {e}", self.name)))
    }
}

/// Opens a report that no other run is writing. The lock ends with the run, however that ends.
pub fn open_alone(path: &Path, options: &OpenOptions) -> Result<File, Failure> {
    let file = options.open(path).map_err(|e| Failure::file(path, e))?;
    let plain = file.metadata().is_ok_and(|there| there.is_file());
    match file.try_lock() {
        Err(TryLockError::WouldBlock) if plain => {
            Err(Failure::file(path, "another run is writing this report"))
        }
        // Where the file system has no locks, nothing is known of other runs.
        _ => Ok(file),
    }
}

/// A summary's fields, for one run and for merged reports.
#[derive(Serialize)]
pub struct Summary<'a> {
    pub summary: u32,
    pub tool: &'a str,
    #[serde(skip_serializing_if = "Option::is_none")]
    pub shard: Option<&'a str>,
    #[serde(flatten)]
    pub totals: &'a Totals,
    pub refused_by_number: &'a BTreeMap<u32, u64>,
    #[serde(flatten)]
    pub this_run: Option<ThisRun>,
}

/// What is of one run alone.
#[derive(Serialize)]
pub struct ThisRun {
    /// Cases that were in the report before.
    pub resumed: u64,
    pub seconds: f64,
    pub jobs: usize,
}

impl<'a> Summary<'a> {
    pub fn new(header: &'a Header, totals: &'a Totals, this_run: Option<ThisRun>) -> Self {
        Summary {
            summary: VERSION,
            tool: &header.tool,
            shard: header.shard.as_deref(),
            totals,
            refused_by_number: &totals.by_number,
            this_run,
        }
    }

    pub fn write(&self, path: &Path) -> Result<(), Failure> {
        std::fs::write(path, line(self)).map_err(|e| Failure::file(path, e))
    }
}

/// The counts in words.
pub fn words(totals: &Totals) -> String {
    let plural = |n: u64, word: &str| match n {
        1 => format!("1 {word}"),
        _ => format!("{} {word}s", grouped(n)),
    };
    let mut words = format!(
        "{}: {}, {}, {} refused",
        plural(totals.cases, "case"),
        plural(totals.attack, "attack"),
        plural(totals.run, "run"),
        grouped(totals.refused)
    );
    let numbers = totals.by_number.iter();
    let numbers: Vec<String> = numbers
        .map(|(n, count)| format!("{} by {n}", grouped(*count)))
        .collect();
    if !numbers.is_empty() {
        words += &format!(" ({})", numbers.join(", "));
    }
    words
}

#[cfg(test)]
mod tests {
    use super::*;
    use crate::answer::Figures;
    use crate::kernel::{Counts, Refusal};

    /// The fields by serde.
    #[derive(Serialize)]
    struct Object<'a> {
        input: &'a str,
        case: &'a str,
        crc: &'a str,
        #[serde(skip_serializing_if = "<[_]>::is_empty")]
        missing: &'a [&'static str],
        #[serde(flatten)]
        figures: Figures,
    }

    #[test]
    fn lines_are_objects() {
        let counts = Counts {
            nodes: 0,
            with_action: 10,
            edges: u32::MAX,
        };
        let refusal = Refusal {
            number: 12,
            item: 4,
        };
        let rulings = [
            Ok(Ruling::Attack(counts)),
            Ok(Ruling::Run(counts)),
            Err(refusal),
        ];
        let missing: [&[&str]; 2] = [&[], &["graph.bin", "property.bin"]];
        let crcs = [
            (0, "00000000"),
            (0x1234_5678, "12345678"),
            (0x9ABC_DEF0, "9abcdef0"),
        ];
        let names = ["a.tar", "\"\\\n\u{1}\u{7F}\u{FFFD}/é"];
        for ((ruling, (number, crc)), missing) in
            rulings.iter().zip(crcs).zip(missing.iter().cycle())
        {
            for (input, case) in [(names[0], names[1]), (names[1], names[0])] {
                let head = Head {
                    input,
                    case,
                    crc: number,
                    missing,
                };
                let figures = Figures::of(ruling);
                let object = Object {
                    input,
                    case,
                    crc,
                    missing,
                    figures,
                };
                let mut lines = Vec::new();
                push_head(&mut lines, &head);
                push_ruling(&mut lines, ruling);
                assert_eq!(lines, line(&object));
            }
        }
    }
}
