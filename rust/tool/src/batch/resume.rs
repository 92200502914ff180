//! A report that is to be gone on with. Each of its lines is held against the input before anything is written.

use super::report::{self, CaseLine, Header, Next, Output, Reader};
use crate::failure::Failure;
use std::fs::{File, OpenOptions};
use std::io::{self, BufRead, BufReader, Seek, SeekFrom};
use std::path::{Path, PathBuf};

/// A report with at least its first line.
pub struct Old {
    path: PathBuf,
    file: File,
    reader: Reader,
    /// The cases that it has.
    pub cases: u64,
    /// Those that were held against the input.
    compared: u64,
    finished: bool,
    /// The bytes of its whole lines.
    length: u64,
}

/// The lines of a file, as far as they are whole.
struct Lines {
    count: u64,
    length: u64,
    last: Vec<u8>,
    /// What stands behind the last whole one.
    rest: Vec<u8>,
}

impl Lines {
    fn count(path: &Path) -> io::Result<Self> {
        let mut file = BufReader::new(File::open(path)?);
        let mut lines = Lines {
            count: 0,
            length: 0,
            last: Vec::new(),
            rest: Vec::new(),
        };
        while file.read_until(b'\n', &mut lines.rest)? > 0 && lines.rest.ends_with(b"\n") {
            lines.count += 1;
            lines.length += lines.rest.len() as u64;
            std::mem::swap(&mut lines.last, &mut lines.rest);
            lines.rest.clear();
        }
        Ok(lines)
    }
}

impl Old {
    /// Nothing where there is no report, or not a whole line of one.
    pub fn open(path: &Path, header: &Header) -> Result<Option<Self>, Failure> {
        if !path.exists() {
            return Ok(None);
        }
        let file = report::open_alone(path, OpenOptions::new().write(true))?;
        let lines = Lines::count(path).map_err(|e| Failure::file(path, e))?;
        let first = report::line(header);
        if lines.count == 0 && first.starts_with(&lines.rest) {
            // The first line is all that a new report would have.
            std::fs::write(path, "").map_err(|e| Failure::file(path, e))?;
            return Ok(None);
        }
        let (reader, found) = Reader::open(path)?;
        if found.tool != header.tool {
            let (by, this) = (found.tool, &header.tool);
            return Err(reader.failure(&format!("this report is by {by}, and this is {this}; a report has rulings of one version, so a new one is to be begun")));
        }
        if found != *header {
            let text = |line: Vec<u8>| String::from_utf8_lossy(&line).trim_end().to_string();
            let (found, wanted) = (text(report::line(&found)), text(first));
            return Err(reader.failure(&format!("a report that begins with {found} cannot be gone on with by a run whose report begins with {wanted}")));
        }
        let finished = report::is_end(&lines.last);
        Ok(Some(Old {
            path: path.into(),
            file,
            reader,
            cases: lines.count - 1 - u64::from(finished),
            compared: 0,
            finished,
            length: lines.length,
        }))
    }

    /// The next line, which must be of the case with this head.
    pub fn compare(&mut self, head: &[u8]) -> Result<CaseLine<'_>, Failure> {
        self.compared += 1;
        match self.reader.next()? {
            Next::Case(case, line) if line.starts_with(head) => Ok(case),
            _ => {
                let head = String::from_utf8_lossy(head);
                let message =
                    format!("the report is of another input, whose case here is {head}}}");
                Err(failure(&self.path, self.compared, &message))
            }
        }
    }

    /// The input has cases behind those of the report.
    pub fn go_on(mut self) -> Result<Output, Failure> {
        if self.finished {
            let message =
                "the report ends behind this case, and the input goes on: it is another one";
            return Err(failure(&self.path, self.compared, message));
        }
        let unwritten = |e: io::Error| Failure::file(&self.path, e);
        self.file.set_len(self.length).map_err(unwritten)?;
        self.file.seek(SeekFrom::End(0)).map_err(unwritten)?;
        Ok(Output::to_file(&self.path, self.file))
    }

    /// The input ends where the report's cases end; where to write the last line, if it has none.
    pub fn end(mut self) -> Result<Option<Output>, Failure> {
        if self.compared < self.cases {
            let message =
                "the report goes on behind this case, and the input ends: it is another one";
            return Err(failure(&self.path, self.compared, message));
        }
        match self.finished {
            true => self.reader.next().map(|_| None),
            false => self.go_on().map(Some),
        }
    }
}

/// A failure at the line of a case, counted from 1.
fn failure(path: &Path, case: u64, message: &str) -> Failure {
    // The first line is none of a case.
    Failure::File(format!("{}:{}: {message}", path.display(), case + 1))
}
