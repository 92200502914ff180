//! What `batch` and `merge` are given.

use crate::arguments::FailOn;
use std::fmt;
use std::path::PathBuf;
use std::str::FromStr;

#[derive(clap::Args)]
pub struct Batch {
    /// A folder with a case, a folder of such folders, a tar file, plain or by gzip, or - for a tar stream
    #[arg(value_name = "INPUT", required_unless_present = "list")]
    pub inputs: Vec<PathBuf>,
    /// A file with more inputs, one a line; - for standard input
    #[arg(long, value_name = "FILE")]
    pub list: Option<PathBuf>,
    /// The protocol of cases that have none; with --property, each NAME.bin is a graph of its own
    #[arg(long, value_name = "FILE")]
    pub protocol: Option<PathBuf>,
    /// The property of cases that have none
    #[arg(long, value_name = "FILE")]
    pub property: Option<PathBuf>,
    /// How many cases are ruled on at a time; left out, one for each core
    #[arg(long, short, value_parser = clap::value_parser!(u16).range(1..=1024))]
    pub jobs: Option<u16>,
    /// Where the report goes; left out, to standard output
    #[arg(long, value_name = "FILE")]
    pub report: Option<PathBuf>,
    /// Go on behind the last whole line of the report, once its cases are found to be the input's
    #[arg(long, requires = "report")]
    pub resume: bool,
    /// Only part K of N: the cases K, K + N, K + 2 N, .. of the input, from 1
    #[arg(long, value_name = "K/N")]
    pub shard: Option<Shard>,
    /// What came out, as one JSON object
    #[arg(long, value_name = "FILE")]
    pub summary: Option<PathBuf>,
    /// Copy the files of each attack (or run, or refused) to FOLDER/INPUT/CASE
    #[arg(long, value_name = "attack=FOLDER")]
    pub keep: Vec<Keep>,
    /// Exit with 10 for an attack, 11 for a refusal
    #[arg(long, value_enum, value_delimiter = ',')]
    pub fail_on: Vec<FailOn>,
}

#[derive(clap::Args)]
pub struct Merge {
    /// Reports, in the order of their inputs; the shards of an input in a row, in any order
    #[arg(value_name = "REPORT", required = true)]
    pub reports: Vec<PathBuf>,
    /// A file with the inputs that the reports must have, one a line
    #[arg(long, value_name = "FILE")]
    pub list: Option<PathBuf>,
    /// Where the merged report goes; left out, to standard output
    #[arg(long, value_name = "FILE")]
    pub report: Option<PathBuf>,
    /// What came out, as one JSON object
    #[arg(long, value_name = "FILE")]
    pub summary: Option<PathBuf>,
    /// Exit with 10 for an attack, 11 for a refusal
    #[arg(long, value_enum, value_delimiter = ',')]
    pub fail_on: Vec<FailOn>,
}

/// Part K of N, K from 1.
#[derive(Clone, Copy, Debug, PartialEq, Eq)]
pub struct Shard {
    pub part: u64,
    pub parts: u64,
}

impl Shard {
    pub const WHOLE: Shard = Shard { part: 1, parts: 1 };

    /// Whether it has the case of this place, from 0.
    pub fn has(&self, place: u64) -> bool {
        place % self.parts == self.part - 1
    }
}

impl fmt::Display for Shard {
    fn fmt(&self, f: &mut fmt::Formatter) -> fmt::Result {
        write!(f, "{}/{}", self.part, self.parts)
    }
}

impl FromStr for Shard {
    type Err = String;

    fn from_str(text: &str) -> Result<Self, String> {
        let wrong = || "a shard is K/N with numbers, K from 1 to N".to_string();
        let (part, parts) = text.split_once('/').ok_or_else(wrong)?;
        let (part, parts) = (part.parse(), parts.parse());
        match (part, parts) {
            (Ok(part), Ok(parts)) if 1 <= part && part <= parts => Ok(Shard { part, parts }),
            _ => Err(wrong()),
        }
    }
}

/// Which rulings' files are copied, and where to.
#[derive(Clone, Debug)]
pub struct Keep {
    pub ruling: String,
    pub folder: PathBuf,
}

impl FromStr for Keep {
    type Err = String;

    fn from_str(text: &str) -> Result<Self, String> {
        match text.split_once('=') {
            Some((ruling @ ("attack" | "run" | "refused"), folder)) if !folder.is_empty() => {
                Ok(Keep {
                    ruling: ruling.into(),
                    folder: folder.into(),
                })
            }
            _ => Err("this is RULING=FOLDER, with attack, run or refused as the ruling".into()),
        }
    }
}
