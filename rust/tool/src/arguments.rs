//! What the subcommands are given.

use crate::batch::arguments::{Batch, Merge};
use crate::case::Choice;
use crate::failure::{ATTACK, DONE, REFUSED};
use crate::model::BUILT_IN;
use clap::{Parser, Subcommand, ValueEnum};
use std::path::PathBuf;

/// Checks, draws and shows attack graphs. Every ruling is the proved core's.
///
/// Exit codes: 0 done, whatever the ruling; 10 an attack and 11 a refusal where --fail-on asks for it;
/// 2 wrong arguments; 3 a text that does not parse; 4 a file that cannot be read or written; 70 the tool
/// and the core disagree.
#[derive(Parser)]
#[command(name = "levtosziv", version)]
pub struct Arguments {
    #[command(subcommand)]
    pub command: Command,
}

#[derive(Clone, Copy, PartialEq, ValueEnum)]
pub enum Form {
    /// Sentences, with the reason
    Words,
    /// The report program's line
    Line,
    /// A line of JSON for each case
    Json,
}

#[derive(Clone, Copy, PartialEq, ValueEnum)]
pub enum FailOn {
    Attack,
    Refused,
}

impl FailOn {
    /// The exit code where there was an attack or a refusal. An attack wins.
    pub fn code(given: &[FailOn], attack: bool, refused: bool) -> i32 {
        match () {
            () if attack && given.contains(&FailOn::Attack) => ATTACK,
            () if refused && given.contains(&FailOn::Refused) => REFUSED,
            () => DONE,
        }
    }
}

/// What a message is built of.
fn functions() -> String {
    let names: Vec<&str> = BUILT_IN.iter().map(|function| function.name).collect();
    let names = names.join(" ");
    format!("Of the functions {names}, those of a theory, public names 'a' and fresh ones ~a")
}

/// Which of a text's lemmas and runs.
#[derive(clap::Args)]
pub struct Which {
    /// Only this lemma
    #[arg(long)]
    lemma: Option<String>,
    /// Only this run or graph
    #[arg(long)]
    run: Option<String>,
}

impl Which {
    pub fn choice(&self) -> Choice {
        Choice {
            lemma: self.lemma.clone(),
            run: self.run.clone(),
        }
    }
}

#[derive(clap::Args)]
pub struct Check {
    /// A text (.lev), or a folder with protocol.bin, property.bin, and graph.bin or steps.bin
    pub input: PathBuf,
    #[command(flatten)]
    pub which: Which,
    /// A text with the names for a folder's bytes
    #[arg(long)]
    pub names: Option<PathBuf>,
    /// How the answer is written
    #[arg(long, value_enum, default_value = "words")]
    pub format: Form,
    /// The same as --format json
    #[arg(long)]
    pub json: bool,
    /// Exit with 10 for an attack, 11 for a refusal
    #[arg(long, value_enum, value_delimiter = ',')]
    pub fail_on: Vec<FailOn>,
    /// Rule again each time the text is saved, until Ctrl-C
    #[arg(long, conflicts_with = "fail_on")]
    pub watch: bool,
}

#[derive(clap::Args)]
pub struct Build {
    pub text: PathBuf,
    pub folder: PathBuf,
    #[command(flatten)]
    pub which: Which,
}

#[derive(clap::Args)]
pub struct Draw {
    /// A text (.lev), or a folder with protocol.bin and steps.bin
    pub input: PathBuf,
    /// Only this run
    #[arg(long)]
    pub run: Option<String>,
    /// A text with the names for a folder's bytes
    #[arg(long)]
    pub names: Option<PathBuf>,
    /// Write the graph's bytes there, and print nothing
    #[arg(short, long)]
    pub output: Option<PathBuf>,
}

#[derive(clap::Args)]
pub struct Picture {
    /// A text (.lev) or a folder
    pub input: PathBuf,
    /// Its ending says what is made: .dot .svg .png .pdf .json
    pub output: PathBuf,
    #[command(flatten)]
    pub which: Which,
    /// A text with the names for a folder's bytes
    #[arg(long)]
    pub names: Option<PathBuf>,
    /// Leave out the steps that make names
    #[arg(long)]
    pub simplify: bool,
}

#[derive(clap::Args)]
#[command(override_usage = "levtosziv page [OPTIONS] <INPUT>... <OUTPUT>")]
pub struct Page {
    /// Texts (.lev), folders with a case, or folders of such; the last is the HTML file that is written
    // One list, so that options may stand between the inputs and the output.
    #[arg(required = true, value_name = "INPUT.. OUTPUT")]
    pub paths: Vec<PathBuf>,
    #[command(flatten)]
    pub which: Which,
    /// A text with the names for a folder's bytes
    #[arg(long)]
    pub names: Option<PathBuf>,
}

#[derive(Subcommand)]
pub enum Command {
    /// Rule on each run or graph of a text with each lemma, or on a folder's files
    Check(Check),
    /// Write a text's case as bytes into a folder
    Build(Build),
    /// Print a folder's files, or one of them, as text
    Show {
        /// A folder, or one of its files
        input: PathBuf,
        /// A text with the names for these bytes
        #[arg(long)]
        names: Option<PathBuf>,
    },
    /// Draw the graph of a run, or of a folder's steps.bin
    ///
    /// Each premise takes the earliest source: the lowest node and then the lowest conclusion that is equal and, if
    /// linear, still unused. So the same steps give the same graph.
    Draw(Draw),
    /// The canonical form of a message, such as "'g'^~a^inv(~a)"
    Term {
        #[arg(help = functions())]
        term: String,
        /// A text with the functions and names
        #[arg(long)]
        theory: Option<PathBuf>,
    },
    /// The graph of a case as a picture
    Picture(Picture),
    /// Cases as one HTML file: verdict, property, picture and steps of each
    Page(Page),
    /// Rule on many cases: folders, lists, tar files and streams
    Batch(Batch),
    /// Put reports of `batch` together
    Merge(Merge),
    /// All rules of a theory with their numbers and variables
    Rules { text: PathBuf },
    /// A row of the refusal table, with an example
    Explain { number: u32 },
    /// Lay a text out anew
    Fmt {
        text: PathBuf,
        /// Change the file itself
        #[arg(long)]
        write: bool,
    },
    /// What a shell needs to complete the arguments
    Completions { shell: clap_complete::Shell },
    /// The man page
    #[command(hide = true)]
    Man,
}
