//! What the tests share: the program, folders for files, and the way from bytes to text and back.

#![allow(dead_code)]

pub mod archive;

use std::path::{Path, PathBuf};
use std::process::{Command, Output};
use tool::bytes;
use tool::case::{cases, Case, Choice};
use tool::text;

/// The tool's version, which reports name.
pub const VERSION: &str = env!("CARGO_PKG_VERSION");

/// The repository's folder.
pub fn root() -> PathBuf {
    Path::new(env!("CARGO_MANIFEST_DIR")).join("../..")
}

/// The texts of the examples: those that stand alone, and those beside files of bytes.
pub fn example_texts() -> Vec<PathBuf> {
    let examples = std::fs::read_dir(root().join("examples")).unwrap();
    let text = |path: PathBuf| match path.is_dir() {
        true => path.join("theory.lev"),
        false => path,
    };
    let mut texts: Vec<PathBuf> = examples.map(|e| text(e.unwrap().path())).collect();
    texts.sort();
    texts
}

/// An empty folder of this name, outside the checkout: `rt ci` takes none in which a link is.
pub fn folder(name: &str) -> PathBuf {
    let checkout = env!("CARGO_MANIFEST_DIR").replace('/', "-");
    let folder = std::env::temp_dir()
        .join(format!("levtosziv{checkout}"))
        .join(name);
    let _ = std::fs::remove_dir_all(&folder);
    std::fs::create_dir_all(&folder).unwrap();
    folder
}

pub fn levtosziv(arguments: &[&str], directory: &Path) -> Output {
    Command::new(env!("CARGO_BIN_EXE_levtosziv"))
        .args(arguments)
        .current_dir(directory)
        .output()
        .unwrap()
}

pub fn stderr(output: &Output) -> String {
    String::from_utf8_lossy(&output.stderr).into_owned()
}

pub fn stdout(output: &Output) -> String {
    String::from_utf8_lossy(&output.stdout).into_owned()
}

/// Files under their names.
pub fn put(folder: &Path, files: &[(&str, &[u8])]) {
    for (name, bytes) in files {
        std::fs::write(folder.join(name), bytes).unwrap();
    }
}

/// The case of a folder.
pub fn case_of(folder: &Path) -> Case {
    cases(folder, &Choice::default(), None).unwrap().remove(0)
}

/// Three files through text and back; nothing where one of them is not well laid out.
pub fn through_text(case: &Case) -> Option<[Vec<u8>; 3]> {
    let formula = case.formula.as_ref()?;
    let graph = case.graph.as_ref()?;
    bytes::protocol(&case.protocol_bytes).ok()?;
    let mut kernel = case.kernel();
    let (names, protocol) = (&case.names, &case.protocol);
    let formula = tool::print::formula(formula, names);
    let edges = Some(&graph.edges[..]);
    let text = tool::print::protocol(protocol, names)
        + &tool::print::lemma("l", &formula)
        + &tool::print::run("g", &graph.nodes, edges, names, protocol, &mut kernel);
    let theory = text::parse(&text).unwrap_or_else(|e| panic!("{e:?} in\n{text}"));
    let protocol_bytes = bytes::encode_protocol(&theory.protocol);
    let mut kernel = tool::kernel::Kernel::new(&protocol_bytes);
    let drawn = tool::case::drawn(&theory.runs[0], &theory, &mut kernel);
    Some([
        protocol_bytes,
        bytes::encode_property(&theory.lemmas[0].formula),
        drawn.graph.unwrap(),
    ])
}
