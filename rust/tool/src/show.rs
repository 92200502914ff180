//! Files as text; of a damaged one, the bytes around the fault.

use crate::bytes::{self, Fault};
use crate::case::*;
use crate::failure::Failure;
use crate::kernel::Kernel;
use crate::model::*;
use crate::print;
use std::path::Path;

/// A folder's files, or one of them, as text; and whether all could be read.
pub fn show(input: &Path, names: Option<&Path>) -> Result<(String, bool), Failure> {
    let (folder, only) = match input.is_dir() {
        true => (input, None),
        false => {
            if !input.exists() {
                return Err(Failure::File(format!(
                    "{}: no such file or folder",
                    input.display()
                )));
            }
            let name = input.file_name().unwrap_or_default().to_string_lossy();
            (
                input.parent().unwrap_or(Path::new(".")),
                Some(name.into_owned()),
            )
        }
    };
    let known = [PROTOCOL_FILE, PROPERTY_FILE, STEPS_FILE, GRAPH_FILE];
    if let Some(name) = only.as_deref().filter(|name| !known.contains(name)) {
        let message = format!(
            "{name}: what a file holds is known by its name, {}",
            known.join(", ")
        );
        return Err(Failure::Arguments(message));
    }
    let folder = if folder.as_os_str().is_empty() {
        Path::new(".")
    } else {
        folder
    };
    let shown = Shown {
        folder,
        names,
        text: String::new(),
        whole: true,
    };
    shown.files(only.as_deref())
}

struct Shown<'a> {
    folder: &'a Path,
    names: Option<&'a Path>,
    text: String,
    whole: bool,
}

impl Shown<'_> {
    fn files(mut self, only: Option<&str>) -> Result<(String, bool), Failure> {
        let wanted = |name: &str| only.is_none_or(|only| only == name);
        let protocol_bytes = self.read(PROTOCOL_FILE, limits::PROTOCOL_BYTES);
        let protocol = match bytes::protocol(&protocol_bytes) {
            Ok(protocol) => protocol,
            Err(fault) => {
                self.damaged(PROTOCOL_FILE, &protocol_bytes, &fault);
                return Ok((self.text, false));
            }
        };
        let names = folder_names(self.folder, self.names, &protocol, &protocol_bytes)?;
        if wanted(PROTOCOL_FILE) {
            self.text += &print::protocol(&protocol, &names);
        }
        if wanted(PROPERTY_FILE) && self.folder.join(PROPERTY_FILE).exists() {
            self.property(&protocol, &names);
        }
        let mut kernel = Kernel::new(&protocol_bytes);
        let graph = match wanted(GRAPH_FILE) && self.folder.join(GRAPH_FILE).exists() {
            true => self.graph(&protocol, &names, &mut kernel),
            false => None,
        };
        if wanted(STEPS_FILE) && self.folder.join(STEPS_FILE).exists() {
            self.steps(&protocol, &names, &mut kernel, graph.as_ref());
        }
        Ok((self.text, self.whole))
    }

    fn read(&self, name: &str, limit: usize) -> Vec<u8> {
        read_file(&self.folder.join(name), limit)
    }

    fn property(&mut self, protocol: &Protocol, names: &Names) {
        let bytes = self.read(PROPERTY_FILE, limits::PROPERTY_BYTES);
        match bytes::property(&bytes, protocol) {
            Ok(formula) => {
                self.text += &print::lemma("property", &print::formula(&formula, names));
                self.text += "\n";
            }
            Err(fault) => self.damaged(PROPERTY_FILE, &bytes, &fault),
        }
    }

    fn graph(&mut self, protocol: &Protocol, names: &Names, kernel: &mut Kernel) -> Option<Graph> {
        let bytes = self.read(GRAPH_FILE, limits::GRAPH_BYTES);
        match bytes::graph(&bytes, protocol) {
            Ok(graph) => {
                let (name, edges) = (word(&title(self.folder)), Some(&graph.edges[..]));
                self.text += &print::run(&name, &graph.nodes, edges, names, protocol, kernel);
                Some(graph)
            }
            Err(fault) => {
                self.damaged(GRAPH_FILE, &bytes, &fault);
                None
            }
        }
    }

    /// The steps, where they are not the graph's own.
    fn steps(
        &mut self,
        protocol: &Protocol,
        names: &Names,
        kernel: &mut Kernel,
        graph: Option<&Graph>,
    ) {
        let bytes = self.read(STEPS_FILE, limits::STEPS_BYTES);
        match bytes::steps(&bytes, protocol) {
            Ok(nodes) if graph.is_some_and(|graph| graph.nodes == nodes) => {}
            Ok(nodes) => self.text += &print::run("steps", &nodes, None, names, protocol, kernel),
            Err(fault) => self.damaged(STEPS_FILE, &bytes, &fault),
        }
    }

    fn damaged(&mut self, name: &str, bytes: &[u8], fault: &Fault) {
        self.whole = false;
        self.text += &format!("// {name}, byte {}: {}\n", fault.at, fault.what);
        let from = fault.at.saturating_sub(16) / 16 * 16;
        for start in (from..bytes.len().min(from + 48)).step_by(16) {
            let row = start..bytes.len().min(start + 16);
            let cells: Vec<String> = row.clone().map(|i| format!("{:02X}", bytes[i])).collect();
            self.text += &format!("//   {start:>5}:  {}\n", cells.join(" "));
            if row.contains(&fault.at) {
                let blanks = 3 * (fault.at - start);
                self.text += &format!("//          {}^^\n", " ".repeat(blanks));
            }
        }
    }
}

/// A name that a run can have.
fn word(name: &str) -> String {
    let letters = |c: char| if c.is_alphanumeric() { c } else { '_' };
    let name: String = name.chars().map(letters).collect();
    match name.starts_with(|c: char| c.is_alphabetic() || c == '_') {
        true => name,
        false => format!("g{name}"),
    }
}
