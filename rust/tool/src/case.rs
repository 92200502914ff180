//! What is ruled on: the cases of a text, or the one of a folder.

use crate::bytes;
use crate::failure::{tell, Failure, Source};
use crate::fill;
use crate::kernel::{Kernel, Refusal, Ruled, Ruling};
use crate::model::*;
use crate::text::{self, near, Lemma, Run, Theory};
use levtosziv::Cause;
use std::fs::File;
use std::io::Read;
use std::path::Path;

/// Causes whose item is a step that is not drawn.
const OF_A_STEP: [Cause; 4] = [
    Cause::Value,
    Cause::TermTooLarge,
    Cause::NameMadeTwice,
    Cause::NotInState,
];

/// Where the parts of a case stand in a text.
#[derive(Clone, Debug)]
pub struct Places {
    pub source: Source,
    pub rules: Vec<Span>,
    pub nodes: Vec<Span>,
    pub edges: Vec<Span>,
    pub lemma: Span,
}

/// A protocol, a property, and a graph or the refusal to draw one.
#[derive(Clone, Debug)]
pub struct Case {
    /// The run's or folder's name.
    pub title: String,
    /// The lemma's name.
    pub lemma: String,
    /// The formula as a text has it.
    pub as_written: Option<String>,
    pub protocol: Protocol,
    pub names: Names,
    pub formula: Option<Formula>,
    pub graph: Option<Graph>,
    pub nodes: Vec<Node>,
    pub protocol_bytes: Vec<u8>,
    pub property_bytes: Vec<u8>,
    pub graph_bytes: Vec<u8>,
    /// Where the graph is to be drawn.
    pub steps_bytes: Option<Vec<u8>>,
    /// The refusal of drawing, where no graph was drawn.
    pub undrawn: Option<Refusal>,
    pub places: Option<Places>,
}

impl Case {
    pub fn kernel(&self) -> Kernel {
        Kernel::new(&self.protocol_bytes)
    }

    pub fn edges(&self) -> &[Edge] {
        self.graph.as_ref().map_or(&[], |graph| &graph.edges)
    }

    /// The edges to show: where drawing refused a step, those that the core draws of the steps before it.
    pub fn shown_edges(&self) -> Vec<Edge> {
        let Some(refused) = self.refused_step() else {
            return self.edges().to_vec();
        };
        let before = &self.nodes[..refused - 1];
        let drawn = self.kernel().draw(&bytes::encode_steps(before)).ok();
        let graph = drawn.and_then(|bytes| bytes::graph(&bytes, &self.protocol).ok());
        graph.map_or(Vec::new(), |graph| graph.edges)
    }

    /// The step at which drawing refused.
    pub fn refused_step(&self) -> Option<usize> {
        let refusal = self.undrawn?;
        let step = refusal.item as usize;
        let of_a_step = OF_A_STEP.iter().any(|c| *c as u32 == refusal.number);
        (of_a_step && (1..=self.nodes.len()).contains(&step)).then_some(step)
    }

    /// The core's answer.
    pub fn ruling(&self) -> Ruled {
        let drawn = match self.undrawn {
            None => Ok(&self.graph_bytes[..]),
            Some(refusal) => Err(refusal),
        };
        self.kernel().check_drawn(&self.property_bytes, drawn)
    }
}

/// The answer as the report program prints it.
pub fn line(ruling: &Ruled) -> String {
    match ruling {
        Ok(Ruling::Attack(c)) => format!("attack {} {} {}", c.nodes, c.with_action, c.edges),
        Ok(Ruling::Run(c)) => format!("run {} {} {}", c.nodes, c.with_action, c.edges),
        Err(refusal) => refusal_line(refusal),
    }
}

/// The answer's word.
pub fn word(ruling: &Ruled) -> &'static str {
    match ruling {
        Ok(Ruling::Attack(_)) => "attack",
        Ok(Ruling::Run(_)) => "run",
        Err(_) => "refused",
    }
}

pub fn refusal_line(refusal: &Refusal) -> String {
    format!("refused {} {}", refusal.number, refusal.item)
}

/// A longer text is not read.
const MOST_TEXT: u64 = 16 << 20;

/// A text with its theory.
pub fn read_theory(path: &Path) -> Result<(Source, Theory), Failure> {
    let unread = |e: std::io::Error| Failure::file(path, e);
    let mut bytes = Vec::new();
    let file = File::open(path).map_err(unread)?;
    file.take(MOST_TEXT + 1)
        .read_to_end(&mut bytes)
        .map_err(unread)?;
    if bytes.len() as u64 > MOST_TEXT {
        let message = format!("{}: a text has at most {MOST_TEXT} bytes", path.display());
        return Err(Failure::File(message));
    }
    let name = path.display().to_string();
    let (text, invalid) = match String::from_utf8(bytes) {
        Ok(text) => (text, None),
        Err(e) => {
            let at = e.utf8_error().valid_up_to();
            (String::from_utf8_lossy(e.as_bytes()).into_owned(), Some(at))
        }
    };
    let source = Source { name, text };
    let parsed = match invalid {
        None => text::parse(&source.text),
        Some(at) => text::not_utf8(at),
    };
    match parsed {
        Ok(theory) => Ok((source, theory)),
        Err(error) => Err(Failure::Text(Box::new((source, error)))),
    }
}

/// Which of a text's lemmas and runs are asked for.
#[derive(Clone, Debug, Default)]
pub struct Choice {
    pub lemma: Option<String>,
    pub run: Option<String>,
}

fn chosen<'a, T>(
    all: &'a [T],
    what: &str,
    wanted: &Option<String>,
    name: impl Fn(&T) -> &str,
) -> Result<Vec<&'a T>, Failure> {
    let found = all.iter().filter(|item| match wanted {
        Some(wanted) => name(item) == wanted,
        None => true,
    });
    let found: Vec<&T> = found.collect();
    match wanted {
        Some(wanted) if found.is_empty() => {
            let hint = near(wanted, all.iter().map(&name));
            let message = format!("there is no {what} `{wanted}` {hint}");
            Err(Failure::Arguments(message.trim_end().into()))
        }
        _ => Ok(found),
    }
}

pub fn chosen_runs<'a>(theory: &'a Theory, choice: &Choice) -> Result<Vec<&'a Run>, Failure> {
    chosen(&theory.runs, "run or graph", &choice.run, |run| &run.name)
}

pub fn chosen_lemmas<'a>(theory: &'a Theory, choice: &Choice) -> Result<Vec<&'a Lemma>, Failure> {
    chosen(&theory.lemmas, "lemma", &choice.lemma, |lemma| &lemma.name)
}

/// A run with its steps filled in, and its graph drawn or given.
pub struct Drawn {
    pub name: String,
    pub nodes: Vec<Node>,
    pub node_spans: Vec<Span>,
    pub steps_bytes: Option<Vec<u8>>,
    pub graph: Result<Vec<u8>, Refusal>,
    pub edge_spans: Vec<Span>,
}

/// The graph of a run, drawn by the core unless the text gives its edges.
pub fn drawn(run: &Run, theory: &Theory, kernel: &mut Kernel) -> Drawn {
    let (nodes, node_spans) = fill::nodes(run, theory, kernel);
    let edges = run.edges.as_ref();
    let edge_spans = edges.map_or(Vec::new(), |e| e.iter().map(|(_, s)| s.clone()).collect());
    let (steps_bytes, graph) = match edges {
        Some(edges) => {
            let graph = Graph {
                nodes: nodes.clone(),
                edges: edges.iter().map(|(edge, _)| *edge).collect(),
            };
            (None, Ok(bytes::encode_graph(&graph)))
        }
        None => {
            let steps = bytes::encode_steps(&nodes);
            let graph = kernel.draw(&steps);
            (Some(steps), graph)
        }
    };
    Drawn {
        name: run.name.clone(),
        nodes,
        node_spans,
        steps_bytes,
        graph,
        edge_spans,
    }
}

/// The cases of a text file, each run with each lemma; or the one of a folder.
pub fn cases(input: &Path, choice: &Choice, names: Option<&Path>) -> Result<Vec<Case>, Failure> {
    if input.is_dir() {
        return Ok(vec![folder_case(input, names)?]);
    }
    let (source, theory) = read_theory(input)?;
    let (lemmas, runs) = (
        chosen_lemmas(&theory, choice)?,
        chosen_runs(&theory, choice)?,
    );
    for (empty, what) in [
        (lemmas.is_empty(), "lemma"),
        (runs.is_empty(), "run or graph"),
    ] {
        if empty {
            let message = format!("{}: there is no {what} to rule on", source.name);
            return Err(Failure::Arguments(message));
        }
    }
    let protocol_bytes = bytes::encode_protocol(&theory.protocol);
    let mut kernel = Kernel::new(&protocol_bytes);
    let mut all = Vec::new();
    for run in runs {
        let drawn = drawn(run, &theory, &mut kernel);
        for lemma in &lemmas {
            all.push(text_case(&source, &theory, &protocol_bytes, &drawn, lemma));
        }
    }
    Ok(all)
}

fn text_case(
    source: &Source,
    theory: &Theory,
    protocol_bytes: &[u8],
    drawn: &Drawn,
    lemma: &Lemma,
) -> Case {
    let graph_bytes = drawn.graph.clone().unwrap_or_default();
    Case {
        title: drawn.name.clone(),
        lemma: lemma.name.clone(),
        as_written: Some(lemma.text.clone()),
        protocol: theory.protocol.clone(),
        names: theory.names.clone(),
        formula: Some(lemma.formula.clone()),
        graph: bytes::graph(&graph_bytes, &theory.protocol).ok(),
        nodes: drawn.nodes.clone(),
        protocol_bytes: protocol_bytes.to_vec(),
        property_bytes: bytes::encode_property(&lemma.formula),
        graph_bytes,
        steps_bytes: drawn.steps_bytes.clone(),
        undrawn: drawn.graph.clone().err(),
        places: Some(Places {
            source: source.clone(),
            rules: theory.rule_spans.clone(),
            nodes: drawn.node_spans.clone(),
            edges: drawn.edge_spans.clone(),
            lemma: lemma.span.clone(),
        }),
    }
}

/// A run as a case that is only drawn.
pub fn case_without_property(
    source: &Source,
    theory: &Theory,
    protocol_bytes: &[u8],
    drawn: &Drawn,
) -> Case {
    let none = Lemma {
        name: String::new(),
        span: 0..0,
        text: String::new(),
        formula: Formula::False,
    };
    Case {
        formula: None,
        property_bytes: Vec::new(),
        as_written: None,
        ..text_case(source, theory, protocol_bytes, drawn, &none)
    }
}

/// A folder's steps as a case that is only drawn.
pub fn steps_case(folder: &Path, names: Option<&Path>) -> Result<Case, Failure> {
    let protocol_bytes = read_file(&folder.join(PROTOCOL_FILE), limits::PROTOCOL_BYTES);
    let protocol = bytes::protocol(&protocol_bytes).unwrap_or_default();
    let steps = read_file(&folder.join(STEPS_FILE), limits::STEPS_BYTES);
    let drawn = Kernel::new(&protocol_bytes).draw(&steps);
    let graph_bytes = drawn.clone().unwrap_or_default();
    Ok(Case {
        title: title(folder),
        lemma: String::new(),
        as_written: None,
        names: folder_names(folder, names, &protocol, &protocol_bytes)?,
        formula: None,
        graph: bytes::graph(&graph_bytes, &protocol).ok(),
        nodes: bytes::steps(&steps, &protocol).unwrap_or_default(),
        protocol,
        protocol_bytes,
        property_bytes: Vec::new(),
        graph_bytes,
        steps_bytes: Some(steps),
        undrawn: drawn.err(),
        places: None,
    })
}

pub const PROTOCOL_FILE: &str = "protocol.bin";
pub const PROPERTY_FILE: &str = "property.bin";
pub const STEPS_FILE: &str = "steps.bin";
pub const GRAPH_FILE: &str = "graph.bin";
/// The text that `build` puts beside the bytes.
pub const THEORY_FILE: &str = "theory.lev";

/// Appends a file's bytes, one over its limit at most.
pub fn append_file(path: &Path, limit: usize, bytes: &mut Vec<u8>) -> std::io::Result<()> {
    let file = File::open(path)?;
    file.take(limit as u64 + 1).read_to_end(bytes)?;
    Ok(())
}

/// A file's bytes. "A file that cannot be opened counts as empty."
pub fn read_file(path: &Path, limit: usize) -> Vec<u8> {
    let mut bytes = Vec::new();
    // What was read before an error is what the file has.
    let _ = append_file(path, limit, &mut bytes);
    bytes
}

/// The names of a text whose protocol has the very bytes of the folder's; made up where there is none.
pub fn folder_names(
    folder: &Path,
    names: Option<&Path>,
    protocol: &Protocol,
    protocol_bytes: &[u8],
) -> Result<Names, Failure> {
    let beside = folder.join(THEORY_FILE);
    let Some(path) = names.or(beside.exists().then_some(&*beside)) else {
        return Ok(Names::generated(protocol));
    };
    let message = match read_theory(path) {
        Ok((_, theory)) if bytes::encode_protocol(&theory.protocol) == protocol_bytes => {
            return Ok(theory.names);
        }
        Ok(_) => format!(
            "{}: this is another protocol than {}, so its names are not used",
            path.display(),
            folder.join(PROTOCOL_FILE).display()
        ),
        Err(failure) if names.is_some() => return Err(failure),
        Err(failure) => format!("{}; so the names of this text are not used", failure.line()),
    };
    if names.is_some() {
        return Err(Failure::File(message));
    }
    tell(&format!("note: {message}"));
    Ok(Names::generated(protocol))
}

fn folder_case(folder: &Path, names: Option<&Path>) -> Result<Case, Failure> {
    let read = |name: &str, limit| read_file(&folder.join(name), limit);
    let protocol_bytes = read(PROTOCOL_FILE, limits::PROTOCOL_BYTES);
    let property_bytes = read(PROPERTY_FILE, limits::PROPERTY_BYTES);
    let mut graph_bytes = read(GRAPH_FILE, limits::GRAPH_BYTES);
    let protocol = bytes::protocol(&protocol_bytes).unwrap_or_default();
    let mut undrawn = None;
    let mut steps_bytes = None;
    if !folder.join(GRAPH_FILE).exists() && folder.join(STEPS_FILE).exists() {
        let steps = read(STEPS_FILE, limits::STEPS_BYTES);
        match Kernel::new(&protocol_bytes).draw(&steps) {
            Ok(bytes) => graph_bytes = bytes,
            Err(refusal) => undrawn = Some(refusal),
        }
        steps_bytes = Some(steps);
    }
    let graph = bytes::graph(&graph_bytes, &protocol).ok();
    let steps = || bytes::steps(steps_bytes.as_deref()?, &protocol).ok();
    let nodes = graph
        .as_ref()
        .map(|graph| graph.nodes.clone())
        .or_else(steps);
    Ok(Case {
        title: title(folder),
        lemma: "property".into(),
        as_written: None,
        names: folder_names(folder, names, &protocol, &protocol_bytes)?,
        formula: bytes::property(&property_bytes, &protocol).ok(),
        nodes: nodes.unwrap_or_default(),
        protocol,
        graph,
        protocol_bytes,
        property_bytes,
        graph_bytes,
        steps_bytes,
        undrawn,
        places: None,
    })
}

/// A folder's own name.
pub fn title(folder: &Path) -> String {
    let whole = folder.canonicalize().unwrap_or(folder.to_path_buf());
    let name = whole
        .file_name()
        .map(|name| name.to_string_lossy().into_owned());
    name.unwrap_or_else(|| "graph".into())
}
