//! The cases under `tests/cases`, their expected text, and their bytes for the test programs.
//!
//! A line is empty, a comment (`#` first), or a case: fields apart by ` | `.
//!
//! - bytes.txt: `number | LABEL | BYTES` and `term | LABEL | ARITIES | BYTES`
//! - messages.txt: `LABEL | ARITIES | BYTES`
//! - steps.txt, facts.txt, graphs.txt, draws.txt and terms.txt: `LABEL | PROTOCOL | BYTES`
//! - properties.txt: `LABEL | PROTOCOL | PROPERTY | STEPS`
//! - checks.txt: `LABEL | PROTOCOL | PROPERTY | GRAPH`
//!
//! ARITIES are those of the free functions, in decimal, free function 0 first; PROTOCOL, BYTES, PROPERTY and
//! STEPS are bytes as `notation::bytes` reads them. Each may be empty. A case's number is its place among the
//! cases of its file, from 1.

use crate::calls::{self, drawn, fit_property, fit_protocol, ruled_graph, ruled_steps, Outcome};
use crate::canonical::canonical_form;
use crate::generate::canonical::LONGEST_TERM;
use crate::graph::Edge;
use crate::judge::holds;
use crate::notation;
use crate::number::{Read, Reader};
use crate::property::Formula;
use crate::protocol::Fact;
use crate::refusal::{File, Judged};
use crate::steps::Node;
use crate::term::{Prefix, Public, Signature, Term};

/// A canonical form of more symbols, and more edges, are not told in words.
const MOST_SHOWN: usize = 20;

/// What is asked of the bytes.
#[derive(Clone, Copy, Debug, PartialEq, Eq)]
pub enum Kind {
    Number,
    Term,
    Message,
    Steps,
    Facts,
    Graph,
    Draw,
    TermFile,
    Property,
    Check,
}

#[derive(Clone, Debug)]
pub struct Case {
    pub kind: Kind,
    pub label: String,
    /// What the bytes are read under: the arity of each free function, or of nodes the protocol file.
    pub under: Vec<u8>,
    /// Of a property and of a check: the length of the property's file, two bytes, low byte first; that file; the step list or the graph.
    pub bytes: Vec<u8>,
}

/// The cases of bytes.txt.
pub fn bytes_cases(text: &str) -> Vec<Case> {
    let case = |fields: &[&str]| match fields {
        ["number", label, bytes] => case(Kind::Number, label, vec![], bytes),
        ["term", label, arities, bytes] => case(Kind::Term, label, decimal(arities), bytes),
        _ => panic!("no case: {fields:?}"),
    };
    lines(text).map(|fields| case(&fields)).collect()
}

/// The cases of messages.txt.
pub fn message_cases(text: &str) -> Vec<Case> {
    let case = |fields: &[&str]| match fields {
        [label, arities, bytes] => case(Kind::Message, label, decimal(arities), bytes),
        _ => panic!("no case: {fields:?}"),
    };
    lines(text).map(|fields| case(&fields)).collect()
}

/// The cases of steps.txt.
pub fn steps_cases(text: &str) -> Vec<Case> {
    under_protocols(Kind::Steps, text)
}

/// The cases of facts.txt.
pub fn facts_cases(text: &str) -> Vec<Case> {
    under_protocols(Kind::Facts, text)
}

/// The cases of graphs.txt.
pub fn graphs_cases(text: &str) -> Vec<Case> {
    under_protocols(Kind::Graph, text)
}

/// The cases of draws.txt.
pub fn draws_cases(text: &str) -> Vec<Case> {
    under_protocols(Kind::Draw, text)
}

/// The cases of terms.txt.
pub fn terms_cases(text: &str) -> Vec<Case> {
    under_protocols(Kind::TermFile, text)
}

/// The cases of properties.txt.
pub fn properties_cases(text: &str) -> Vec<Case> {
    let case = |fields: &[&str]| match fields {
        [label, protocol, property, steps] => property_case(
            label,
            notation::bytes(protocol),
            &notation::bytes(property),
            &notation::bytes(steps),
        ),
        _ => panic!("no case: {fields:?}"),
    };
    lines(text).map(|fields| case(&fields)).collect()
}

/// The cases of checks.txt.
pub fn checks_cases(text: &str) -> Vec<Case> {
    let mut cases = properties_cases(text);
    cases.iter_mut().for_each(|case| case.kind = Kind::Check);
    cases
}

/// A property over a step list, under a protocol.
pub fn property_case(label: &str, protocol: Vec<u8>, property: &[u8], steps: &[u8]) -> Case {
    Case {
        kind: Kind::Property,
        label: label.to_string(),
        under: protocol,
        bytes: [&with_length(property), steps].concat(),
    }
}

/// Bytes behind their length: two bytes, low byte first.
fn with_length(bytes: &[u8]) -> Vec<u8> {
    let length = u16::try_from(bytes.len()).expect("a length of two bytes");
    [&length.to_le_bytes(), bytes].concat()
}

/// Step lists or graphs, each under its protocol.
fn under_protocols(kind: Kind, text: &str) -> Vec<Case> {
    let case = |fields: &[&str]| match fields {
        [label, protocol, bytes] => case(kind, label, notation::bytes(protocol), bytes),
        _ => panic!("no case: {fields:?}"),
    };
    lines(text).map(|fields| case(&fields)).collect()
}

fn lines(text: &str) -> impl Iterator<Item = Vec<&str>> {
    let cases = text
        .lines()
        .filter(|line| !line.trim().is_empty() && !line.starts_with('#'));
    cases.map(|line| line.split('|').map(str::trim).collect())
}

fn case(kind: Kind, label: &str, under: Vec<u8>, bytes: &str) -> Case {
    Case {
        kind,
        label: label.to_string(),
        under,
        bytes: notation::bytes(bytes),
    }
}

fn decimal(arities: &str) -> Vec<u8> {
    let arity = |word: &str| word.parse().expect("an arity in decimal");
    arities.split_whitespace().map(arity).collect()
}

impl Case {
    /// The free functions of a term or a message.
    pub fn signature(&self) -> Signature {
        Signature {
            free: self.under.iter().map(|arity| *arity as usize).collect(),
        }
    }

    /// The expected outcome, without the case's number.
    pub fn outcome(&self) -> String {
        let outcome = match self.kind {
            Kind::Number => self.number(),
            Kind::Term => self.term(),
            Kind::Message => self.message(),
            Kind::Steps => Ok(said(self.nodes(), |nodes| format!("good {}", nodes.len()))),
            Kind::Facts => Ok(said(self.nodes(), |nodes| same_facts(&nodes))),
            Kind::Graph => Ok(said(self.graph(), |(nodes, edges)| {
                format!("good {} {}", nodes.len(), edges.len())
            })),
            Kind::Draw => Ok(said(self.drawn_edges(), |drawn| drawn)),
            Kind::TermFile => Ok(self.written()),
            Kind::Check => Ok(self.checked().to_string()),
            Kind::Property => Ok(said(self.property(), |(property, nodes)| {
                truth(&property, &nodes)
            })),
        };
        outcome.unwrap_or_else(|_| "fault".to_string())
    }

    fn number(&self) -> Read<String> {
        let mut reader = Reader::new(&self.bytes);
        let number = reader.number()?;
        Ok(format!("value {number} next {}", reader.at()))
    }

    fn term(&self) -> Read<String> {
        let mut reader = Reader::new(&self.bytes);
        let prefix = Prefix::read(&mut reader, &self.signature())?;
        Ok(format!("end {} symbols {}", reader.at(), prefix.symbols()))
    }

    fn message(&self) -> Read<String> {
        let mut reader = Reader::new(&self.bytes);
        let prefix = Prefix::read(&mut reader, &self.signature())?;
        reader.finish()?;
        Ok(hexadecimal(&canonical_form(&prefix.tree()).encoded()))
    }

    /// The nodes of a step list.
    pub fn nodes(&self) -> Judged<Vec<Node>> {
        ruled_steps(&fit_protocol(&self.under)?, &self.bytes)
    }

    /// The nodes and edges of a graph.
    pub fn graph(&self) -> Judged<(Vec<Node>, Vec<Edge>)> {
        ruled_graph(&fit_protocol(&self.under)?, &self.bytes)
    }

    /// The graph that is drawn of a step list.
    pub fn drawn(&self) -> Judged<Vec<u8>> {
        File::Protocol.within_limit(&self.under)?;
        File::Steps.within_limit(&self.bytes)?;
        drawn(&fit_protocol(&self.under)?, &self.bytes)
    }

    /// What the call check answers.
    pub fn checked(&self) -> Outcome {
        let (property, graph) = self.property_and_nodes();
        calls::check(&self.under, property, graph, &mut [0; calls::WORK_AREA])
    }

    /// Its length, and its edges where they are few.
    fn drawn_edges(&self) -> Judged<String> {
        let graph = self.drawn()?;
        let (_, edges) = ruled_graph(&fit_protocol(&self.under)?, &graph)?;
        let end = |node: usize, place: usize| format!("{node}.{place}");
        let words = edges.iter().map(|edge| {
            let source = end(edge.source, edge.conclusion);
            format!("{source}-{}", end(edge.target, edge.premise))
        });
        let words: Vec<String> = words.collect();
        let length = format!("written {}", graph.len());
        Ok(match words.len() {
            1..=MOST_SHOWN => format!("{length}, {}", words.join(" ")),
            _ => length,
        })
    }

    /// What the call canonical form answers, with as much output as it may need, and what it writes.
    pub fn canonical_form(&self) -> (Outcome, Vec<u8>) {
        let (mut output, mut work) = (vec![0; LONGEST_TERM], vec![0; calls::WORK_AREA]);
        let outcome = calls::canonical_form(&self.under, &self.bytes, &mut output, &mut work);
        if let Outcome::Written(length) = outcome {
            output.truncate(length as usize);
        }
        (outcome, output)
    }

    /// The outcome of a term file, and the canonical form in words where it is short.
    fn written(&self) -> String {
        let (outcome, form) = self.canonical_form();
        let Outcome::Written(_) = outcome else {
            return outcome.to_string();
        };
        let protocol = fit_protocol(&self.under).expect("a fit protocol");
        let prefix = Prefix::read(&mut Reader::new(&form), &protocol.signature);
        let prefix = prefix.expect("a term");
        match prefix.symbols() {
            0..=MOST_SHOWN => format!("{outcome}, {}", notation::show(&prefix.tree())),
            _ => outcome.to_string(),
        }
    }

    /// The files of a property and of a step list or a graph.
    pub fn property_and_nodes(&self) -> (&[u8], &[u8]) {
        let (length, files) = self.bytes.split_at(2);
        files.split_at(usize::from(u16::from_le_bytes([length[0], length[1]])))
    }

    /// A property, and the nodes of a step list.
    pub fn property(&self) -> Judged<(Formula, Vec<Node>)> {
        let (property, steps) = self.property_and_nodes();
        let protocol = fit_protocol(&self.under)?;
        let property = fit_property(property, &protocol)?;
        Ok((property, ruled_steps(&protocol, steps)?))
    }

    /// The case for a test program: 0 for a number, 1 for a term or a message, 2 for a step list, 3 for a
    /// graph, 4 for a property; the length of what it is read under, and that; the length of the bytes, and
    /// the bytes.
    pub fn data(&self) -> Vec<u8> {
        let mut data = vec![match self.kind {
            Kind::Number => 0,
            Kind::Term | Kind::Message => 1,
            Kind::Steps | Kind::Facts | Kind::Draw => 2,
            Kind::Graph => 3,
            Kind::Property => 4,
            Kind::TermFile | Kind::Check => panic!("no test program makes this call"),
        }];
        for part in [&self.under, &self.bytes] {
            data.extend(with_length(part));
        }
        data
    }
}

/// What is said of what is good, or the refusal.
fn said<T>(judged: Judged<T>, say: impl Fn(T) -> String) -> String {
    match judged {
        Ok(good) => say(good),
        Err(refusal) => Outcome::Refused(refusal).to_string(),
    }
}

/// The actions of each node.
pub fn trace(nodes: &[Node]) -> Vec<&[Fact]> {
    nodes.iter().map(|node| &node.actions[..]).collect()
}

/// Whether the trace of the nodes makes the property true, and how many of them have an action.
fn truth(property: &Formula, nodes: &[Node]) -> String {
    let trace = trace(nodes);
    let with_action = trace.iter().filter(|actions| !actions.is_empty()).count();
    format!("{} {with_action}", holds(&trace, &[], property))
}

/// The facts of all nodes: node by node, premises, actions, conclusions, each list in its order.
pub fn facts(nodes: &[Node]) -> Vec<&Fact> {
    let lists = nodes
        .iter()
        .flat_map(|node| [&node.premises, &node.actions, &node.conclusions]);
    lists.flatten().collect()
}

/// For each fact the number of the first one that is the same; a bar; for each argument of these facts the
/// number of the first one that is the same message; a bar; for each argument which public name it is.
fn same_facts(nodes: &[Node]) -> String {
    let facts = facts(nodes);
    let arguments: Vec<&Term> = facts.iter().flat_map(|fact| &fact.terms).collect();
    let bar = || vec!["|".to_string()];
    let names = arguments.iter().map(|term| public_name(term).to_string());
    let words = [
        firsts(&facts),
        bar(),
        firsts(&arguments),
        bar(),
        names.collect(),
    ];
    words.concat().join(" ")
}

/// For each item the number, from 1, of the first one that equals it.
fn firsts<T: PartialEq>(items: &[T]) -> Vec<String> {
    let first = |item| items.iter().position(|other| other == item);
    let numbers = items.iter().map(|item| first(item).expect("itself") + 1);
    numbers.map(|number| number.to_string()).collect()
}

/// Which of the public names 0, 128 and 16,384 a message is, from 1; 0 for any other message.
fn public_name(message: &Term) -> usize {
    let names = [0, 128, 16_384].map(|number| Term::Public(Public(number)));
    names
        .iter()
        .position(|name| name == message)
        .map_or(0, |place| place + 1)
}

/// The expected text: a line for each case, its number and its outcome.
pub fn expected(cases: &[Case]) -> String {
    let numbered = cases.iter().zip(1..);
    numbered
        .map(|(case, number)| format!("{number} {}\n", case.outcome()))
        .collect()
}

/// The bytes of all cases, one after another.
pub fn data(cases: &[Case]) -> Vec<u8> {
    cases.iter().flat_map(Case::data).collect()
}

/// Two capital digits for each byte, a blank between two bytes.
pub fn hexadecimal(bytes: &[u8]) -> String {
    let digits: Vec<String> = bytes.iter().map(|byte| format!("{byte:02X}")).collect();
    digits.join(" ")
}
