//! The exported calls: outcome, output and work area, as the refusal table says.

use crate::canonical;
use crate::graph::{accept, read_edges, write_edges, Edge};
use crate::judge::holds;
use crate::number::{Fault, Read, Reader};
use crate::property;
use crate::protocol::{Fact, Protocol};
use crate::refusal::{refuse, refuse_first, File, Judged, Refusal};
use crate::steps::{names_made_once, nodes, read_steps, Node, MOST_FILLED_IN_SYMBOLS};
use crate::term::{Prefix, Term};
use crate::writer;
use std::fmt;

/// "The work area is short below 65,536 bytes and never otherwise".
pub const WORK_AREA: usize = 65_536;

/// "then nodes, nodes with an action, edges"
#[derive(Clone, Copy, Debug, PartialEq, Eq, Hash)]
pub struct Counts {
    pub nodes: u32,
    pub with_action: u32,
    pub edges: u32,
}

#[derive(Clone, Copy, Debug, PartialEq, Eq, Hash)]
pub enum Outcome {
    Refused(Refusal),
    Attack(Counts),
    Run(Counts),
    /// A length.
    Written(u32),
}

/// The program's line, without its line feed; after drawing and canonical form the length written.
impl fmt::Display for Outcome {
    fn fmt(&self, line: &mut fmt::Formatter) -> fmt::Result {
        let (word, counts) = match self {
            Outcome::Refused(refusal) => {
                return write!(line, "refused {} {}", refusal.number, refusal.item)
            }
            Outcome::Written(length) => return write!(line, "written {length}"),
            Outcome::Attack(counts) => ("attack", counts),
            Outcome::Run(counts) => ("run", counts),
        };
        let Counts {
            nodes,
            with_action,
            edges,
        } = counts;
        write!(line, "{word} {nodes} {with_action} {edges}")
    }
}

/// "Checking returns the ruling and the line's three counts."
pub fn check(protocol: &[u8], property: &[u8], graph: &[u8], work: &mut [u8]) -> Outcome {
    with_work_area(work, || {
        File::Protocol.within_limit(protocol)?;
        File::Property.within_limit(property)?;
        File::Graph.within_limit(graph)?;
        let protocol = fit_protocol(protocol)?;
        let property = fit_property(property, &protocol)?;
        ruling(&protocol, &property, graph)
    })
}

/// "Drawing reads protocol and steps, no property, and returns the length written; its graph starts the
/// output and holds the steps' node bytes unchanged."
pub fn draw(protocol: &[u8], steps: &[u8], output: &mut [u8], work: &mut [u8]) -> Outcome {
    with_work_area(work, || {
        File::Protocol.within_limit(protocol)?;
        File::Steps.within_limit(steps)?;
        let protocol = fit_protocol(protocol)?;
        write_out(&drawn(&protocol, steps)?, output)
    })
}

/// "Canonical form reads protocol and term, writes the canonical term's bytes from the start of the
/// output and returns their length."
pub fn canonical_form(protocol: &[u8], term: &[u8], output: &mut [u8], work: &mut [u8]) -> Outcome {
    with_work_area(work, || {
        File::Protocol.within_limit(protocol)?;
        File::Term.within_limit(term)?;
        let protocol = fit_protocol(protocol)?;
        let term = term_of_file(&protocol, term)?;
        write_out(&canonical::canonical_form(&term).encoded(), output)
    })
}

/// Cause 1, and what becomes of the work area: "After every call but refusal 1 it is all zeros."
fn with_work_area(work: &mut [u8], call: impl FnOnce() -> Judged<Outcome>) -> Outcome {
    if work.len() < WORK_AREA {
        return Outcome::Refused(Refusal { number: 1, item: 0 });
    }
    let answer = call();
    work.fill(0);
    answer.unwrap_or_else(Outcome::Refused)
}

/// Cause 15; "Output past what was written never changes."
fn write_out(bytes: &[u8], output: &mut [u8]) -> Judged<Outcome> {
    if output.len() < bytes.len() {
        return refuse(15, bytes.len());
    }
    output[..bytes.len()].copy_from_slice(bytes);
    Ok(Outcome::Written(bytes.len() as u32))
}

/// Causes 3 and 4.
pub fn fit_protocol(bytes: &[u8]) -> Judged<Protocol> {
    let protocol = File::Protocol.layout(Protocol::read(bytes))?;
    refuse_first(4, &protocol.rules, |rule| !rule.meets_conditions())?;
    Ok(protocol)
}

/// Causes 3 and 5.
pub fn fit_property(bytes: &[u8], protocol: &Protocol) -> Judged<property::Formula> {
    let property = File::Property.layout(property::read(bytes, protocol))?;
    if !property.is_fit(&[]) {
        return refuse(5, 0);
    }
    Ok(property)
}

/// "then the graph front to back for 3 and 6, then 7 to 13": the nodes and edges of an accepted graph.
pub fn ruled_graph(protocol: &Protocol, graph: &[u8]) -> Judged<(Vec<Node>, Vec<Edge>)> {
    let mut reader = Reader::new(graph);
    let steps = read_steps(File::Graph, &mut reader, protocol)?;
    let edges = File::Graph.layout(read_edges(&mut reader))?;
    File::Graph.layout(reader.finish())?;
    let nodes = nodes(&steps)?;
    names_made_once(&nodes)?;
    accept(protocol, &nodes, &edges)?;
    Ok((nodes, edges))
}

/// The graph, and the property over its trace.
fn ruling(protocol: &Protocol, property: &property::Formula, graph: &[u8]) -> Judged<Outcome> {
    let (nodes, edges) = ruled_graph(protocol, graph)?;
    let trace: Vec<&[Fact]> = nodes.iter().map(|node| &node.actions[..]).collect();
    let with_action = trace.iter().filter(|actions| !actions.is_empty()).count();
    let counts = Counts {
        nodes: nodes.len() as u32,
        with_action: with_action as u32,
        edges: edges.len() as u32,
    };
    if holds(&trace, &[], property) {
        Ok(Outcome::Run(counts))
    } else {
        Ok(Outcome::Attack(counts))
    }
}

/// "steps 3 and 6, 7, 8, 9"
pub fn ruled_steps(protocol: &Protocol, steps: &[u8]) -> Judged<Vec<Node>> {
    let mut reader = Reader::new(steps);
    let list = read_steps(File::Steps, &mut reader, protocol)?;
    File::Steps.layout(reader.finish())?;
    let nodes = nodes(&list)?;
    names_made_once(&nodes)?;
    Ok(nodes)
}

/// The graph; cause 14.
pub fn drawn(protocol: &Protocol, steps: &[u8]) -> Judged<Vec<u8>> {
    let nodes = ruled_steps(protocol, steps)?;
    let mut graph = steps.to_vec();
    write_edges(&writer::edges(protocol, &nodes)?, &mut graph);
    Ok(graph)
}

/// "a variable there or a term past 256 symbols is 3 or 8 respectively"
fn term_of_file(protocol: &Protocol, bytes: &[u8]) -> Judged<Term> {
    let prefix = File::Term.layout(read_term_file(protocol, bytes))?;
    if prefix.symbols() > MOST_FILLED_IN_SYMBOLS {
        return refuse(8, 0);
    }
    Ok(prefix.tree())
}

/// "one term without variables"
fn read_term_file(protocol: &Protocol, bytes: &[u8]) -> Read<Prefix> {
    let mut reader = Reader::new(bytes);
    let prefix = Prefix::read(&mut reader, &protocol.signature)?;
    reader.finish()?;
    if prefix.has_variable() {
        return Err(Fault);
    }
    Ok(prefix)
}
