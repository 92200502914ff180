//! Edges, and what an accepted graph has: causes 10 to 13.

use crate::number::{self, Read, Reader};
use crate::protocol::{Fact, Protocol};
use crate::refusal::{refuse_first, Judged};
use crate::steps::Node;

pub const MOST_EDGES: u32 = 4_096;

/// "each source node, conclusion, target node, premise, all from 1"
#[derive(Clone, Copy, Debug, PartialEq, Eq)]
pub struct Edge {
    pub source: usize,
    pub conclusion: usize,
    pub target: usize,
    pub premise: usize,
}

pub fn read_edges(reader: &mut Reader) -> Read<Vec<Edge>> {
    reader.counted(MOST_EDGES, |reader| {
        let mut field = || Ok(reader.number()? as usize);
        Ok(Edge {
            source: field()?,
            conclusion: field()?,
            target: field()?,
            premise: field()?,
        })
    })
}

pub fn write_edges(edges: &[Edge], bytes: &mut Vec<u8>) {
    number::write(edges.len() as u32, bytes);
    for edge in edges {
        for field in [edge.source, edge.conclusion, edge.target, edge.premise] {
            number::write(field as u32, bytes);
        }
    }
}

/// The item of a number that counts from 1.
fn item<T>(items: &[T], number: usize) -> Option<&T> {
    items.get(number.checked_sub(1)?)
}

impl Edge {
    fn source_fact<'a>(&self, nodes: &'a [Node]) -> Option<&'a Fact> {
        item(&item(nodes, self.source)?.conclusions, self.conclusion)
    }

    fn target_fact<'a>(&self, nodes: &'a [Node]) -> Option<&'a Fact> {
        item(&item(nodes, self.target)?.premises, self.premise)
    }
}

/// "An accepted graph has: each edge from an earlier node, its two facts equal; just one edge into each
/// premise; at most one out of each linear conclusion; no name made twice." The names are looked at
/// before (cause 9).
pub fn accept(protocol: &Protocol, nodes: &[Node], edges: &[Edge]) -> Judged<()> {
    refuse_first(10, edges, |edge| {
        let missing = edge.source_fact(nodes).is_none() || edge.target_fact(nodes).is_none();
        missing || edge.source >= edge.target
    })?;
    refuse_first(11, edges, |edge| {
        edge.source_fact(nodes) != edge.target_fact(nodes)
    })?;

    let count = |test: &dyn Fn(&Edge) -> bool| edges.iter().filter(|edge| test(edge)).count();
    let into = |place| count(&|edge| (edge.target, edge.premise) == place);
    let out_of = |place| count(&|edge| (edge.source, edge.conclusion) == place);
    let numbered: Vec<(usize, &Node)> = (1..).zip(nodes).collect();
    refuse_first(12, &numbered, |(number, node)| {
        let mut premises = 1..=node.premises.len();
        premises.any(|premise| into((*number, premise)) != 1)
    })?;
    refuse_first(13, &numbered, |(number, node)| {
        let mut conclusions = (1..).zip(&node.conclusions);
        conclusions.any(|(conclusion, fact)| {
            !protocol.persistent(fact) && out_of((*number, conclusion)) > 1
        })
    })
}
