//! The writer: a source for each premise. Cause 14.

use crate::graph::Edge;
use crate::machine::first_failure;
use crate::protocol::Protocol;
use crate::refusal::{refuse, Judged};
use crate::steps::Node;
use std::collections::HashSet;

/// The edges of a run, premises in order, each from the earliest source: the lowest node and then the
/// lowest conclusion that is equal and, if linear, unused.
pub fn edges(protocol: &Protocol, nodes: &[Node]) -> Judged<Vec<Edge>> {
    if let Some(place) = first_failure(protocol, nodes) {
        return refuse(14, place + 1);
    }
    let mut used = HashSet::new();
    let mut edges = Vec::new();
    for (target, node) in (1..).zip(nodes) {
        for (premise, fact) in (1..).zip(&node.premises) {
            let linear = !protocol.persistent(fact);
            let mut earlier = conclusions(&nodes[..target - 1]);
            let source = earlier.find(|(source, conclusion)| {
                let equal = nodes[source - 1].conclusions[conclusion - 1] == *fact;
                equal && !(linear && used.contains(&(*source, *conclusion)))
            });
            let (source, conclusion) = source.expect("a run has a source for each premise");
            used.insert((source, conclusion));
            edges.push(Edge {
                source,
                conclusion,
                target,
                premise,
            });
        }
    }
    Ok(edges)
}

/// The places of all conclusions, node and conclusion, from 1.
fn conclusions(nodes: &[Node]) -> impl Iterator<Item = (usize, usize)> + '_ {
    (1..).zip(nodes).flat_map(|(number, node)| {
        let conclusions = 1..=node.conclusions.len();
        conclusions.map(move |conclusion| (number, conclusion))
    })
}
