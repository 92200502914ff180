//! The earliest source by the words of document 02 alone, asked of any edges: no source is chosen here, and no code is shared with
//! `writer`.

use crate::graph::Edge;
use crate::protocol::{Fact, Protocol};
use crate::steps::Node;

/// A conclusion: its node and its number there, both from 1.
pub type Source = (usize, usize);

/// "For each premise, nodes in order and premises in order, the writer takes the lowest node and then the lowest conclusion that is equal
/// and, if linear, still unused. Edges are written in that order of premises."
pub fn is_earliest(protocol: &Protocol, nodes: &[Node], edges: &[Edge]) -> bool {
    let premises = premises(nodes);
    let in_order = |(edge, (target, premise, _)): (&Edge, &(usize, usize, &Fact))| {
        (edge.target, edge.premise) == (*target, *premise)
    };
    let takes_lowest = |place: usize| {
        let (target, _, fact) = premises[place];
        let fit = fit_sources(protocol, nodes, &edges[..place], target, fact);
        fit.into_iter().min() == Some((edges[place].source, edges[place].conclusion))
    };
    edges.len() == premises.len()
        && edges.iter().zip(&premises).all(in_order)
        && (0..edges.len()).all(takes_lowest)
}

/// The conclusions of nodes before the target that are equal to its premise's fact and, if that is linear, the source of no edge before.
pub fn fit_sources(
    protocol: &Protocol,
    nodes: &[Node],
    before: &[Edge],
    target: usize,
    fact: &Fact,
) -> Vec<Source> {
    let is_source = |edge: &Edge, place: Source| (edge.source, edge.conclusion) == place;
    let unused = |place: Source| !before.iter().any(|edge| is_source(edge, place));
    let mut fit = conclusions_equal(&nodes[..target - 1], fact);
    fit.retain(|place| protocol.persistent(fact) || unused(*place));
    fit
}

/// The conclusions equal to a fact.
pub fn conclusions_equal(nodes: &[Node], fact: &Fact) -> Vec<Source> {
    let mut places = Vec::new();
    for (source, node) in (1..).zip(nodes) {
        let conclusions = (1..).zip(&node.conclusions);
        let equal = conclusions.filter(|(_, conclusion)| *conclusion == fact);
        places.extend(equal.map(|(number, _)| (source, number)));
    }
    places
}

/// All premises, nodes in order and premises in order: the node, the premise's number there, the fact.
pub fn premises(nodes: &[Node]) -> Vec<(usize, usize, &Fact)> {
    let mut premises = Vec::new();
    for (target, node) in (1..).zip(nodes) {
        let own = (1..).zip(&node.premises);
        premises.extend(own.map(|(premise, fact)| (target, premise, fact)));
    }
    premises
}
