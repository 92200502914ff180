//! Random runs leave the writer a choice in every way in which a wrong one could go wrong.

use reference::earliest::{conclusions_equal, fit_sources, premises, Source};
use reference::generate::crowded;
use reference::generate::runs::Run;
use reference::graph::Edge;
use reference::protocol::{Fact, Protocol};
use reference::random::Random;
use reference::term::Term;
use reference::writer;
use std::collections::BTreeMap;

/// A premise, what it takes, and what else it could.
struct Choice<'a> {
    edge: Edge,
    fact: &'a Fact,
    linear: bool,
    fit: Vec<Source>,
    before: &'a [Edge],
}

fn source(edge: &Edge) -> Source {
    (edge.source, edge.conclusion)
}

impl Choice<'_> {
    /// The edges before that use a lower conclusion which this premise would take otherwise.
    fn in_its_way(&self, run: &Run) -> Vec<Edge> {
        let equal = conclusions_equal(&run.nodes, self.fact);
        let lower =
            |edge: &&Edge| equal.contains(&source(edge)) && source(edge) < source(&self.edge);
        let before = self.before.iter().filter(|_| self.linear);
        before.filter(lower).copied().collect()
    }

    /// Whether its fact and the source's are written alike, the values in place of the variables.
    fn as_they_stand(&self, protocol: &Protocol, run: &Run) -> bool {
        let [source, target] =
            [self.edge.source, self.edge.target].map(|node| &run.steps[node - 1]);
        let rule = |number| protocol.rule(number).expect("a rule");
        let filled_in = |fact: &Fact, values: &[Term]| -> Vec<Term> {
            fact.terms.iter().map(|term| term.fill_in(values)).collect()
        };
        let conclusion = &rule(source.rule).conclusions[self.edge.conclusion - 1];
        let premise = &rule(target.rule).premises[self.edge.premise - 1];
        filled_in(conclusion, &source.values) == filled_in(premise, &target.values)
    }

    fn ways(&self, protocol: &Protocol, run: &Run) -> [(&'static str, bool); 10] {
        let (node, place) = source(&self.edge);
        let target = self.edge.target;
        let in_its_way = self.in_its_way(run);
        let used_by =
            |test: &dyn Fn(usize) -> bool| in_its_way.iter().any(|edge| test(edge.target));
        let equal_in = |nodes: &[_]| !conclusions_equal(nodes, self.fact).is_empty();
        let others = |test: &dyn Fn(&Source) -> bool| self.fit.iter().any(test);
        [
            ("several linear sources", self.linear && self.fit.len() > 1),
            (
                "a persistent source again",
                !self.linear && self.before.iter().any(|edge| source(edge) == (node, place)),
            ),
            (
                "a lower one is used by an earlier node",
                used_by(&|user| user < target),
            ),
            (
                "a lower one is used by the same node",
                used_by(&|user| user == target),
            ),
            (
                "two conclusions of one node",
                others(&|other| other.0 == node && other.1 > place),
            ),
            (
                "a lower conclusion at a higher node",
                others(&|other| other.0 > node && other.1 < place),
            ),
            (
                "an equal conclusion of the node itself",
                equal_in(&run.nodes[target - 1..target]),
            ),
            (
                "an equal conclusion of a later node",
                equal_in(&run.nodes[target..]),
            ),
            (
                "equal by the equations alone",
                !self.as_they_stand(protocol, run),
            ),
            (
                "a lower source than the edge before has",
                self.before.last().is_some_and(|edge| node < edge.source),
            ),
        ]
    }
}

#[test]
fn the_writer_has_a_choice_in_every_way() {
    let mut random = Random::new(14);
    let (mut all, mut counts) = (0, BTreeMap::new());
    for _ in 0..500 {
        let few = crowded::protocol(&mut random);
        let run = crowded::run(&mut random, &few, 30);
        let edges = writer::edges(&few.protocol, &run.nodes).expect("a run");
        for (place, (target, _, fact)) in premises(&run.nodes).into_iter().enumerate() {
            let before = &edges[..place];
            let choice = Choice {
                edge: edges[place],
                fact,
                linear: !few.protocol.persistent(fact),
                fit: fit_sources(&few.protocol, &run.nodes, before, target, fact),
                before,
            };
            for (way, is) in choice.ways(&few.protocol, &run) {
                *counts.entry(way).or_insert(0) += usize::from(is);
            }
            all += 1;
        }
    }
    println!("{all} premises: {counts:#?}");
    assert!(
        counts.values().all(|count| 50 * count >= all),
        "{counts:#?}"
    );
}
