//! "Written out, the rewriting is a machine".

use crate::protocol::{Fact, Protocol};
use crate::steps::Node;
use crate::term::Fresh;
use std::collections::{BTreeMap, BTreeSet};

/// "Its state is a bag of linear facts, a set of persistent ones and the names made so far, all empty
/// before node 1."
pub struct Machine<'a> {
    protocol: &'a Protocol,
    linear: BTreeMap<Fact, usize>,
    persistent: BTreeSet<Fact>,
    made: BTreeSet<Fresh>,
}

impl<'a> Machine<'a> {
    pub fn new(protocol: &'a Protocol) -> Self {
        Machine {
            protocol,
            linear: BTreeMap::new(),
            persistent: BTreeSet::new(),
            made: BTreeSet::new(),
        }
    }

    /// Whether the fact is in the bag or in the set.
    pub fn has(&self, fact: &Fact) -> bool {
        self.persistent.contains(fact) || self.in_bag(fact) > 0
    }

    pub fn has_made(&self, name: Fresh) -> bool {
        self.made.contains(&name)
    }

    /// How often a linear fact is in the bag.
    pub fn in_bag(&self, fact: &Fact) -> usize {
        self.linear.get(fact).copied().unwrap_or(0)
    }

    /// Takes one node; false where it fails.
    pub fn step(&mut self, node: &Node) -> bool {
        let removed = self.linear_counts(&node.premises);
        if self.fails(node, &removed) {
            return false;
        }
        for (fact, count) in removed {
            *self.linear.get_mut(&fact).expect("it is in the bag") -= count;
        }
        for (fact, count) in self.linear_counts(&node.conclusions) {
            *self.linear.entry(fact).or_default() += count;
        }
        let conclusions = node.conclusions.iter();
        let persistent = conclusions.filter(|fact| self.protocol.persistent(fact));
        self.persistent.extend(persistent.cloned());
        self.made.extend(node.makes);
        true
    }

    /// "A node fails if a persistent premise is not in the set, if a linear fact stands more often among
    /// its premises than in the bag, or if it is of rule 0 and its name is made already."
    fn fails(&self, node: &Node, removed: &BTreeMap<Fact, usize>) -> bool {
        let missing =
            |fact: &Fact| self.protocol.persistent(fact) && !self.persistent.contains(fact);
        node.premises.iter().any(missing)
            || removed
                .iter()
                .any(|(fact, count)| *count > self.in_bag(fact))
            || node.makes.is_some_and(|name| self.has_made(name))
    }

    /// How often each linear fact stands in the list.
    fn linear_counts(&self, facts: &[Fact]) -> BTreeMap<Fact, usize> {
        let mut counts = BTreeMap::new();
        for fact in facts.iter().filter(|fact| !self.protocol.persistent(fact)) {
            *counts.entry(fact.clone()).or_default() += 1;
        }
        counts
    }
}

/// The place, from 0, of the node that fails; none where the nodes are a run.
pub fn first_failure(protocol: &Protocol, nodes: &[Node]) -> Option<usize> {
    let mut machine = Machine::new(protocol);
    nodes.iter().position(|node| !machine.step(node))
}
