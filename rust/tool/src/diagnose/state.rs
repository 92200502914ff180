//! What a step's premises lack: cause 14.

use super::At;
use crate::model::*;
use std::collections::HashMap;

/// The state before a step, by who made what is in it.
#[derive(Default)]
struct State<'a> {
    /// Of each fact in the state, the steps that made it.
    made: HashMap<&'a Fact, Vec<usize>>,
    /// Of each linear fact, the step that used it last.
    used: HashMap<&'a Fact, usize>,
}

impl<'a> State<'a> {
    /// Takes a step's premises, and gives those that are not there.
    fn take(&mut self, step: usize, facts: &'a Filled, protocol: &Protocol) -> Vec<&'a Fact> {
        let mut short = Vec::new();
        for premise in &facts.premises {
            let makers = self
                .made
                .get_mut(premise)
                .filter(|makers| !makers.is_empty());
            match makers {
                None => short.push(premise),
                Some(makers) if protocol.linear(premise.symbol) => {
                    makers.remove(0);
                    self.used.insert(premise, step);
                }
                Some(_) => {}
            }
        }
        short
    }

    fn give(&mut self, step: usize, facts: &'a Filled) {
        for conclusion in &facts.conclusions {
            self.made.entry(conclusion).or_default().push(step);
        }
    }
}

impl At<'_> {
    /// Runs the steps before the node, and says what its premises lack.
    pub fn missing(&mut self, number: usize) {
        let mut state = State::default();
        let protocol = &self.case.protocol;
        for (n, facts) in self.facts[..number - 1].iter().enumerate() {
            state.take(n + 1, facts, protocol);
            state.give(n + 1, facts);
        }
        let short = state.take(number, &self.facts[number - 1], protocol);
        let reason = |premise: &&Fact| {
            let hint = self.why_missing(premise, number, &state);
            format!("{} needs {}: {hint}", self.step(number), self.fact(premise))
        };
        let reasons = short.iter().map(reason).collect();
        self.diagnosis.reasons = reasons;
    }

    fn why_missing(&self, premise: &Fact, number: usize, state: &State) -> String {
        if let Some(by) = state.used.get(premise) {
            return format!("it was there, and step {by} used it up");
        }
        let later = &self.facts[number..];
        if let Some(k) = later.iter().position(|f| f.conclusions.contains(premise)) {
            return format!("only step {} makes it, which is later", number + k + 1);
        }
        let there = state
            .made
            .iter()
            .filter(|(fact, makers)| fact.symbol == premise.symbol && !makers.is_empty());
        let mut there: Vec<String> = there
            .map(|(fact, makers)| format!("{} (step {})", self.fact(fact), makers[0]))
            .collect();
        there.sort();
        let name = self.case.names.fact(premise.symbol);
        match there.len() {
            0 => format!("no {name} is in the state"),
            1..=6 => format!("in the state: {}", there.join(", ")),
            more => format!("in the state are {more} other facts {name}"),
        }
    }
}
