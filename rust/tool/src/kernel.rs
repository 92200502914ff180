//! The proved calls. Whatever is ruled, drawn or brought to canonical form is so here.

use crate::bytes;
use crate::model::*;
use levtosziv::Work;
pub use levtosziv::{Counts, Refusal, Ruling};

/// What checking answers.
pub type Ruled = Result<Ruling, Refusal>;

/// The calls under one protocol.
pub struct Kernel {
    protocol: Vec<u8>,
    work: Work,
}

impl Kernel {
    pub fn new(protocol: &[u8]) -> Self {
        Kernel {
            protocol: protocol.to_vec(),
            work: Work::new(),
        }
    }

    /// The same work area under another protocol.
    pub fn under(&mut self, protocol: &[u8]) -> &mut Self {
        self.protocol.clear();
        self.protocol.extend_from_slice(protocol);
        self
    }

    pub fn check(&mut self, property: &[u8], graph: &[u8]) -> Ruled {
        self.work.check(&self.protocol, property, graph)
    }

    /// Where drawing refused, protocol and property are asked about first, with the empty graph.
    pub fn check_drawn(&mut self, property: &[u8], drawn: Result<&[u8], Refusal>) -> Ruled {
        match drawn {
            Ok(graph) => self.check(property, graph),
            Err(refusal) if refusal.number <= 2 => Err(refusal),
            Err(refusal) => self.check(property, &[0, 0]).and(Err(refusal)),
        }
    }

    pub fn draw(&mut self, steps: &[u8]) -> Result<Vec<u8>, Refusal> {
        let mut output = vec![0; limits::GRAPH_BYTES];
        let length = self.work.draw(&self.protocol, steps, &mut output)?;
        output.truncate(length);
        Ok(output)
    }

    /// The canonical form of a term. None where the core's answer is no term of the protocol, which no proved core gives.
    pub fn canonical(&mut self, term: &Term, declared: &Protocol) -> Result<Option<Term>, Refusal> {
        let mut output = [0; limits::TERM_BYTES];
        let term = bytes::encode_term(term);
        let length = self
            .work
            .canonical_form(&self.protocol, &term, &mut output)?;
        Ok(bytes::term(&output[..length], declared).ok())
    }

    /// The canonical form, or the term itself where the core gives none.
    pub fn canonical_or_same(&mut self, term: &Term, declared: &Protocol) -> Term {
        match self.canonical(term, declared) {
            Ok(Some(canonical)) => canonical,
            _ => term.clone(),
        }
    }

    /// The facts of a node, with canonical arguments where the core gives them.
    pub fn facts(&mut self, node: &Node, declared: &Protocol) -> Filled {
        let Some(rule) = declared.rule(node.rule) else {
            return Filled::default();
        };
        let mut fill = |facts: Vec<Fact>| {
            let filled = facts.into_iter().map(|fact| Fact {
                symbol: fact.symbol,
                terms: fact
                    .terms
                    .iter()
                    .map(|term| self.canonical_or_same(&term.fill(&node.values), declared))
                    .collect(),
            });
            filled.collect()
        };
        Filled {
            premises: fill(rule.premises),
            actions: fill(rule.actions),
            conclusions: fill(rule.conclusions),
        }
    }
}
