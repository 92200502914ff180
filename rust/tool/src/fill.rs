//! Canonical values by the core, and the steps that a run marked `fill` leaves out. Nothing here is believed: the core draws.

use crate::kernel::Kernel;
use crate::model::*;
use crate::text::{Run, Step, Theory};
use std::collections::{HashMap, HashSet};

/// How many tries at one message before it is given up.
const MOST_TRIES: usize = 2_000;
/// How deep the steps to one message may build on one another.
const MOST_DEPTH: usize = 64;

/// The nodes of a run with their places; a step that was filled in has the place of the step that needs it.
pub fn nodes(run: &Run, theory: &Theory, kernel: &mut Kernel) -> (Vec<Node>, Vec<Span>) {
    let mut filler = Filler::new(&theory.protocol, kernel);
    for (step, span) in &run.steps {
        filler.span = span.clone();
        match step {
            Step::Know(term) => {
                let term = filler.canonical(term);
                filler.try_to_know(&term);
            }
            Step::Node(node) => {
                let mut node = node.clone();
                if !run.exact {
                    node.values = node.values.iter().map(|v| filler.canonical(v)).collect();
                }
                if run.fill {
                    filler.needs(&node);
                    filler.push(node);
                } else {
                    filler.nodes.push(node);
                    filler.spans.push(span.clone());
                }
            }
        }
    }
    (filler.nodes, filler.spans)
}

struct Filler<'a> {
    protocol: &'a Protocol,
    kernel: &'a mut Kernel,
    nodes: Vec<Node>,
    spans: Vec<Span>,
    /// The place of the step that is being filled in for.
    span: Span,
    bag: HashMap<Fact, usize>,
    known: HashSet<Term>,
    /// What is known, in the order in which it became so.
    order: Vec<Term>,
    tries: usize,
    /// Messages that are being looked for, so that none is looked for on the way to itself.
    wanted: Vec<Term>,
}

/// What is undone where a try fails.
struct Mark {
    nodes: usize,
    bag: HashMap<Fact, usize>,
    known: HashSet<Term>,
    order: usize,
}

fn fact(symbol: u32, term: &Term) -> Fact {
    Fact {
        symbol,
        terms: vec![term.clone()],
    }
}

impl<'a> Filler<'a> {
    fn new(protocol: &'a Protocol, kernel: &'a mut Kernel) -> Self {
        Filler {
            protocol,
            kernel,
            nodes: Vec::new(),
            spans: Vec::new(),
            span: 0..0,
            bag: HashMap::new(),
            known: HashSet::new(),
            order: Vec::new(),
            tries: 0,
            wanted: Vec::new(),
        }
    }

    fn canonical(&mut self, term: &Term) -> Term {
        self.kernel.canonical_or_same(term, self.protocol)
    }

    fn mark(&self) -> Mark {
        Mark {
            nodes: self.nodes.len(),
            bag: self.bag.clone(),
            known: self.known.clone(),
            order: self.order.len(),
        }
    }

    fn undo(&mut self, mark: Mark) {
        self.nodes.truncate(mark.nodes);
        self.spans.truncate(mark.nodes);
        self.order.truncate(mark.order);
        self.bag = mark.bag;
        self.known = mark.known;
    }

    /// Adds a node, and what it takes and gives.
    fn push(&mut self, node: Node) {
        let filled = self.kernel.facts(&node, self.protocol);
        for premise in &filled.premises {
            if self.protocol.linear(premise.symbol) {
                if let Some(count) = self.bag.get_mut(premise) {
                    *count = count.saturating_sub(1);
                }
            }
        }
        for conclusion in filled.conclusions {
            if conclusion.symbol == K && self.known.insert(conclusion.terms[0].clone()) {
                self.order.push(conclusion.terms[0].clone());
            }
            *self.bag.entry(conclusion).or_default() += 1;
        }
        self.nodes.push(node);
        self.spans.push(self.span.clone());
    }

    fn push_rule(&mut self, rule: u32, values: Vec<Term>) {
        self.push(Node { rule, values });
    }

    fn has(&self, symbol: u32, term: &Term) -> bool {
        self.bag.get(&fact(symbol, term)).is_some_and(|n| *n > 0)
    }

    /// Adds what a node's premises lack, as far as that is in reach.
    fn needs(&mut self, node: &Node) {
        let premises = self.kernel.facts(node, self.protocol).premises;
        for premise in premises {
            match (premise.symbol, &premise.terms[..]) {
                (FR, [name]) if !self.has(FR, name) => self.push_rule(FRESH, vec![name.clone()]),
                (IN, [message]) if !self.has(IN, message) && self.try_to_know(message) => {
                    self.push_rule(ISEND, vec![message.clone()]);
                }
                (K, [message]) => {
                    self.try_to_know(message);
                }
                _ => {}
            }
        }
    }

    fn try_to_know(&mut self, term: &Term) -> bool {
        self.tries = 0;
        self.wanted.clear();
        self.know(term)
    }

    /// Makes K(term), where that is in reach: what was sent, public names, taking apart, putting together.
    fn know(&mut self, term: &Term) -> bool {
        if self.known.contains(term) {
            return true;
        }
        if self.has(OUT, term) {
            self.push_rule(IRECV, vec![term.clone()]);
            return true;
        }
        if matches!(term, Term::Public(_)) {
            self.push_rule(PUB, vec![term.clone()]);
            return true;
        }
        self.tries += 1;
        let given_up = self.tries > MOST_TRIES || self.wanted.len() > MOST_DEPTH;
        if given_up || self.wanted.contains(term) {
            return false;
        }
        self.wanted.push(term.clone());
        let found = self.take_apart(term) || self.raise(term) || self.put_together(term);
        self.wanted.pop();
        found
    }

    /// Does all of some steps, or none.
    fn all_or_none(&mut self, steps: impl FnOnce(&mut Self) -> bool) -> bool {
        let mark = self.mark();
        let done = steps(self);
        if !done {
            self.undo(mark);
        }
        done
    }

    /// The message is part of one that is known or can be heard.
    fn take_apart(&mut self, term: &Term) -> bool {
        let mut sources = self.order.clone();
        let waiting = self.bag.iter().filter(|(f, n)| f.symbol == OUT && **n > 0);
        let mut waiting: Vec<Term> = waiting.map(|(f, _)| f.terms[0].clone()).collect();
        waiting.sort();
        sources.extend(waiting);
        sources.iter().any(|source| match way(source, term) {
            None => false,
            Some(way) => self.all_or_none(|s| s.know(source) && way.iter().all(|o| s.open(o))),
        })
    }

    fn open(&mut self, opening: &Opening) -> bool {
        if self.known.contains(opening.part) {
            return true;
        }
        if opening.key.is_some_and(|key| !self.know(key)) {
            return false;
        }
        let values = std::iter::once(opening.whole).chain(opening.key);
        self.push_rule(apply_rule(opening.tag), values.cloned().collect());
        true
    }

    /// A power with several exponents, from one with fewer: exp(exp(base, rest), factor).
    fn raise(&mut self, term: &Term) -> bool {
        let Term::Apply(EXP, arguments) = term else {
            return false;
        };
        let factors = product(&arguments[1]);
        if factors.len() < 2 {
            return false;
        }
        (0..factors.len()).any(|i| {
            let mut rest = factors.clone();
            let factor = rest.remove(i);
            let multiplied = rest.into_iter().reduce(|a, b| Term::Apply(MUL, vec![a, b]));
            let exponent = multiplied.expect("two factors or more");
            let power = Term::Apply(EXP, vec![arguments[0].clone(), exponent]);
            let power = self.canonical(&power);
            self.all_or_none(|s| {
                let known = s.know(&power) && s.know(&factor);
                if known {
                    s.push_rule(apply_rule(EXP), vec![power, factor]);
                }
                known
            })
        })
    }

    /// Its function applied to its arguments.
    fn put_together(&mut self, term: &Term) -> bool {
        let Term::Apply(tag, arguments) = term else {
            return false;
        };
        self.all_or_none(|s| {
            let known = arguments.iter().all(|argument| s.know(argument));
            if known {
                s.push_rule(apply_rule(*tag), arguments.clone());
            }
            known
        })
    }
}

fn product(term: &Term) -> Vec<Term> {
    match term {
        Term::Apply(MUL, arguments) => arguments.iter().flat_map(product).collect(),
        other => vec![other.clone()],
    }
}

/// A function that takes a part out of a message, and the key that it needs.
#[derive(Clone, Copy)]
struct Opening<'a> {
    tag: u32,
    whole: &'a Term,
    key: Option<&'a Term>,
    part: &'a Term,
}

/// What can be taken out of a message. A signature gives nothing away, and what is encrypted for a public key needs the key behind it.
fn openings(whole: &Term) -> Vec<Opening<'_>> {
    let Term::Apply(tag, arguments) = whole else {
        return Vec::new();
    };
    let opening = |tag, key, part| Opening {
        tag,
        whole,
        key,
        part,
    };
    match (*tag, &arguments[..]) {
        (PAIR, [first, second]) => vec![opening(FST, None, first), opening(SND, None, second)],
        (ENC, [message, key]) => vec![opening(DEC, Some(key), message)],
        (AENC, [message, Term::Apply(PK, key)]) => vec![opening(ADEC, key.first(), message)],
        _ => Vec::new(),
    }
}

/// What leads from a message to a part of it.
fn way<'a>(from: &'a Term, to: &Term) -> Option<Vec<Opening<'a>>> {
    openings(from).into_iter().find_map(|opening| {
        let mut openings = vec![opening];
        if opening.part != to {
            openings.extend(way(opening.part, to)?);
        }
        Some(openings)
    })
}
