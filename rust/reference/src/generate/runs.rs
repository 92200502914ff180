//! Runs, built forward: every step is one that the machine can take.

use super::protocols::{fact_of, signs};
use super::terms::{name, Material};
use crate::canonical::canonical_form;
use crate::earliest::{fit_sources, premises, Source};
use crate::figures::MOST_GROUPS;
use crate::graph::Edge;
use crate::machine::Machine;
use crate::number::{self, least_of, LARGEST};
use crate::protocol::*;
use crate::random::Random;
use crate::steps::{instance, Node};
use crate::term::*;

/// Messages above this size are not built upon, so that values stay within their limit.
const MOST_BUILT_UPON: usize = 24;

/// A node as a file holds it.
#[derive(Clone, Debug)]
pub struct Step {
    pub rule: u32,
    pub values: Vec<Term>,
}

/// A run so far.
pub struct Run<'a> {
    protocol: &'a Protocol,
    machine: Machine<'a>,
    next_name: u32,
    /// Whether the adversary uses aenc to true.
    signing: bool,
    /// All conclusions so far, the consumed ones too, and among them the known messages.
    made: Vec<Fact>,
    known: Vec<Term>,
    pub steps: Vec<Step>,
    pub nodes: Vec<Node>,
}

/// A run of about so many nodes.
pub fn run<'a>(random: &mut Random, protocol: &'a Protocol, length: usize) -> Run<'a> {
    let mut run = Run::new(protocol, first_name(random));
    run.signing = signs(protocol) || random.percent(25);
    run.grown(random, length)
}

/// Where the numbers of new names begin: low, or a little below the end of a number of groups.
fn first_name(random: &mut Random) -> u32 {
    let end = least_of(2 + random.below(MOST_GROUPS - 1));
    *random.choose(&[0, 0, 64, end - 5, LARGEST - 5])
}

/// A run of about so many nodes without aenc to true, whose new names are numbered from here.
pub fn run_from<'a>(
    random: &mut Random,
    protocol: &'a Protocol,
    first_name: u32,
    length: usize,
) -> Run<'a> {
    Run::new(protocol, first_name).grown(random, length)
}

impl<'a> Run<'a> {
    /// No nodes yet; new names are numbered from here.
    pub fn new(protocol: &'a Protocol, first_name: u32) -> Run<'a> {
        Run {
            protocol,
            machine: Machine::new(protocol),
            next_name: first_name,
            signing: false,
            made: Vec::new(),
            known: Vec::new(),
            steps: Vec::new(),
            nodes: Vec::new(),
        }
    }

    /// With steps up to about so many nodes.
    fn grown(mut self, random: &mut Random, length: usize) -> Run<'a> {
        for _ in 0..4 * length {
            if self.steps.len() >= length {
                break;
            }
            self.grow(random);
        }
        self
    }

    /// Adds a step, and before it what supplies its premises; perhaps only some of these.
    fn grow(&mut self, random: &mut Random) {
        match random.below(20) {
            0 => drop(self.new_name()),
            1 => drop(self.know(&Term::Public(Public(random.below(4) as u32)))),
            2..6 => self.receive(random),
            6..8 => {
                if let Some(message) = self.known_message(random) {
                    self.take(2, vec![message]);
                }
            }
            8..14 if self.signing && random.percent(30) => self.sign_or_seal(random),
            8..14 => self.apply_function(random),
            _ => self.protocol_step(random),
        }
    }

    /// Takes the step if the machine can.
    pub fn take(&mut self, rule: u32, values: Vec<Term>) -> bool {
        let Some(form) = self.protocol.rule(rule) else {
            return false;
        };
        let mut pairs = form.variables.iter().zip(&values);
        if !pairs.all(|(sort, value)| sort.takes(value)) {
            return false;
        }
        let node = Node::new(rule, &form, &values);
        if !self.machine.step(&node) {
            return false;
        }
        let known = node.conclusions.iter().filter(|fact| fact.symbol == K);
        self.known.extend(known.map(|fact| fact.terms[0].clone()));
        self.made.extend(node.conclusions.iter().cloned());
        self.steps.push(Step { rule, values });
        self.nodes.push(node);
        true
    }

    fn new_name(&mut self) -> Term {
        let name = Term::Fresh(Fresh(self.next_name));
        self.next_name = (self.next_name + 1) % (LARGEST + 1);
        self.take(0, vec![name.clone()]);
        name
    }

    /// Makes a canonical message known, by its parts where it is not known already.
    fn know(&mut self, message: &Term) -> bool {
        if self.machine.has(&fact_of(K, message.clone())) {
            return true;
        }
        match message {
            Term::Variable(_) => false,
            Term::Public(_) => self.take(3, vec![message.clone()]),
            Term::Fresh(name) => {
                if !self.machine.has_made(*name) {
                    self.take(0, vec![message.clone()]);
                }
                self.take(4, vec![message.clone()])
            }
            Term::Apply(tag, arguments) => {
                let parts_known = arguments.iter().all(|part| self.know(part));
                parts_known && self.apply(*tag, arguments.clone())
            }
        }
    }

    fn known_message(&mut self, random: &mut Random) -> Option<Term> {
        let message = self.known.get(random.below(self.known.len().max(1)))?;
        (message.symbols() <= MOST_BUILT_UPON).then(|| message.clone())
    }

    /// A known message that holds a product, if one of three does.
    fn known_product(&mut self, random: &mut Random) -> Option<Term> {
        let some: Vec<Term> = (0..3).filter_map(|_| self.known_message(random)).collect();
        let is_product = |term: &Term| matches!(term, Term::Apply(MUL | INV | EXP, _));
        let product = some.iter().find(|message| message.any(&is_product));
        product.or(some.first()).cloned()
    }

    /// The adversary receives a message that is out.
    fn receive(&mut self, random: &mut Random) {
        if let Some(fact) = self.available(random, OUT) {
            self.take(1, fact.terms);
        }
    }

    /// A fact with this symbol that is in the state.
    fn available(&self, random: &mut Random, symbol: u32) -> Option<Fact> {
        let with_symbol = self.made.iter().filter(|fact| fact.symbol == symbol);
        // What is persistent and was made is there still.
        let in_state =
            |fact: &&Fact| self.protocol.persistent(fact) || self.machine.in_bag(fact) > 0;
        let facts: Vec<&Fact> = with_symbol.filter(in_state).collect();
        (!facts.is_empty()).then(|| (*random.choose(&facts)).clone())
    }

    /// Applies the function of this tag.
    fn apply(&mut self, tag: u32, values: Vec<Term>) -> bool {
        self.take(number_of(Numbered::Apply(tag)), values)
    }

    /// Encrypts for a key, signs, and takes apart what is encrypted or signed, with the right key and message or with others.
    fn sign_or_seal(&mut self, random: &mut Random) {
        let known = [(); 4].map(|()| self.known_product(random));
        let [Some(message), Some(key), Some(other_message), Some(other_key)] = known else {
            return;
        };
        let public = Term::apply(PK, [key.clone()]);
        let right_key = random.percent(70);
        let right_message = random.percent(80);
        let made = match random.percent(50) {
            true => Term::apply(AENC, [message.clone(), public.clone()]),
            false => Term::apply(SIGN, [message.clone(), key.clone()]),
        };
        let values = match (made.has_tag(AENC), right_key) {
            (true, true) => vec![made, key],
            (true, false) => vec![made, other_key],
            (false, _) => {
                let same = if right_message {
                    message
                } else {
                    other_message
                };
                let shown = if right_key { public } else { other_key };
                vec![made, same, shown]
            }
        };
        if values.iter().all(|value| self.know(value)) && random.percent(80) {
            self.apply(if values.len() == 2 { ADEC } else { VERIFY }, values);
        }
    }

    fn apply_function(&mut self, random: &mut Random) {
        let free = FREE..FREE + self.protocol.signature.free.len() as u32;
        let signing = AENC..if self.signing { TRUE + 1 } else { AENC };
        let all: Vec<u32> = (ONE..FREE).chain(free).chain(signing).collect();
        let products = if self.signing { 85 } else { 75 };
        let tag = if random.percent(products) {
            *random.choose(&[MUL, MUL, INV, EXP])
        } else {
            *random.choose(&all)
        };
        let arity = self.protocol.signature.arity(tag).expect("declared");
        let messages = (0..arity).map(|_| self.known_message(random));
        if let Some(values) = messages.collect() {
            self.apply(tag, values);
        }
    }

    /// A protocol rule: variables are bound to facts of the state where a premise allows it, and
    /// otherwise chosen; then its premises are supplied.
    fn protocol_step(&mut self, random: &mut Random) {
        if self.protocol.rules.is_empty() {
            return;
        }
        let number = random.below(self.protocol.rules.len());
        let rule = &self.protocol.rules[number];
        let mut values = vec![None; rule.variables.len()];
        for premise in &rule.premises {
            let found = self.available(random, premise.symbol);
            if let Some(fact) = found.filter(|_| premise.symbol != IN || random.percent(50)) {
                bind(&mut values, &rule.variables, premise, &fact);
            }
        }
        let chosen = values.into_iter().zip(&rule.variables);
        let values: Vec<Term> = chosen
            .map(|(value, sort)| value.unwrap_or_else(|| self.some_value(random, *sort)))
            .collect();
        let premises = rule.premises.iter().map(|fact| instance(fact, &values));
        let premises: Vec<Fact> = premises.collect();
        let mut prefixes = (1..=premises.len()).map(|count| &premises[..count]);
        if prefixes.all(|premises| self.supply(premises)) {
            self.take(number_of(Numbered::Own(number as u32)), values);
        }
    }

    fn some_value(&mut self, random: &mut Random, sort: Sort) -> Term {
        match sort {
            Sort::Fresh => self.new_name(),
            Sort::Public => Term::Public(Public(name(random))),
            Sort::Message => {
                if let Some(message) = self.known_message(random) {
                    return message;
                }
                let material = Material {
                    signature: &self.protocol.signature,
                    variables: 0,
                    fresh_names: true,
                    products: random.percent(70),
                    signing: self.signing,
                };
                let symbols = 1 + random.below(6);
                canonical_form(&material.term(random, symbols))
            }
        }
    }

    /// Brings the last premise into the state, as often as it stands among all of them, where the adversary
    /// or rule 0 can.
    fn supply(&mut self, premises: &[Fact]) -> bool {
        let fact = premises.last().expect("a premise");
        let needed = premises.iter().filter(|premise| *premise == fact).count();
        if self.protocol.persistent(fact) {
            return self.machine.has(fact);
        }
        if self.machine.in_bag(fact) >= needed {
            return true;
        }
        match (fact.symbol, &fact.terms[..]) {
            (FR, [name]) => self.take(0, vec![name.clone()]),
            (IN, [message]) => self.know(message) && self.take(2, vec![message.clone()]),
            _ => false,
        }
    }
}

/// Binds the variables that are whole terms of a premise to the terms of a fact.
fn bind(values: &mut [Option<Term>], sorts: &[Sort], premise: &Fact, fact: &Fact) {
    for (term, part) in premise.terms.iter().zip(&fact.terms) {
        if let Term::Variable(number) = term {
            let number = *number as usize;
            let of_sort = sorts[number].takes(part) && part.symbols() <= MOST_BUILT_UPON;
            if of_sort && values[number].is_none() {
                values[number] = Some(part.clone());
            }
        }
    }
}

/// A source for each premise of a run, any that is fit, in any order.
pub fn some_edges(random: &mut Random, protocol: &Protocol, nodes: &[Node]) -> Vec<Edge> {
    let some = |fit: &[Source]| *random.choose(fit);
    let mut edges = edges_by(protocol, nodes, some).expect("a run");
    shuffle(random, &mut edges);
    edges
}

/// Edges in the order of premises, each from the one of its fit sources that is chosen; none where a premise has no fit source.
pub fn edges_by(
    protocol: &Protocol,
    nodes: &[Node],
    mut choose: impl FnMut(&[Source]) -> Source,
) -> Option<Vec<Edge>> {
    let mut edges = Vec::new();
    for (target, premise, fact) in premises(nodes) {
        let fit = fit_sources(protocol, nodes, &edges, target, fact);
        if fit.is_empty() {
            return None;
        }
        let (source, conclusion) = choose(&fit);
        edges.push(Edge {
            source,
            conclusion,
            target,
            premise,
        });
    }
    Some(edges)
}

/// The choice that is furthest from the writer's.
pub fn latest(fit: &[Source]) -> Source {
    *fit.iter().max().expect("a fit source")
}

pub fn shuffle<T>(random: &mut Random, items: &mut [T]) {
    for last in (1..items.len()).rev() {
        items.swap(last, random.below(last + 1));
    }
}

/// The step list's bytes.
pub fn encoded(steps: &[Step]) -> Vec<u8> {
    let mut bytes = Vec::new();
    number::write(steps.len() as u32, &mut bytes);
    for step in steps {
        number::write(step.rule, &mut bytes);
        for value in &step.values {
            value.encode(&mut bytes);
        }
    }
    bytes
}
