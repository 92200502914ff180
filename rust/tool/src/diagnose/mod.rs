//! Words for a refusal. The core has named the cause and the place; this looks there for the reason, and is silent where it finds none.

mod property;
mod state;

use crate::bytes::{self, Fault, Part};
use crate::case::*;
use crate::kernel::{Kernel, Refusal};
use crate::model::*;
use crate::print::{self, Style};

/// Where a refusal is.
#[derive(Clone, Debug, PartialEq)]
pub enum Place {
    Nowhere,
    Rule(usize),
    Node(usize),
    Edge(usize),
    /// A quantifier in a text.
    Text(Span),
    Property,
    Byte(&'static str, usize),
}

#[derive(Debug)]
pub struct Diagnosis {
    pub reasons: Vec<String>,
    pub place: Place,
}

pub fn diagnose(case: &Case, refusal: &Refusal) -> Diagnosis {
    let item = refusal.item as usize;
    let place = match refusal.number {
        4 => Place::Rule(item),
        5 => Place::Property,
        6..=9 | 12..=14 => Place::Node(item),
        10 | 11 => Place::Edge(item),
        _ => Place::Nowhere,
    };
    let mut kernel = case.kernel();
    let facts = |node| kernel.facts(node, &case.protocol);
    let mut at = At {
        facts: case.nodes.iter().map(facts).collect(),
        case,
        style: Style::of(&case.names),
        diagnosis: Diagnosis {
            reasons: Vec::new(),
            place,
        },
    };
    // An item that is nowhere in the files has no diagnosis.
    let there = |count: usize| (1..=count).contains(&item);
    match refusal.number {
        2 => at.too_long(item),
        3 => at.layout(item),
        4 if there(case.protocol.rules.len()) => at.conditions(item),
        5 => at.unfit_property(),
        6 => at.no_rule(),
        7 if there(case.nodes.len()) => at.values(item, &mut kernel),
        8 if there(case.nodes.len()) => at.too_large(item),
        9 if there(case.nodes.len()) => at.made_twice(item),
        10 | 11 if there(case.edges().len()) => at.edge(item),
        12 if there(case.nodes.len()) => at.premises(item),
        13 if there(case.nodes.len()) => at.used_twice(item),
        14 if there(case.nodes.len()) => at.missing(item),
        _ => {}
    }
    at.diagnosis
}

/// What a diagnosis looks at.
struct At<'a> {
    case: &'a Case,
    style: Style<'a>,
    /// Of each node.
    facts: Vec<Filled>,
    diagnosis: Diagnosis,
}

impl At<'_> {
    fn say(&mut self, reason: String) {
        self.diagnosis.reasons.push(reason);
    }

    fn fact(&self, fact: &Fact) -> String {
        self.style.fact(fact, &self.case.protocol)
    }

    fn step(&self, number: usize) -> String {
        let rule = self.case.names.rule(self.case.nodes[number - 1].rule);
        format!("step {number} ({rule})")
    }

    fn too_long(&mut self, file: usize) {
        let case = self.case;
        let steps = case.steps_bytes.as_deref().unwrap_or_default();
        let (name, bytes, most) = match file {
            1 => (
                PROTOCOL_FILE,
                &case.protocol_bytes[..],
                limits::PROTOCOL_BYTES,
            ),
            2 => (
                PROPERTY_FILE,
                &case.property_bytes[..],
                limits::PROPERTY_BYTES,
            ),
            3 => (GRAPH_FILE, &case.graph_bytes[..], limits::GRAPH_BYTES),
            5 => (STEPS_FILE, steps, limits::STEPS_BYTES),
            _ => return,
        };
        if bytes.len() > most {
            self.say(format!("{name} has more than {most} bytes"));
        }
    }

    fn layout(&mut self, file: usize) {
        let (case, protocol) = (self.case, &self.case.protocol);
        let steps = case.steps_bytes.as_deref().unwrap_or_default();
        let (name, fault) = match file {
            1 => (PROTOCOL_FILE, bytes::protocol(&case.protocol_bytes).err()),
            2 => (
                PROPERTY_FILE,
                bytes::property(&case.property_bytes, protocol).err(),
            ),
            3 => (GRAPH_FILE, bytes::graph(&case.graph_bytes, protocol).err()),
            5 => (STEPS_FILE, bytes::steps(steps, protocol).err()),
            _ => return,
        };
        self.at_fault(name, fault);
    }

    fn no_rule(&mut self) {
        let (case, protocol) = (self.case, &self.case.protocol);
        match &case.steps_bytes {
            Some(steps) => self.at_fault(STEPS_FILE, bytes::steps(steps, protocol).err()),
            None => self.at_fault(GRAPH_FILE, bytes::graph(&case.graph_bytes, protocol).err()),
        }
    }

    fn at_fault(&mut self, file: &'static str, fault: Option<Fault>) {
        let Some(fault) = fault else { return };
        let (part, place) = match fault.part {
            Part::Whole => (String::new(), Place::Byte(file, fault.at)),
            Part::Rule(n) => (format!(", rule {n}"), Place::Rule(n)),
            Part::Node(n) => (format!(", node {n}"), Place::Node(n)),
            Part::Edge(n) => (format!(", edge {n}"), Place::Edge(n)),
        };
        let in_text = self.case.places.is_some();
        self.diagnosis.place = if in_text {
            place
        } else {
            Place::Byte(file, fault.at)
        };
        if file == PROPERTY_FILE && in_text {
            self.diagnosis.place = Place::Property;
        }
        self.say(format!("{file}, byte {}{part}: {}", fault.at, fault.what));
    }

    fn conditions(&mut self, number: usize) {
        let case = self.case;
        let rule = &case.protocol.rules[number - 1];
        let name = &case.names.rules[number - 1];
        let style = Style {
            names: &case.names,
            variables: Some((&case.names.variables[number - 1], &rule.sorts)),
        };
        let said = |fact: &Fact| style.fact(fact, &case.protocol);
        let is_fresh = |term: &Term| term.any(|t| matches!(t, Term::Fresh(_)));
        if let Some(fact) = rule.facts().find(|fact| fact.terms.iter().any(is_fresh)) {
            self.say(format!(
                "P1: rule {name} holds a fresh name, in {}",
                said(fact)
            ));
        }
        if let Some(fact) = rule.premises.iter().find(|f| [K, OUT].contains(&f.symbol)) {
            self.say(format!("P2: rule {name} has the premise {}; no K and no Out is a premise of a protocol's rule", said(fact)));
        }
        if let Some(fact) = rule
            .conclusions
            .iter()
            .find(|f| [K, IN, FR].contains(&f.symbol))
        {
            self.say(format!("P3: rule {name} has the conclusion {}; no K, In or Fr is a conclusion of a protocol's rule", said(fact)));
        }
        self.unbound(number);
    }

    /// P4 and P5: variables of a rule that are not public and stand in no premise.
    fn unbound(&mut self, number: usize) {
        let case = self.case;
        let rule = &case.protocol.rules[number - 1];
        let name = &case.names.rules[number - 1];
        let style = Style {
            names: &case.names,
            variables: Some((&case.names.variables[number - 1], &rule.sorts)),
        };
        let lists = [
            ("P4", "a conclusion", &rule.conclusions),
            ("P5", "an action", &rule.actions),
        ];
        for n in (0..rule.sorts.len()).filter(|n| rule.sorts[*n] != SORT_PUBLIC) {
            let variable = Term::Variable(n as u32);
            let holds = |fact: &Fact| fact.terms.iter().any(|t| t.holds_variable(n as u32));
            if rule.premises.iter().any(holds) {
                continue;
            }
            for (condition, list, _) in lists.iter().filter(|(.., facts)| facts.iter().any(holds)) {
                let variable = style.term(&variable);
                self.say(format!(
                    "{condition}: {variable} stands in {list} of rule {name} and in no premise"
                ));
            }
        }
    }

    fn unfit_property(&mut self) {
        let Some(formula) = &self.case.formula else {
            return;
        };
        let (reason, span) = property::unfit(formula, &self.case.names);
        self.diagnosis.reasons.extend(reason);
        if let Some(span) = span {
            self.diagnosis.place = Place::Text(span);
        }
    }

    fn values(&mut self, number: usize, kernel: &mut Kernel) {
        let node = &self.case.nodes[number - 1];
        let Some(rule) = self.case.protocol.rule(node.rule) else {
            return;
        };
        for (i, (value, sort)) in node.values.iter().zip(&rule.sorts).enumerate() {
            let head = format!("{}: value {}", self.step(number), i + 1);
            let is = format!("{head} is {}", self.style.term(value));
            let symbols = value.symbols();
            let holds_variable = value.any(|t| matches!(t, Term::Variable(_)));
            match (*sort, value) {
                (SORT_FRESH, v) if !matches!(v, Term::Fresh(_)) => {
                    self.say(format!("{is}; it must be a fresh name"))
                }
                (SORT_PUBLIC, v) if !matches!(v, Term::Public(_)) => {
                    self.say(format!("{is}; it must be a public name"))
                }
                _ if symbols > limits::VALUE_SYMBOLS => self.say(format!(
                    "{head} has {symbols} symbols; the most is {}",
                    limits::VALUE_SYMBOLS
                )),
                _ if holds_variable => self.say(format!("{is}; it holds a variable")),
                _ => match kernel.canonical(value, &self.case.protocol) {
                    Ok(Some(form)) if form != *value => {
                        let form = self.style.term(&form);
                        self.say(format!("{is}; its canonical form is {form}"));
                    }
                    _ => {}
                },
            }
        }
    }

    fn too_large(&mut self, number: usize) {
        let node = &self.case.nodes[number - 1];
        let Some(rule) = self.case.protocol.rule(node.rule) else {
            return;
        };
        let symbols = |fact: &Fact| {
            fact.terms
                .iter()
                .map(|t| t.fill(&node.values).symbols())
                .max()
        };
        let most = limits::FILLED_IN_SYMBOLS;
        let large = rule
            .facts()
            .find_map(|fact| symbols(fact).filter(|n| *n > most).map(|n| (fact, n)));
        if let Some((fact, symbols)) = large {
            let name = self.case.names.fact(fact.symbol);
            self.say(format!("{}: a term of {name} has {symbols} symbols with the values filled in; the most is {most}", self.step(number)));
        }
    }

    fn made_twice(&mut self, number: usize) {
        let nodes = &self.case.nodes;
        let node = &nodes[number - 1];
        if let Some(first) = nodes[..number - 1].iter().position(|before| before == node) {
            let name = node.values.first().map(|name| self.style.term(name));
            self.say(format!(
                "{} makes {}, which step {} has made",
                self.step(number),
                name.unwrap_or_default(),
                first + 1
            ));
        }
    }

    fn edge(&mut self, number: usize) {
        let edge = self.case.edges()[number - 1];
        let [source, conclusion, target, premise] = edge.map(|n| n as usize);
        let node = |n: usize| n.checked_sub(1).and_then(|i| self.facts.get(i));
        let from = node(source).map(|f| &f.conclusions);
        let to = node(target).map(|f| &f.premises);
        let said = |facts: Option<&Vec<Fact>>, n: usize, what: &str, step: usize| {
            let Some(facts) = facts else {
                return format!("there is no step {step}");
            };
            match n.checked_sub(1).and_then(|i| facts.get(i)) {
                Some(fact) => self.fact(fact),
                None => format!("step {step} has no {what} {n}"),
            }
        };
        let late = if source >= target {
            "; its source is not an earlier step"
        } else {
            ""
        };
        self.say(format!(
            "edge {}: from {}, to {}{late}",
            print::edge(&edge),
            said(from, conclusion, "conclusion", source),
            said(to, premise, "premise", target)
        ));
    }

    fn premises(&mut self, number: usize) {
        for (i, premise) in self.facts[number - 1].premises.clone().iter().enumerate() {
            let end = [number as u32, i as u32 + 1];
            let into = self.case.edges().iter().filter(|e| e[2..] == end);
            let into: Vec<String> = into.map(|e| format!("{}.{}", e[0], e[1])).collect();
            if into.len() == 1 {
                continue;
            }
            let sources = self.sources(premise, number);
            let hint = match (into.len(), sources.is_empty()) {
                (0, true) => "no edge comes in, and no earlier step makes this fact".into(),
                (0, false) => format!(
                    "no edge comes in; the same fact is at {}",
                    sources.join(", ")
                ),
                (count, _) => format!("{count} edges come in, from {}", into.join(", ")),
            };
            self.say(format!(
                "{}, premise {} {}: {hint}",
                self.step(number),
                i + 1,
                self.fact(premise)
            ));
        }
    }

    /// Conclusions before a node that are a given fact, as they stand in edges.
    fn sources(&self, fact: &Fact, before: usize) -> Vec<String> {
        let mut all = Vec::new();
        for (n, facts) in self.facts[..before - 1].iter().enumerate() {
            let same = facts
                .conclusions
                .iter()
                .enumerate()
                .filter(|(_, c)| *c == fact);
            all.extend(same.map(|(k, _)| format!("{}.{}", n + 1, k + 1)));
        }
        all
    }

    fn used_twice(&mut self, number: usize) {
        for (i, conclusion) in self.facts[number - 1]
            .conclusions
            .clone()
            .iter()
            .enumerate()
        {
            let start = [number as u32, i as u32 + 1];
            let out = self.case.edges().iter().filter(|e| e[..2] == start);
            let to: Vec<String> = out.map(|e| format!("{}.{}", e[2], e[3])).collect();
            if to.len() > 1 && self.case.protocol.linear(conclusion.symbol) {
                self.say(format!(
                    "{}, conclusion {} {} is linear and goes to {}",
                    self.step(number),
                    i + 1,
                    self.fact(conclusion),
                    to.join(" and ")
                ));
            }
        }
    }
}
