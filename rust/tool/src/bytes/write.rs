//! Trees to the files' bytes.

use crate::model::*;

fn put(out: &mut Vec<u8>, mut n: u32) {
    while n >= 0x80 {
        out.push((n & 0x7F) as u8 | 0x80);
        n >>= 7;
    }
    out.push(n as u8);
}

fn put_all(out: &mut Vec<u8>, numbers: &[u32]) {
    numbers.iter().for_each(|n| put(out, *n));
}

fn put_term(out: &mut Vec<u8>, term: &Term) {
    match term {
        Term::Variable(n) => put_all(out, &[0, *n]),
        Term::Public(n) => put_all(out, &[1, *n]),
        Term::Fresh(n) => put_all(out, &[2, *n]),
        Term::Apply(tag, arguments) => {
            put(out, *tag);
            put_terms(out, arguments);
        }
        Term::Large(bytes, _) => out.extend_from_slice(bytes),
    }
}

fn put_terms(out: &mut Vec<u8>, terms: &[Term]) {
    terms.iter().for_each(|term| put_term(out, term));
}

fn put_fact(out: &mut Vec<u8>, fact: &Fact) {
    put(out, fact.symbol);
    put_terms(out, &fact.terms);
}

fn put_quantifier(out: &mut Vec<u8>, tag: u32, quantifier: &Quantifier) {
    put_all(out, &[tag, quantifier.sorts.len() as u32]);
    put_all(out, &quantifier.sorts);
    put_fact(out, &quantifier.guard);
    put(out, quantifier.time);
    put_formula(out, &quantifier.body);
}

fn put_formula(out: &mut Vec<u8>, formula: &Formula) {
    let mut terms = |tag, a: &Term, b: &Term| {
        put(out, tag);
        put_term(out, a);
        put_term(out, b);
    };
    match formula {
        Formula::False => put(out, 0),
        Formula::Equal(a, b) => terms(1, a, b),
        Formula::Unequal(a, b) => terms(2, a, b),
        Formula::Before(a, b) => put_all(out, &[3, *a, *b]),
        Formula::NotBefore(a, b) => put_all(out, &[4, *a, *b]),
        Formula::SameTime(a, b) => put_all(out, &[5, *a, *b]),
        Formula::NotSameTime(a, b) => put_all(out, &[6, *a, *b]),
        Formula::Action(fact, time) | Formula::NoAction(fact, time) => {
            let action = matches!(formula, Formula::Action(..));
            put(out, if action { 7 } else { 8 });
            put_fact(out, fact);
            put(out, *time);
        }
        Formula::And(a, b) | Formula::Or(a, b) => {
            let and = matches!(formula, Formula::And(..));
            put(out, if and { 9 } else { 10 });
            put_formula(out, a);
            put_formula(out, b);
        }
        Formula::Exists(quantifier) => put_quantifier(out, 11, quantifier),
        Formula::ForAll(quantifier) => put_quantifier(out, 12, quantifier),
    }
}

fn put_rule(out: &mut Vec<u8>, rule: &Rule) {
    put(out, rule.sorts.len() as u32);
    put_all(out, &rule.sorts);
    for part in [&rule.premises, &rule.actions, &rule.conclusions] {
        put(out, part.len() as u32);
        part.iter().for_each(|fact| put_fact(out, fact));
    }
}

pub fn encode_term(term: &Term) -> Vec<u8> {
    let mut out = Vec::new();
    put_term(&mut out, term);
    out
}

pub fn encode_protocol(protocol: &Protocol) -> Vec<u8> {
    let mut out = Vec::new();
    put(&mut out, protocol.functions.len() as u32);
    put_all(&mut out, &protocol.functions);
    put(&mut out, protocol.facts.len() as u32);
    for (arity, persistent) in &protocol.facts {
        put_all(&mut out, &[*arity, u32::from(*persistent)]);
    }
    put(&mut out, protocol.rules.len() as u32);
    protocol.rules.iter().for_each(|r| put_rule(&mut out, r));
    out
}

pub fn encode_property(formula: &Formula) -> Vec<u8> {
    let mut out = Vec::new();
    put_formula(&mut out, formula);
    out
}

pub fn encode_steps(nodes: &[Node]) -> Vec<u8> {
    let mut out = Vec::new();
    put(&mut out, nodes.len() as u32);
    for node in nodes {
        put(&mut out, node.rule);
        put_terms(&mut out, &node.values);
    }
    out
}

pub fn encode_graph(graph: &Graph) -> Vec<u8> {
    let mut out = encode_steps(&graph.nodes);
    put(&mut out, graph.edges.len() as u32);
    graph.edges.iter().for_each(|edge| put_all(&mut out, edge));
    out
}
