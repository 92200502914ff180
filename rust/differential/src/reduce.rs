//! The smallest input near one on which the implementations differ.

use crate::input::{Call, Input};
use reference::generate::runs::{encoded, Step};
use reference::graph::{read_edges, write_edges, Edge};
use reference::number::Reader;
use reference::property::{self, Formula};
use reference::protocol::{numbered, Numbered, Protocol, Rule};
use reference::term::{Fresh, Prefix, Public, Term};

/// The files of a check or of drawing, as trees and lists.
#[derive(Clone)]
struct Parts {
    protocol: Protocol,
    /// None where there is none, or it is not laid out well.
    property: Option<Formula>,
    steps: Vec<Step>,
    edges: Vec<Edge>,
}

/// Smaller and still different.
pub fn reduced(mut input: Input) -> Input {
    loop {
        let before = size(&input);
        lent_lengths(&mut input);
        protocol(&mut input);
        if input.call != Call::Canonical {
            nodes(&mut input);
            edges(&mut input);
            rules(&mut input);
            others(&mut input);
        }
        bytes(&mut input);
        if size(&input) == before {
            return input;
        }
    }
}

/// Fewer bytes, then smaller ones, then less lent.
fn size(input: &Input) -> (usize, usize, usize) {
    let bytes = || input.files.iter().flatten();
    let sum = bytes().map(|byte| usize::from(*byte)).sum();
    (bytes().count(), sum, input.work + input.output)
}

/// Takes the candidate if it is smaller and the implementations differ on it.
fn take(input: &mut Input, candidate: Input) -> bool {
    let better = size(&candidate) < size(input) && candidate.agreed().is_err();
    if better {
        *input = candidate;
    }
    better
}

/// Takes away runs of items, long ones first, as long as that helps. `without` gives the input without these, if there are so many.
fn cut(input: &mut Input, count: usize, without: impl Fn(&Input, usize, usize) -> Option<Input>) {
    let mut length = count.next_power_of_two();
    while length > 0 {
        let mut start = 0;
        while let Some(candidate) = without(input, start, length) {
            if !take(input, candidate) {
                start += length;
            }
        }
        length /= 2;
    }
}

fn lent_lengths(input: &mut Input) {
    for (work, output) in [(65_536, 0), (65_536, input.output), (input.work, 0)] {
        let candidate = Input {
            work,
            output,
            ..input.clone()
        };
        take(input, candidate);
    }
}

/// No protocol at all, or fewer rules, symbols or functions at its end.
fn protocol(input: &mut Input) {
    let mut candidate = input.clone();
    candidate.files[0] = vec![0, 0, 0];
    take(input, candidate);
    let shorter: [fn(&mut Protocol) -> bool; 3] = [
        |protocol| protocol.rules.pop().is_some(),
        |protocol| protocol.own.pop().is_some(),
        |protocol| protocol.signature.free.pop().is_some(),
    ];
    for shorten in shorter {
        while let Ok(mut protocol) = Protocol::read(&input.files[0]) {
            let mut candidate = input.clone();
            let done = shorten(&mut protocol);
            candidate.files[0] = protocol.encoded();
            if !done || !take(input, candidate) {
                break;
            }
        }
    }
}

fn bytes(input: &mut Input) {
    for file in 0..input.files.len() {
        let count = input.files[file].len();
        cut(input, count, |input, start, length| {
            let mut candidate = input.clone();
            let end = candidate.files[file].len().min(start + length);
            if start >= end {
                return None;
            }
            candidate.files[file].drain(start..end);
            Some(candidate)
        });
        for place in 0..input.files[file].len() {
            let mut candidate = input.clone();
            candidate.files[file][place] = 0;
            take(input, candidate);
        }
    }
}

/// The parts, where the files hold just them.
fn parts(input: &Input) -> Option<Parts> {
    let protocol = Protocol::read(&input.files[0]).ok()?;
    let property = match input.call {
        Call::Check => property::read(&input.files[1], &protocol).ok(),
        _ => None,
    };
    let mut reader = Reader::new(input.files.last()?);
    let count = reader.number().ok()?;
    let steps = (0..count).map(|_| step(&protocol, &mut reader));
    let steps = steps.collect::<Option<_>>()?;
    let edges = match input.call {
        Call::Check => read_edges(&mut reader).ok()?,
        _ => vec![],
    };
    let parts = Parts {
        protocol,
        property,
        steps,
        edges,
    };
    let same = files(&parts, input) == input.files;
    same.then_some(parts)
}

fn step(protocol: &Protocol, reader: &mut Reader) -> Option<Step> {
    let rule = reader.number().ok()?;
    let value = |_| Some(Prefix::read(reader, &protocol.signature).ok()?.tree());
    let variables = protocol.rule(rule)?.variables.len();
    let values = (0..variables).map(value).collect::<Option<_>>()?;
    Some(Step { rule, values })
}

/// The files again; the property's bytes stand for one that is not laid out well.
fn files(parts: &Parts, input: &Input) -> Vec<Vec<u8>> {
    let (protocol, mut nodes) = (parts.protocol.encoded(), encoded(&parts.steps));
    if input.call != Call::Check {
        return vec![protocol, nodes];
    }
    write_edges(&parts.edges, &mut nodes);
    let property = match &parts.property {
        Some(formula) => formula.encoded(),
        None => input.files[1].clone(),
    };
    vec![protocol, property, nodes]
}

/// The input with its parts changed, if it has parts and the change can be made.
fn changed(input: &Input, change: impl FnOnce(&mut Parts) -> bool) -> Option<Input> {
    let mut parts = parts(input)?;
    let done = change(&mut parts);
    done.then(|| Input {
        files: files(&parts, input),
        ..input.clone()
    })
}

fn count(input: &Input, of: impl Fn(&Parts) -> usize) -> usize {
    parts(input).map_or(0, |parts| of(&parts))
}

/// Nodes go with the edges at them; the others' numbers fall.
fn nodes(input: &mut Input) {
    let nodes = count(input, |parts| parts.steps.len());
    cut(input, nodes, |input, start, length| {
        changed(input, |parts| {
            let end = parts.steps.len().min(start + length);
            if start >= end {
                return false;
            }
            parts.steps.drain(start..end);
            let gone = |node: &usize| (start + 1..=end).contains(node);
            parts
                .edges
                .retain(|edge| !gone(&edge.source) && !gone(&edge.target));
            for edge in &mut parts.edges {
                for node in [&mut edge.source, &mut edge.target] {
                    if *node > end {
                        *node -= end - start;
                    }
                }
            }
            true
        })
    });
}

fn edges(input: &mut Input) {
    let edges = count(input, |parts| parts.edges.len());
    cut(input, edges, |input, start, length| {
        changed(input, |parts| {
            let end = parts.edges.len().min(start + length);
            let some = start < end;
            if some {
                parts.edges.drain(start..end);
            }
            some
        })
    });
}

/// Rules that no node is of, and facts of rules.
fn rules(input: &mut Input) {
    for rule in (0..count(input, |parts| parts.protocol.rules.len())).rev() {
        let without = changed(input, |parts| {
            parts.protocol.rules.remove(rule);
            for step in &mut parts.steps {
                match numbered(step.rule) {
                    Some(Numbered::Own(own)) if own > rule as u32 => step.rule -= 1,
                    _ => {}
                }
            }
            true
        });
        without.map(|candidate| take(input, candidate));
    }
    let lists: [fn(&mut Rule) -> &mut Vec<_>; 3] = [
        |rule| &mut rule.premises,
        |rule| &mut rule.actions,
        |rule| &mut rule.conclusions,
    ];
    for rule in 0..count(input, |parts| parts.protocol.rules.len()) {
        for list in lists {
            for place in (0..8).rev() {
                let without = changed(input, |parts| {
                    let facts = list(&mut parts.protocol.rules[rule]);
                    let some = place < facts.len();
                    if some {
                        facts.remove(place);
                    }
                    some
                });
                without.map(|candidate| take(input, candidate));
            }
        }
    }
}

/// Smaller values, the same one everywhere, and smaller properties.
fn others(input: &mut Input) {
    let Some(whole) = parts(input) else {
        return;
    };
    let values = whole.steps.iter().flat_map(|step| step.values.clone());
    let mut values: Vec<Term> = values.collect();
    values.sort_by_key(|value| std::cmp::Reverse(value.symbols()));
    values.dedup();
    for value in &values {
        let leaves = [Term::Public(Public(0)), Term::Fresh(Fresh(0))];
        for other in leaves.iter().chain(value.arguments()) {
            let candidate = changed(input, |parts| {
                let steps = parts.steps.iter_mut();
                let all = steps.flat_map(|step| &mut step.values);
                all.for_each(|place| *place = replaced(place, value, other));
                true
            });
            candidate.map(|candidate| take(input, candidate));
        }
    }
    while let Some(formula) = parts(input).and_then(|parts| parts.property) {
        let mut candidates = smaller(&formula).into_iter();
        let found = candidates.any(|property| {
            let candidate = changed(input, |parts| {
                parts.property = Some(property);
                true
            });
            candidate.is_some_and(|candidate| take(input, candidate))
        });
        if !found {
            return;
        }
    }
}

/// The term with one part in place of another, everywhere.
fn replaced(term: &Term, from: &Term, to: &Term) -> Term {
    match term {
        _ if term == from => to.clone(),
        Term::Apply(tag, arguments) => {
            Term::apply(*tag, arguments.iter().map(|part| replaced(part, from, to)))
        }
        leaf => leaf.clone(),
    }
}

/// Formulas with one part less.
fn smaller(formula: &Formula) -> Vec<Formula> {
    let below = |part: &Formula, around: &dyn Fn(Box<Formula>) -> Formula| -> Vec<Formula> {
        let parts = smaller(part).into_iter();
        parts.map(|part| around(Box::new(part))).collect()
    };
    let mut found = vec![Formula::False];
    match formula {
        Formula::And(left, right) | Formula::Or(left, right) => {
            let both = |left, right| match formula {
                Formula::And(..) => Formula::And(left, right),
                _ => Formula::Or(left, right),
            };
            found.extend([(**left).clone(), (**right).clone()]);
            found.extend(below(left, &|part| both(part, right.clone())));
            found.extend(below(right, &|part| both(left.clone(), part)));
        }
        Formula::Exists(quantifier) | Formula::ForAll(quantifier) => {
            let over = |body| {
                let mut quantifier = quantifier.clone();
                quantifier.body = body;
                match formula {
                    Formula::Exists(_) => Formula::Exists(quantifier),
                    _ => Formula::ForAll(quantifier),
                }
            };
            found.push((*quantifier.body).clone());
            found.extend(below(&quantifier.body, &over));
        }
        _ => {}
    }
    found
}
