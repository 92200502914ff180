//! The numbers of a file, each with what it is, and one of them written in as many groups as there may be, in one more, or not in its
//! shortest form.

use super::runs::Step;
use crate::figures::MOST_GROUPS;
use crate::graph::Edge;
use crate::number::{self, LARGEST, LEAST_WIDE};
use crate::property::Formula;
use crate::protocol::{Fact, Protocol, Rule};
use crate::random::Random;
use crate::term::*;

/// What a number of a file is.
#[derive(Clone, Copy, Debug, PartialEq, Eq, PartialOrd, Ord)]
pub enum Place {
    Count,
    Arity,
    /// 0 linear or 1 persistent.
    Persistence,
    Sort,
    Symbol,
    /// Of a term.
    Tag,
    FormulaTag,
    Variable,
    PublicName,
    FreshName,
    Time,
    RuleNumber,
    EdgeField,
}

/// The numbers of a file in its order.
pub type Numbers = Vec<(Place, u32)>;

/// How a number is written.
#[derive(Clone, Copy, Debug, PartialEq, Eq, PartialOrd, Ord)]
pub enum Form {
    /// Another number, of as many groups as there may be.
    Wide,
    /// A group more.
    TooLong,
    /// As many groups as there may be, the last of them zero.
    NotShortest,
}

pub const FORMS: [Form; 3] = [Form::Wide, Form::TooLong, Form::NotShortest];

pub fn of_protocol(protocol: &Protocol) -> Numbers {
    let mut numbers = Vec::new();
    counted(&mut numbers, &protocol.signature.free, |numbers, arity| {
        numbers.push((Place::Arity, *arity as u32));
    });
    counted(&mut numbers, &protocol.own, |numbers, symbol| {
        numbers.push((Place::Arity, symbol.arity as u32));
        numbers.push((Place::Persistence, u32::from(symbol.persistent)));
    });
    counted(&mut numbers, &protocol.rules, rule);
    numbers
}

pub fn of_property(property: &Formula) -> Numbers {
    let mut numbers = Vec::new();
    formula(&mut numbers, property);
    numbers
}

pub fn of_steps(steps: &[Step]) -> Numbers {
    let mut numbers = Vec::new();
    counted(&mut numbers, steps, |numbers, step| {
        numbers.push((Place::RuleNumber, step.rule));
        step.values.iter().for_each(|value| term(numbers, value));
    });
    numbers
}

pub fn of_graph(steps: &[Step], edges: &[Edge]) -> Numbers {
    let mut numbers = of_steps(steps);
    counted(&mut numbers, edges, |numbers, edge| {
        let fields = [edge.source, edge.conclusion, edge.target, edge.premise];
        numbers.extend(fields.map(|field| (Place::EdgeField, field as u32)));
    });
    numbers
}

pub fn of_term(whole: &Term) -> Numbers {
    let mut numbers = Vec::new();
    term(&mut numbers, whole);
    numbers
}

fn counted<T>(numbers: &mut Numbers, items: &[T], item: impl Fn(&mut Numbers, &T)) {
    numbers.push((Place::Count, items.len() as u32));
    for each in items {
        item(numbers, each);
    }
}

fn term(numbers: &mut Numbers, term: &Term) {
    let (tag, leaf) = match term {
        Term::Variable(number) => (VARIABLE, Some((Place::Variable, *number))),
        Term::Public(Public(number)) => (PUBLIC, Some((Place::PublicName, *number))),
        Term::Fresh(Fresh(number)) => (FRESH, Some((Place::FreshName, *number))),
        Term::Apply(tag, _) => (*tag, None),
    };
    numbers.push((Place::Tag, tag));
    numbers.extend(leaf);
    terms(numbers, term.arguments());
}

fn terms(numbers: &mut Numbers, terms: &[Term]) {
    terms.iter().for_each(|each| term(numbers, each));
}

fn fact(numbers: &mut Numbers, fact: &Fact) {
    numbers.push((Place::Symbol, fact.symbol));
    terms(numbers, &fact.terms);
}

fn rule(numbers: &mut Numbers, rule: &Rule) {
    counted(numbers, &rule.variables, |numbers, sort| {
        numbers.push((Place::Sort, *sort as u32));
    });
    for facts in [&rule.premises, &rule.actions, &rule.conclusions] {
        counted(numbers, facts, fact);
    }
}

fn formula(numbers: &mut Numbers, whole: &Formula) {
    numbers.push((Place::FormulaTag, whole.tag()));
    match whole {
        Formula::False => {}
        Formula::Equal(left, right) | Formula::Unequal(left, right) => {
            term(numbers, left);
            term(numbers, right);
        }
        Formula::Before(left, right)
        | Formula::NotBefore(left, right)
        | Formula::SameTime(left, right)
        | Formula::NotSameTime(left, right) => {
            numbers.extend([(Place::Time, *left), (Place::Time, *right)]);
        }
        Formula::Action(action, time) | Formula::NoAction(action, time) => {
            fact(numbers, action);
            numbers.push((Place::Time, *time));
        }
        Formula::And(left, right) | Formula::Or(left, right) => {
            formula(numbers, left);
            formula(numbers, right);
        }
        Formula::Exists(quantifier) | Formula::ForAll(quantifier) => {
            counted(numbers, &quantifier.new, |numbers, sort| {
                numbers.push((Place::Sort, *sort as u32));
            });
            fact(numbers, &quantifier.guard);
            numbers.push((Place::Time, quantifier.time));
            formula(numbers, &quantifier.body);
        }
    }
}

/// The file of these numbers.
pub fn encoded(numbers: &[(Place, u32)]) -> Vec<u8> {
    let mut bytes = Vec::new();
    for (_, each) in numbers {
        number::write(*each, &mut bytes);
    }
    bytes
}

/// A number of as many groups as there may be; without its last group it may be the given one.
pub fn wide(random: &mut Random, number: u32) -> u32 {
    let without = number % LEAST_WIDE;
    let last = 1 + random.below(127) as u32;
    *random.choose(&[
        LEAST_WIDE,
        without + LEAST_WIDE,
        without + last * LEAST_WIDE,
        LARGEST,
    ])
}

/// The file with another tag in place of one, and which: of aenc to true, behind them, or of a free function.
pub fn retagged(random: &mut Random, numbers: &Numbers) -> (Vec<u8>, u32) {
    let is_tag = |at: &usize| matches!(numbers[*at].0, Place::Tag | Place::FormulaTag);
    let tags: Vec<usize> = (0..numbers.len()).filter(is_tag).collect();
    let free = FREE + random.below(16) as u32;
    let signing = AENC + random.below(6) as u32;
    let tag = *random.choose(&[free, signing, signing, TRUE + 1, TRUE + 2]);
    let mut numbers = numbers.clone();
    if !tags.is_empty() {
        numbers[*random.choose(&tags)].1 = tag;
    }
    (encoded(&numbers), tag)
}

/// The file with one of its numbers written otherwise, and which: any of the places that the file has, a number there, any form.
pub fn spoiled(random: &mut Random, numbers: &Numbers) -> (Vec<u8>, Place, Form) {
    let mut places: Vec<Place> = numbers.iter().map(|(place, _)| *place).collect();
    places.sort();
    places.dedup();
    let place = *random.choose(&places);
    let of_place = (0..numbers.len()).filter(|at| numbers[*at].0 == place);
    let at = *random.choose(&of_place.collect::<Vec<usize>>());
    let form = *random.choose(&FORMS);
    let mut bytes = encoded(&numbers[..at]);
    bytes.extend(written(random, numbers[at].1, form));
    bytes.extend(encoded(&numbers[at + 1..]));
    (bytes, place, form)
}

fn written(random: &mut Random, number: u32, form: Form) -> Vec<u8> {
    let mut bytes = Vec::new();
    if form == Form::Wide {
        number::write(wide(random, number), &mut bytes);
        return bytes;
    }
    // Another group follows each of these.
    let full = match form {
        Form::NotShortest => MOST_GROUPS - 1,
        _ => MOST_GROUPS,
    };
    let group = |place: usize| ((number % LEAST_WIDE) >> (7 * place)) as u8 | 128;
    bytes.extend((0..full).map(group));
    bytes.push(match form {
        Form::NotShortest => 0,
        _ => *random.choose(&[0, 1, 0x7F]),
    });
    bytes
}
