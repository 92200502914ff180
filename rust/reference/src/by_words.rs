//! What a property means by its words alone: new variables take every value of a finite domain, and a guard is
//! an atom like others. It shares no code with `judge`, and takes long where there are many values.

use crate::judge::Trace;
use crate::number::LARGEST;
use crate::property::{Formula, Quantifier, Sort};
use crate::protocol::Fact;
use crate::term::{Fresh, Public, Term};

#[derive(Clone, Debug, PartialEq, Eq)]
enum Value {
    Message(Term),
    Time(i64),
}

/// A trace, and the values of variables.
struct World<'a> {
    trace: &'a Trace<'a>,
    messages: Vec<Value>,
    times: Vec<Value>,
}

/// Whether the trace makes a property true.
pub fn holds(trace: &Trace, property: &Formula) -> bool {
    let world = World {
        trace,
        messages: messages(trace, property),
        times: times(trace).map(Value::Time).collect(),
    };
    world.holds(&mut Vec::new(), property)
}

/// How many assignments are tried, at most.
pub fn cost(trace: &Trace, property: &Formula) -> f64 {
    let messages = messages(trace, property).len();
    assignments(messages as f64, times(trace).count() as f64, property)
}

/// The same, with so many messages and times.
fn assignments(messages: f64, times: f64, formula: &Formula) -> f64 {
    match formula {
        Formula::And(left, right) | Formula::Or(left, right) => {
            assignments(messages, times, left) + assignments(messages, times, right)
        }
        Formula::Exists(quantifier) | Formula::ForAll(quantifier) => {
            let of_sort = |sort: &Sort| match sort {
                Sort::Message => messages,
                Sort::Time => times,
            };
            let new: f64 = quantifier.new.iter().map(of_sort).product();
            new * assignments(messages, times, &quantifier.body)
        }
        _ => 1.0,
    }
}

/// The times of the nodes and some others.
fn times(trace: &Trace) -> impl Iterator<Item = i64> {
    -1..=trace.len() as i64 + 2
}

/// The messages of the trace, the public names of the property, and two that are in no file.
fn messages(trace: &Trace, property: &Formula) -> Vec<Value> {
    let actions = trace.iter().flat_map(|actions| *actions);
    let mut terms: Vec<Term> = actions.flat_map(|fact| fact.terms.clone()).collect();
    names(property, &mut terms);
    terms.push(Term::Public(Public(LARGEST + 1)));
    terms.push(Term::Fresh(Fresh(LARGEST + 1)));
    let mut messages = Vec::new();
    for message in terms.into_iter().map(Value::Message) {
        if !messages.contains(&message) {
            messages.push(message);
        }
    }
    messages
}

fn names(formula: &Formula, names: &mut Vec<Term>) {
    let mut add = |terms: &[Term]| {
        let public = terms.iter().filter(|term| matches!(term, Term::Public(_)));
        names.extend(public.cloned());
    };
    match formula {
        Formula::Equal(left, right) | Formula::Unequal(left, right) => {
            add(&[left.clone(), right.clone()]);
        }
        Formula::Action(fact, _) | Formula::NoAction(fact, _) => add(&fact.terms),
        Formula::And(left, right) | Formula::Or(left, right) => {
            self::names(left, names);
            self::names(right, names);
        }
        Formula::Exists(quantifier) | Formula::ForAll(quantifier) => {
            add(&quantifier.guard.terms);
            self::names(&quantifier.body, names);
        }
        _ => {}
    }
}

impl World<'_> {
    /// Whether the formula is true with these values of the variables in scope.
    fn holds<'a>(&'a self, values: &mut Vec<&'a Value>, formula: &Formula) -> bool {
        match formula {
            Formula::False => false,
            Formula::Equal(left, right) => message(values, left) == message(values, right),
            Formula::Unequal(left, right) => message(values, left) != message(values, right),
            Formula::Before(left, right) => time(values, left) < time(values, right),
            Formula::NotBefore(left, right) => time(values, left) >= time(values, right),
            Formula::SameTime(left, right) => time(values, left) == time(values, right),
            Formula::NotSameTime(left, right) => time(values, left) != time(values, right),
            Formula::Action(fact, at) => self.is_action(values, fact, time(values, at)),
            Formula::NoAction(fact, at) => !self.is_action(values, fact, time(values, at)),
            Formula::And(left, right) => self.holds(values, left) && self.holds(values, right),
            Formula::Or(left, right) => self.holds(values, left) || self.holds(values, right),
            Formula::Exists(quantifier) => self.some(values, &quantifier.new, &|inner| {
                self.guard(inner, quantifier) && self.holds(inner, &quantifier.body)
            }),
            Formula::ForAll(quantifier) => !self.some(values, &quantifier.new, &|inner| {
                self.guard(inner, quantifier) && !self.holds(inner, &quantifier.body)
            }),
        }
    }

    /// Whether some values of the new variables, behind the outer ones, are as wanted.
    fn some<'a>(
        &'a self,
        values: &mut Vec<&'a Value>,
        new: &[Sort],
        wanted: &dyn Fn(&mut Vec<&'a Value>) -> bool,
    ) -> bool {
        let Some((sort, rest)) = new.split_first() else {
            return wanted(values);
        };
        let domain = match sort {
            Sort::Message => &self.messages,
            Sort::Time => &self.times,
        };
        domain.iter().any(|value| {
            values.push(value);
            let found = self.some(values, rest, wanted);
            values.pop();
            found
        })
    }

    fn guard(&self, values: &[&Value], quantifier: &Quantifier) -> bool {
        self.is_action(values, &quantifier.guard, time(values, &quantifier.time))
    }

    /// "A fact is an action at a time when the node of that number has an equal one; other numbers have
    /// none."
    fn is_action(&self, values: &[&Value], fact: &Fact, time: i64) -> bool {
        let nodes = (1..).zip(self.trace);
        let mut actions = nodes
            .filter(|(node, _)| *node == time)
            .flat_map(|(_, own)| *own);
        actions.any(|action| {
            let terms: Vec<&Term> = fact
                .terms
                .iter()
                .map(|term| message(values, term))
                .collect();
            action.symbol == fact.symbol && action.terms.iter().eq(terms)
        })
    }
}

fn message<'a>(values: &[&'a Value], term: &'a Term) -> &'a Term {
    let Term::Variable(number) = term else {
        return term;
    };
    match values[*number as usize] {
        Value::Message(message) => message,
        Value::Time(_) => panic!("a time where a message stands"),
    }
}

fn time(values: &[&Value], number: &u32) -> i64 {
    match values[*number as usize] {
        Value::Time(time) => *time,
        Value::Message(_) => panic!("a message where a time stands"),
    }
}
