//! What a property means over a trace.
//!
//! "Quantifiers range over all messages and whole numbers." Every new variable of a fit quantifier stands
//! in its guard, so the guard holds for finitely many values alone, and all of these stand in the trace.

use crate::property::{Formula, Quantifier};
use crate::protocol::Fact;
use crate::term::Term;

/// "The trace gives each node number, from 1, the actions of that node, perhaps none." Node 1 comes
/// first; messages are canonical.
pub type Trace<'a> = [&'a [Fact]];

#[derive(Clone, Debug, PartialEq, Eq)]
pub enum Value {
    Message(Term),
    Time(usize),
}

/// Whether the trace makes the formula true under a value for each variable in scope.
pub fn holds(trace: &Trace, values: &[Value], formula: &Formula) -> bool {
    let same = |left, right| message(values, left) == message(values, right);
    let at = |number: &u32| time(values, *number);
    match formula {
        Formula::False => false,
        Formula::Equal(left, right) => same(left, right),
        Formula::Unequal(left, right) => !same(left, right),
        Formula::Before(left, right) => at(left) < at(right),
        Formula::NotBefore(left, right) => at(left) >= at(right),
        Formula::SameTime(left, right) => at(left) == at(right),
        Formula::NotSameTime(left, right) => at(left) != at(right),
        Formula::Action(fact, time) => is_action(trace, values, fact, at(time)),
        Formula::NoAction(fact, time) => !is_action(trace, values, fact, at(time)),
        Formula::And(left, right) => holds(trace, values, left) && holds(trace, values, right),
        Formula::Or(left, right) => holds(trace, values, left) || holds(trace, values, right),
        Formula::Exists(quantifier) => guarded(trace, values, quantifier)
            .iter()
            .any(|inner| holds(trace, inner, &quantifier.body)),
        Formula::ForAll(quantifier) => guarded(trace, values, quantifier)
            .iter()
            .all(|inner| holds(trace, inner, &quantifier.body)),
    }
}

/// The message that a term of a property stands for; a public name stands for itself.
fn message<'a>(values: &'a [Value], term: &'a Term) -> &'a Term {
    match term {
        Term::Variable(number) => match &values[*number as usize] {
            Value::Message(message) => message,
            Value::Time(_) => unreachable!("a fit property"),
        },
        name => name,
    }
}

fn time(values: &[Value], number: u32) -> usize {
    match values[number as usize] {
        Value::Time(time) => time,
        Value::Message(_) => unreachable!("a fit property"),
    }
}

/// "A fact is an action at a time when the node of that number has an equal one; other numbers have
/// none."
fn is_action(trace: &Trace, values: &[Value], fact: &Fact, time: usize) -> bool {
    let equal = |action: &Fact| {
        let mut terms = fact.terms.iter().zip(&action.terms);
        action.symbol == fact.symbol && terms.all(|(term, part)| message(values, term) == part)
    };
    let node = time.checked_sub(1).and_then(|place| trace.get(place));
    node.is_some_and(|actions| actions.iter().any(equal))
}

/// The values of outer and new variables under which the guard holds.
fn guarded(trace: &Trace, outer: &[Value], quantifier: &Quantifier) -> Vec<Vec<Value>> {
    let entries = (1..)
        .zip(trace)
        .flat_map(|(time, actions)| actions.iter().map(move |action| (time, action)));
    entries
        .filter_map(|(time, action)| matching(outer, quantifier, time, action))
        .collect()
}

/// The new variables' values with which the guard is this action at this time, if there are any.
fn matching(
    outer: &[Value],
    quantifier: &Quantifier,
    time: usize,
    action: &Fact,
) -> Option<Vec<Value>> {
    let guard = &quantifier.guard;
    if guard.symbol != action.symbol {
        return None;
    }
    let mut values: Vec<Option<Value>> = outer.iter().cloned().map(Some).collect();
    values.resize(outer.len() + quantifier.new.len(), None);
    bind(&mut values, quantifier.time, Value::Time(time))?;
    for (term, part) in guard.terms.iter().zip(&action.terms) {
        match term {
            Term::Variable(number) => bind(&mut values, *number, Value::Message(part.clone()))?,
            name if name == part => {}
            _ => return None,
        }
    }
    values.into_iter().collect()
}

/// Gives a variable its value, or finds that it has this value already.
fn bind(values: &mut [Option<Value>], number: u32, value: Value) -> Option<()> {
    let place = &mut values[number as usize];
    match place {
        Some(known) => (*known == value).then_some(()),
        None => {
            *place = Some(value);
            Some(())
        }
    }
}
