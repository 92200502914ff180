//! The actions that make a property false. The core has ruled; this reads the property once more, only to show why, and is compared with the ruling.

use crate::case::Case;
use crate::kernel::{Ruled, Ruling};
use crate::model::*;
use crate::print::Style;
use serde::Serialize;

/// One match of a guard on the way to a false property.
#[derive(Clone, Debug, PartialEq, Serialize)]
pub struct Match {
    pub node: usize,
    /// From 1.
    pub action: usize,
    pub fact: String,
    /// The new variables with what they stand for.
    pub bound: Vec<(String, String)>,
}

/// Why a property is false.
#[derive(Clone, Debug, Default, PartialEq, Serialize)]
pub struct Witness {
    pub matches: Vec<Match>,
    /// What the property asks for and no action gives.
    pub missing: Vec<String>,
}

impl Witness {
    fn and(mut self, other: Witness) -> Witness {
        self.matches.extend(other.matches);
        for missing in other.missing {
            if !self.missing.contains(&missing) {
                self.missing.push(missing);
            }
        }
        self
    }
}

/// What the tool's own reading says beside the ruling.
#[derive(Debug, PartialEq)]
pub enum Reading {
    /// It agrees; of an attack, with the reason.
    Agrees(Option<Witness>),
    Differs,
    /// There is nothing to read, or it takes too long.
    Silent,
}

/// Comparisons of a guard with an action before the reading is given up.
const MOST_COMPARISONS: usize = 5_000_000;

pub fn read(case: &Case, ruling: &Ruled) -> Reading {
    let (Some(graph), Some(formula)) = (&case.graph, &case.formula) else {
        return Reading::Silent;
    };
    if ruling.is_err() {
        return Reading::Silent;
    }
    let mut kernel = case.kernel();
    let facts = |node| kernel.facts(node, &case.protocol).actions;
    let mut judge = Judge {
        trace: graph.nodes.iter().map(facts).collect(),
        case,
        comparisons: 0,
        names: Vec::new(),
    };
    let found = judge.falsify(formula, &[]);
    if judge.comparisons > MOST_COMPARISONS {
        return Reading::Silent;
    }
    match (ruling, found) {
        (Ok(Ruling::Attack(_)), Some(witness)) => Reading::Agrees(Some(witness)),
        (Ok(Ruling::Run(_)), None) => Reading::Agrees(None),
        _ => Reading::Differs,
    }
}

#[derive(Clone, Debug, PartialEq)]
enum Value {
    Message(Term),
    Time(usize),
}

struct Judge<'a> {
    trace: Vec<Vec<Fact>>,
    case: &'a Case,
    comparisons: usize,
    /// The names of the variables in scope.
    names: Vec<String>,
}

impl Judge<'_> {
    /// Why the formula is false, or nothing where it is true.
    fn falsify(&mut self, formula: &Formula, scope: &[Value]) -> Option<Witness> {
        let value = |n: &u32| scope.get(*n as usize);
        let message = |term: &Term| match term {
            Term::Variable(n) => value(n).cloned(),
            other => Some(Value::Message(other.clone())),
        };
        let time = |n: &u32| match value(n) {
            Some(Value::Time(time)) => *time,
            _ => 0,
        };
        let holds = match formula {
            Formula::False => false,
            Formula::Equal(a, b) => message(a) == message(b),
            Formula::Unequal(a, b) => message(a) != message(b),
            Formula::Before(a, b) => time(a) < time(b),
            Formula::NotBefore(a, b) => time(a) >= time(b),
            Formula::SameTime(a, b) => time(a) == time(b),
            Formula::NotSameTime(a, b) => time(a) != time(b),
            Formula::Action(fact, t) => self.is_action(fact, time(t), scope),
            Formula::NoAction(fact, t) => !self.is_action(fact, time(t), scope),
            Formula::And(a, b) => {
                return self.falsify(a, scope).or_else(|| self.falsify(b, scope));
            }
            Formula::Or(a, b) => {
                let first = self.falsify(a, scope)?;
                return Some(first.and(self.falsify(b, scope)?));
            }
            Formula::ForAll(q) => return self.falsify_all(q, scope),
            Formula::Exists(q) => return self.falsify_exists(q, scope),
        };
        (!holds).then(Witness::default)
    }

    fn is_action(&self, fact: &Fact, time: usize, scope: &[Value]) -> bool {
        let is = |(wanted, is): (&Term, &Term)| match wanted {
            Term::Variable(n) => scope.get(*n as usize) == Some(&Value::Message(is.clone())),
            other => other == is,
        };
        let actions = time.checked_sub(1).and_then(|i| self.trace.get(i));
        actions.is_some_and(|actions| {
            actions
                .iter()
                .any(|a| a.symbol == fact.symbol && fact.terms.iter().zip(&a.terms).all(is))
        })
    }

    fn falsify_all(&mut self, q: &Quantifier, scope: &[Value]) -> Option<Witness> {
        let outside = self.names.len();
        self.enter(q);
        let found = self
            .matches(q, scope)
            .into_iter()
            .find_map(|(found, scope)| {
                let rest = self.falsify(&q.body, &scope)?;
                let witness = Witness {
                    matches: vec![found],
                    missing: Vec::new(),
                };
                Some(witness.and(rest))
            });
        self.names.truncate(outside);
        found
    }

    fn falsify_exists(&mut self, q: &Quantifier, scope: &[Value]) -> Option<Witness> {
        let outside = self.names.len();
        self.enter(q);
        let missing = self.described(q, scope);
        let mut matches = self.matches(q, scope).into_iter();
        let met = matches.any(|(_, scope)| self.falsify(&q.body, &scope).is_none());
        self.names.truncate(outside);
        (!met).then(|| Witness {
            matches: Vec::new(),
            missing: vec![missing],
        })
    }

    fn enter(&mut self, q: &Quantifier) {
        for (i, sort) in q.sorts.iter().enumerate() {
            let letter = if *sort == SORT_TIME { "t" } else { "x" };
            let name = match &q.written {
                Some((names, _)) => names[i].clone(),
                None => format!("{letter}{}", self.names.len()),
            };
            self.names
                .push(format!("{}{name}", SORT_SIGNS[*sort as usize]));
        }
    }

    /// A guard with what is known of its variables.
    fn described(&self, q: &Quantifier, scope: &[Value]) -> String {
        let style = Style::of(&self.case.names);
        let terms: Vec<String> = q
            .guard
            .terms
            .iter()
            .map(|term| match term {
                Term::Variable(n) => match scope.get(*n as usize) {
                    Some(Value::Message(message)) => style.term(message),
                    _ => self.names.get(*n as usize).cloned().unwrap_or_default(),
                },
                other => style.term(other),
            })
            .collect();
        let time = match scope.get(q.time as usize) {
            Some(Value::Time(time)) => format!("step {time}"),
            _ => self.names.get(q.time as usize).cloned().unwrap_or_default(),
        };
        let name = self.case.names.fact(q.guard.symbol);
        format!("{name}({}) @ {time}", terms.join(", "))
    }

    /// The actions that meet a guard, each with all variables then.
    fn matches(&mut self, q: &Quantifier, scope: &[Value]) -> Vec<(Match, Vec<Value>)> {
        let mut all = Vec::new();
        for (i, actions) in self.trace.iter().enumerate() {
            self.comparisons += actions.len();
            if self.comparisons > MOST_COMPARISONS {
                return Vec::new();
            }
            for (j, action) in actions.iter().enumerate() {
                if let Some(after) = met(q, action, i + 1, scope) {
                    all.push((
                        self.described_match(action, i, j, &after, scope.len()),
                        after,
                    ));
                }
            }
        }
        all
    }

    fn described_match(
        &self,
        action: &Fact,
        node: usize,
        place: usize,
        scope: &[Value],
        outside: usize,
    ) -> Match {
        let style = Style::of(&self.case.names);
        let bound = self.names.iter().zip(scope).skip(outside);
        let said = |value: &Value| match value {
            Value::Message(message) => style.term(message),
            Value::Time(time) => time.to_string(),
        };
        Match {
            node: node + 1,
            action: place + 1,
            fact: style.fact(action, &self.case.protocol),
            bound: bound
                .map(|(name, value)| (name.clone(), said(value)))
                .collect(),
        }
    }
}

/// All variables once an action meets a guard, if it does.
fn met(q: &Quantifier, action: &Fact, time: usize, scope: &[Value]) -> Option<Vec<Value>> {
    if action.symbol != q.guard.symbol {
        return None;
    }
    let mut all: Vec<Option<Value>> = scope.iter().cloned().map(Some).collect();
    all.resize(scope.len() + q.sorts.len(), None);
    let messages = action.terms.iter().cloned().map(Value::Message);
    let pairs = q.guard.terms.iter().cloned().zip(messages);
    for (wanted, is) in pairs.chain([(Term::Variable(q.time), Value::Time(time))]) {
        match wanted {
            Term::Variable(n) => match all.get_mut(n as usize)? {
                Some(value) if *value == is => {}
                Some(_) => return None,
                free => *free = Some(is),
            },
            other if Value::Message(other.clone()) == is => {}
            _ => return None,
        }
    }
    all.into_iter().collect()
}
