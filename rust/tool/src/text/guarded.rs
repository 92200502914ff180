//! Formulas to the files' guarded form, by syntax alone: negation is pushed to the atoms, and each quantifier gets an action of the
//! conjunction behind it as its guard; where one action does not hold all new variables, quantifiers are nested, each with the next one.

use super::formulas::no_function;
use super::names::near;
use super::resolve::Resolver;
use super::syntax::*;
use super::{error, Parse};
use crate::model::*;

/// The variables around a formula, the outermost first: names and sorts.
type Scope = Vec<(String, u32)>;

/// A quantifier that is being brought into guarded form.
struct Pending<'a> {
    new: Scope,
    /// The conjuncts among which the guards are found.
    conditions: Vec<&'a Written>,
    /// What stands behind `==>`, with its sign.
    rest: Option<(&'a Written, bool)>,
    for_all: bool,
    span: &'a Span,
}

impl Pending<'_> {
    /// The new variables that a guard binds: those that stand in it; if no other action could bind the rest, all, and the core refuses.
    fn bound_by(&mut self, fact: &RawFact, time: &Raw) -> Scope {
        let new = std::mem::take(&mut self.new);
        if !self.conditions.iter().any(|condition| is_action(condition)) {
            return new;
        }
        let standing = |(name, _): &(String, u32)| stands(fact, time, name);
        let (bound, left) = new.into_iter().partition(standing);
        self.new = left;
        bound
    }
}

fn boxed(join: fn(Box<Formula>, Box<Formula>) -> Formula) -> impl Fn(Formula, Formula) -> Formula {
    move |a, b| join(Box::new(a), Box::new(b))
}

impl Resolver {
    pub fn lower(
        &mut self,
        formula: &Written,
        positive: bool,
        scope: &mut Scope,
    ) -> Parse<Formula> {
        match formula {
            Written::Brackets(f) => self.lower(f, positive, scope),
            Written::Not(f) => self.lower(f, !positive, scope),
            Written::False | Written::True => match matches!(formula, Written::True) == positive {
                true => Ok(Formula::truth()),
                false => Ok(Formula::False),
            },
            Written::And(a, b) | Written::Or(a, b) => {
                let and = matches!(formula, Written::And(..)) == positive;
                let first = self.lower(a, positive, scope)?;
                let second = self.lower(b, positive, scope)?;
                Ok(boxed(if and { Formula::And } else { Formula::Or })(
                    first, second,
                ))
            }
            Written::Implies(a, b) => {
                let first = self.lower(a, !positive, scope)?;
                let second = self.lower(b, positive, scope)?;
                Ok(boxed(if positive { Formula::Or } else { Formula::And })(
                    first, second,
                ))
            }
            Written::Quantified(quantifier) => self.lower_quantifier(quantifier, positive, scope),
            atom => self.lower_atom(atom, positive, scope),
        }
    }

    fn lower_atom(&mut self, atom: &Written, positive: bool, scope: &Scope) -> Parse<Formula> {
        let times = |resolver: &Self, a: &Raw, b: &Raw| {
            Ok((resolver.variable(a, scope)?, resolver.variable(b, scope)?))
        };
        let (yes, no) = match atom {
            Written::Equal(a, b) if !names_time(a, scope) && !names_time(b, scope) => {
                let (a, b) = (self.plain(a, scope)?, self.plain(b, scope)?);
                (Formula::Equal(a.clone(), b.clone()), Formula::Unequal(a, b))
            }
            Written::Equal(a, b) | Written::SameTime(a, b) => {
                let (a, b) = times(self, a, b)?;
                (Formula::SameTime(a, b), Formula::NotSameTime(a, b))
            }
            Written::Before(a, b) => {
                let (a, b) = times(self, a, b)?;
                (Formula::Before(a, b), Formula::NotBefore(a, b))
            }
            Written::Action(fact, time) => {
                let fact = self.action_fact(fact, scope)?;
                let time = self.variable(time, scope)?;
                (
                    Formula::Action(fact.clone(), time),
                    Formula::NoAction(fact, time),
                )
            }
            _ => unreachable!("`lower` has all that is no atom"),
        };
        Ok(if positive { yes } else { no })
    }

    /// A variable by its name or number.
    fn variable(&self, raw: &Raw, scope: &Scope) -> Parse<u32> {
        let span = raw.span.clone();
        match &raw.term {
            RawTerm::Numbered(number, _) => Ok(*number),
            RawTerm::Word(name) | RawTerm::Time(name) => match in_scope(name, scope) {
                Some(number) => Ok(number as u32),
                None => {
                    let known = scope.iter().map(|(name, _)| name.as_str());
                    let message = format!("no quantifier around this names `{name}`");
                    error(span, message, near(name, known))
                }
            },
            RawTerm::FreshVariable(_) | RawTerm::PublicVariable(_) => error(
                span,
                "variables of a property have no sign for a sort",
                "only `#` for a time",
            ),
            _ => error(span, "a variable should stand here", ""),
        }
    }

    fn plain(&mut self, raw: &Raw, scope: &Scope) -> Parse<Term> {
        match &raw.term {
            RawTerm::Public(_) => self.term(raw, &mut |_, _| unreachable!("a name is no leaf")),
            RawTerm::Apply(name, _) => no_function(&format!("{name}(..)"), raw.span.clone()),
            RawTerm::Word(name)
                if in_scope(name, scope).is_none() && self.constant(name).is_some() =>
            {
                no_function(name, raw.span.clone())
            }
            _ => Ok(Term::Variable(self.variable(raw, scope)?)),
        }
    }

    fn action_fact(&mut self, raw: &RawFact, scope: &Scope) -> Parse<Fact> {
        let terms = raw.arguments.iter().map(|term| self.plain(term, scope));
        let terms = terms.collect::<Parse<Vec<Term>>>()?;
        // The terms are in place; the fact is asked for its symbol and arity alone.
        let marked = self.with_own_mark(raw);
        let fact = self.fact(&marked, &mut |_, _| Ok(Term::Variable(0)))?;
        Ok(Fact {
            symbol: fact.symbol,
            terms,
        })
    }

    fn lower_quantifier(
        &mut self,
        quantifier: &WrittenQuantifier,
        positive: bool,
        scope: &mut Scope,
    ) -> Parse<Formula> {
        let WrittenQuantifier {
            all,
            variables,
            body,
            span,
        } = quantifier;
        for (i, (name, _)) in variables.iter().enumerate() {
            if variables[..i].iter().any(|(before, _)| before == name) {
                return error(span.clone(), format!("`{name}` is named twice here"), "");
            }
        }
        let (guards, rest) = match (all, unbracketed(body)) {
            (false, _) => (&**body, None),
            (true, Written::Implies(a, b)) => (&**a, Some((&**b, positive))),
            (true, Written::Not(a)) => (&**a, None),
            (true, _) => {
                let example = "All x #i. FACT(x) @ #i ==> ..";
                return error(span.clone(), "`All` needs a guard", example);
            }
        };
        let pending = Pending {
            new: variables.clone(),
            conditions: conditions(guards, variables),
            rest,
            for_all: *all == positive,
            span,
        };
        self.guarded(pending, scope)
    }

    /// Nested quantifiers, each with the next action of the conditions.
    fn guarded(&mut self, mut pending: Pending, scope: &mut Scope) -> Parse<Formula> {
        let Some((fact, time)) = take_guard(&mut pending.conditions) else {
            return error(
                pending.span.clone(),
                "this quantifier has no guard",
                "a guard is an action in front, such as A(x) @ #i",
            );
        };
        let bound = pending.bound_by(fact, time);
        let nested = !pending.new.is_empty();
        let outside = scope.len();
        scope.extend(bound.iter().cloned());
        let guard = self.action_fact(fact, scope)?;
        let time = self.variable(time, scope)?;
        let (for_all, span) = (pending.for_all, pending.span.clone());
        let body = match nested {
            true => self.guarded(pending, scope)?,
            false => self.body(pending, scope)?,
        };
        scope.truncate(outside);
        let (names, sorts) = bound.into_iter().unzip();
        let quantifier = Quantifier {
            sorts,
            guard,
            time,
            body: Box::new(body),
            written: Some((names, span)),
        };
        Ok(match for_all {
            true => Formula::ForAll(quantifier),
            false => Formula::Exists(quantifier),
        })
    }

    /// What is left behind the last guard.
    fn body(&mut self, pending: Pending, scope: &mut Scope) -> Parse<Formula> {
        let for_all = pending.for_all;
        let mut parts = Vec::new();
        for condition in pending.conditions {
            parts.push(self.lower(condition, !for_all, scope)?);
        }
        if let Some((rest, sign)) = pending.rest {
            parts.push(self.lower(rest, sign, scope)?);
        }
        let join = boxed(if for_all { Formula::Or } else { Formula::And });
        let empty = || match for_all {
            true => Formula::False,
            false => Formula::truth(),
        };
        let joined = parts
            .into_iter()
            .rev()
            .reduce(|after, part| join(part, after));
        Ok(joined.unwrap_or_else(empty))
    }
}

fn in_scope(name: &str, scope: &Scope) -> Option<usize> {
    scope.iter().rposition(|(known, _)| known == name)
}

/// Whether a word is the name of a time variable.
fn names_time(raw: &Raw, scope: &Scope) -> bool {
    let RawTerm::Word(name) = &raw.term else {
        return false;
    };
    in_scope(name, scope).is_some_and(|i| scope[i].1 == SORT_TIME)
}

fn unbracketed(formula: &Written) -> &Written {
    match formula {
        Written::Brackets(inner) => unbracketed(inner),
        other => other,
    }
}

/// The conjuncts as they stand, those in brackets whole.
fn chain(formula: &Written) -> Vec<&Written> {
    let mut all = Vec::new();
    let mut rest = formula;
    while let Written::And(first, second) = rest {
        all.push(&**first);
        rest = second;
    }
    all.push(rest);
    all
}

/// All conjuncts, in brackets too.
fn flat(formula: &Written) -> Vec<&Written> {
    match unbracketed(formula) {
        Written::And(a, b) => [flat(a), flat(b)].concat(),
        other => vec![other],
    }
}

/// The conjuncts as they stand where the first holds all new variables, which is the files' form; else all of them, in brackets too.
fn conditions<'a>(formula: &'a Written, new: &[(String, u32)]) -> Vec<&'a Written> {
    let as_written = chain(unbracketed(formula));
    match as_written[0] {
        Written::Action(fact, time) if new.iter().all(|(name, _)| stands(fact, time, name)) => {
            as_written
        }
        _ => flat(formula),
    }
}

fn is_action(formula: &Written) -> bool {
    matches!(formula, Written::Action(..))
}

fn take_guard<'a>(conditions: &mut Vec<&'a Written>) -> Option<(&'a RawFact, &'a Raw)> {
    let place = conditions.iter().position(|c| is_action(c))?;
    match conditions.remove(place) {
        Written::Action(fact, time) => Some((fact, time)),
        _ => None,
    }
}

/// Whether the variable stands in the fact or is its time.
fn stands(fact: &RawFact, time: &Raw, name: &str) -> bool {
    let is = |raw: &Raw| match &raw.term {
        RawTerm::Word(known) | RawTerm::Time(known) => known == name,
        _ => false,
    };
    is(time) || fact.arguments.iter().any(is)
}
