//! Where a property's variable is not as it must be.

use crate::model::*;

/// The reason, and the place of its quantifier in a text.
pub fn unfit(formula: &Formula, names: &Names) -> (Option<String>, Option<Span>) {
    let mut search = Unfit {
        names,
        scope: Vec::new(),
        quantifier: None,
    };
    (search.formula(formula), search.quantifier)
}

/// A search for the first such place.
struct Unfit<'a> {
    names: &'a Names,
    /// Names and sorts.
    scope: Vec<(String, u32)>,
    /// Where it stands in a text.
    quantifier: Option<Span>,
}

fn sort_name(sort: u32) -> &'static str {
    match sort {
        SORT_TIME => "time",
        _ => "message",
    }
}

impl Unfit<'_> {
    fn variable(&self, number: u32, sort: u32) -> Option<String> {
        match self.scope.get(number as usize) {
            None => Some(format!("variable ?{number} is in no scope")),
            Some((name, is)) if *is != sort => {
                let (is, wanted) = (sort_name(*is), sort_name(sort));
                Some(format!(
                    "`{name}` is a {is}, and a {wanted} must stand there"
                ))
            }
            _ => None,
        }
    }

    fn term(&self, term: &Term) -> Option<String> {
        match term {
            Term::Variable(number) => self.variable(*number, SORT_MESSAGE),
            _ => None,
        }
    }

    fn fact(&self, fact: &Fact, time: u32) -> Option<String> {
        let in_terms = fact.terms.iter().find_map(|term| self.term(term));
        in_terms.or_else(|| self.variable(time, SORT_TIME))
    }

    fn formula(&mut self, formula: &Formula) -> Option<String> {
        let times = |a: &u32, b: &u32| {
            self.variable(*a, SORT_TIME)
                .or_else(|| self.variable(*b, SORT_TIME))
        };
        match formula {
            Formula::False => None,
            Formula::Equal(a, b) | Formula::Unequal(a, b) => self.term(a).or_else(|| self.term(b)),
            Formula::Before(a, b)
            | Formula::NotBefore(a, b)
            | Formula::SameTime(a, b)
            | Formula::NotSameTime(a, b) => times(a, b),
            Formula::Action(fact, time) | Formula::NoAction(fact, time) => self.fact(fact, *time),
            Formula::And(a, b) | Formula::Or(a, b) => self.formula(a).or_else(|| self.formula(b)),
            Formula::Exists(q) | Formula::ForAll(q) => self.quantified(q),
        }
    }

    fn quantified(&mut self, q: &Quantifier) -> Option<String> {
        let outside = self.scope.len();
        let before = self.quantifier.clone();
        for (i, sort) in q.sorts.iter().enumerate() {
            let written = q.written.as_ref().map(|(names, _)| names[i].clone());
            self.scope
                .push((written.unwrap_or(format!("?{}", outside + i)), *sort));
        }
        self.quantifier = q.written.as_ref().map(|(_, span)| span.clone());
        let guard = self.names.fact(q.guard.symbol);
        let free = (outside..self.scope.len()).find(|n| {
            let number = *n as u32;
            let in_guard = q.guard.terms.contains(&Term::Variable(number));
            q.time != number && !in_guard
        });
        let found = match free {
            Some(n) => Some(format!(
                "`{}` is new here, and does not stand in the guard {guard}",
                self.scope[n].0
            )),
            None => self
                .fact(&q.guard, q.time)
                .or_else(|| self.formula(&q.body)),
        };
        self.scope.truncate(outside);
        if found.is_none() {
            self.quantifier = before;
        }
        found
    }
}
