//! Names to numbers in runs and graphs.

use super::lex::Token;
use super::names::near;
use super::resolve::{is_function, once, Resolver};
use super::syntax::*;
use super::{error, Parse, Run, Step};
use crate::bytes;
use crate::model::*;
use std::collections::HashMap;

/// What a value may refer to.
#[derive(Default)]
struct Scope {
    lets: HashMap<String, Term>,
    exact: bool,
}

impl Resolver {
    pub fn runs(&mut self, raw: &[RawRun]) -> Parse<Vec<Run>> {
        let mut runs: Vec<Run> = Vec::new();
        for run in raw {
            once(&run.name, &run.span, runs.iter().map(|run| &run.name))?;
            runs.push(self.run(run)?);
        }
        Ok(runs)
    }

    /// A message outside of any run.
    pub fn message(&mut self, tokens: &[(Token, Span)], raw: &Raw) -> Parse<Term> {
        self.numbers_by_form(tokens)?;
        let scope = Scope {
            exact: true,
            ..Scope::default()
        };
        self.value(raw, &scope)
    }

    fn run(&mut self, raw: &RawRun) -> Parse<Run> {
        let mut scope = Scope {
            exact: raw.exact,
            ..Scope::default()
        };
        let mut steps = Vec::new();
        for step in &raw.steps {
            match step {
                RawStep::Let(name, at, _) if self.constant(name).is_some() => {
                    return is_function(name, at);
                }
                RawStep::Let(name, _, term) => {
                    let term = self.value(term, &scope)?;
                    scope.lets.insert(name.clone(), term);
                }
                RawStep::Know(term, span) if raw.fill => {
                    steps.push((Step::Know(self.value(term, &scope)?), span.clone()));
                }
                RawStep::Know(_, span) => {
                    return error(
                        span.clone(),
                        "`know` stands only in a run that is filled in",
                        format!("`run {} [fill]:`", raw.name),
                    );
                }
                RawStep::Step(node) => {
                    steps.push((Step::Node(self.node(node, &scope)?), node.span.clone()));
                }
            }
        }
        Ok(Run {
            name: raw.name.clone(),
            span: raw.span.clone(),
            exact: raw.exact,
            fill: raw.fill,
            steps,
            edges: raw.edges.clone(),
        })
    }

    fn node(&mut self, raw: &RawNode, scope: &Scope) -> Parse<Node> {
        let (number, rule) = self.rule_of(raw)?;
        let names = self.names.rule_variables(number, rule.sorts.len());
        let shape = || format!("{}({})", raw.rule, names.join(", "));
        let mut values = vec![None; rule.sorts.len()];
        for (i, (named, term)) in raw.arguments.iter().enumerate() {
            let place = match named {
                None => i,
                Some(name) => match names.iter().position(|known| known == name) {
                    Some(place) => place,
                    None => {
                        let message = format!("`{}` has no variable `{name}`", raw.rule);
                        return error(term.span.clone(), message, shape());
                    }
                },
            };
            let Some(slot) = values.get_mut(place) else {
                let (most, here) = (values.len(), raw.arguments.len());
                let s = if most == 1 { "" } else { "s" };
                let message = format!("`{}` takes {most} value{s}, here it has {here}", raw.rule);
                return error(raw.span.clone(), message, shape());
            };
            if slot.replace(self.value(term, scope)?).is_some() {
                let message = format!("a second value for `{}`", names[place]);
                return error(term.span.clone(), message, shape());
            }
        }
        if let Some(missing) = values.iter().position(Option::is_none) {
            let message = format!("`{}` has no value for `{}`", raw.rule, names[missing]);
            return error(raw.span.clone(), message, shape());
        }
        Ok(Node {
            rule: number,
            values: values.into_iter().flatten().collect(),
        })
    }

    fn rule_of(&self, raw: &RawNode) -> Parse<(u32, Rule)> {
        let number = self.rule_number(&raw.rule);
        let found = number.and_then(|n| self.protocol.rule(n).map(|rule| (n, rule)));
        found.map_or_else(
            || {
                let numbers = self.protocol.rule_numbers();
                let known: Vec<String> = numbers.iter().map(|n| self.names.rule(*n)).collect();
                let message = format!("there is no rule `{}`", raw.rule);
                let span = raw.span.start..raw.span.start + raw.rule.len();
                let hint = near(&raw.rule, known.iter().map(String::as_str));
                error(span, message, hint)
            },
            Ok,
        )
    }

    fn rule_number(&self, name: &str) -> Option<u32> {
        if let Some(i) = self.names.rules.iter().position(|rule| rule == name) {
            return Some(FIRST_RULE + i as u32);
        }
        if let Some(i) = INTRUDER.iter().position(|rule| *rule == name) {
            return Some(i as u32);
        }
        self.tag(name.strip_prefix("c_")?).map(apply_rule)
    }

    fn value(&mut self, raw: &Raw, scope: &Scope) -> Parse<Term> {
        let mut let_symbols = 0;
        let value = self.term(raw, &mut |resolver, leaf| {
            let value = resolver.value_leaf(leaf, scope)?;
            let_symbols += value.symbols();
            match let_symbols > MOST_SHOWN_SYMBOLS && !matches!(value, Term::Large(..)) {
                true => too_large(leaf),
                false => Ok(value),
            }
        })?;
        match value.symbols() > MOST_SHOWN_SYMBOLS && !matches!(value, Term::Large(..)) {
            true => too_large(raw),
            false => Ok(value),
        }
    }

    fn value_leaf(&mut self, raw: &Raw, scope: &Scope) -> Parse<Term> {
        let span = raw.span.clone();
        match &raw.term {
            RawTerm::FreshVariable(name) => self.fresh.number(name, 'n', &span).map(Term::Fresh),
            RawTerm::Numbered(number, false) => Ok(Term::Variable(*number)),
            RawTerm::Bytes(_) if !scope.exact => {
                error(span, "bytes stand only in a run that is [exact]", "")
            }
            RawTerm::Bytes(bytes) => bytes::term(bytes, &self.protocol).or_else(|fault| {
                let message = format!("these bytes are no term: at byte {}, {}", fault.at, fault.what);
                error(span, message, "")
            }),
            RawTerm::Word(name) => match scope.lets.get(name) {
                Some(term) => Ok(term.clone()),
                None => error(
                    span,
                    format!("`{name}` is no value"),
                    format!("a fresh name is ~{name}, a public one '{name}'; or `let {name} = ..` before"),
                ),
            },
            RawTerm::PublicVariable(name) => error(
                span,
                format!("`${name}` is a variable"),
                format!("in a run the public name is '{name}'"),
            ),
            _ => error(span, "a time is no value", ""),
        }
    }
}

fn too_large<T>(raw: &Raw) -> Parse<T> {
    error(
        raw.span.clone(),
        format!("a value of more than {MOST_SHOWN_SYMBOLS} symbols"),
        "it is written as its bytes, `0x..`, in a run that is [exact]",
    )
}
