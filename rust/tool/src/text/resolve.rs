//! Names to numbers: declarations, terms, facts and rules.

use super::items::names_a_fact;
use super::lex::Token;
use super::names::{by_form, near, Numbering};
use super::syntax::*;
use super::{error, Error, Lemma, Parse, Theory};
use crate::model::*;

#[derive(Default)]
pub struct Resolver {
    pub protocol: Protocol,
    pub names: Names,
    public: Numbering,
    pub fresh: Numbering,
    /// Whether a fact that is not there yet is an error.
    facts_closed: bool,
}

/// What a leaf of a term stands for, which depends on where the term stands.
pub type Leaf<'a> = dyn FnMut(&mut Resolver, &Raw) -> Parse<Term> + 'a;

fn plural(count: u32) -> String {
    match count {
        1 => "1 argument".into(),
        n => format!("{n} arguments"),
    }
}

impl Resolver {
    pub fn of_theory(theory: &Theory) -> Self {
        Resolver {
            protocol: theory.protocol.clone(),
            names: theory.names.clone(),
            public: Numbering::of_names(&theory.names.public),
            fresh: Numbering::of_names(&theory.names.fresh),
            facts_closed: true,
        }
    }

    pub fn finished_names(self) -> Names {
        Names {
            public: self.public.names,
            fresh: self.fresh.names,
            ..self.names
        }
    }

    pub fn theory(mut self, tokens: &[(Token, Span)], raw: &RawTheory) -> Parse<Theory> {
        self.names.theory = raw.name.clone();
        self.numbers_by_form(tokens)?;
        for named in &raw.names {
            let numbering = match named.fresh {
                true => &mut self.fresh,
                false => &mut self.public,
            };
            numbering.fix(&named.name, named.number, &named.span)?;
        }
        self.declarations(raw)?;
        self.rules(&raw.rules)?;
        self.facts_closed = true;
        let mut lemmas = Vec::new();
        for lemma in &raw.lemmas {
            once(
                &lemma.name,
                &lemma.span,
                lemmas.iter().map(|l: &Lemma| &l.name),
            )?;
            lemmas.push(Lemma {
                name: lemma.name.clone(),
                span: lemma.span.clone(),
                text: lemma.text.clone(),
                formula: self.lower(&lemma.formula, true, &mut Vec::new())?,
            });
        }
        let runs = self.runs(&raw.runs)?;
        Ok(Theory {
            protocol: self.protocol.clone(),
            rule_spans: raw.rules.iter().map(|rule| rule.span.clone()).collect(),
            names: self.finished_names(),
            lemmas,
            runs,
        })
    }

    /// Names whose form is their number get it wherever they stand.
    pub fn numbers_by_form(&mut self, tokens: &[(Token, Span)]) -> Parse<()> {
        let mut after_tilde = false;
        for (token, span) in tokens {
            match token {
                Token::Word(name) | Token::Quoted(name) if after_tilde => {
                    if let Some(number) = by_form(name, 'n') {
                        self.fresh.fix(name, number, span)?;
                    }
                }
                Token::Quoted(name) => {
                    if let Some(number) = by_form(name, 'p') {
                        self.public.fix(name, number, span)?;
                    }
                }
                _ => {}
            }
            after_tilde = *token == Token::Sign("~");
        }
        Ok(())
    }

    fn declarations(&mut self, raw: &RawTheory) -> Parse<()> {
        for function in &raw.functions {
            self.declare_function(function)?;
        }
        self.facts_closed = raw.facts.is_some();
        for fact in raw.facts.iter().flatten() {
            if self.symbol(&fact.name).is_some() {
                let message = format!("the fact `{}` is there already", fact.name);
                return error(fact.span.clone(), message, "");
            }
            self.declare_fact(&fact.name, fact.arity, fact.persistent, &fact.span)?;
        }
        Ok(())
    }

    /// The files have a tag for so many functions alone, and each word stands for one of them.
    fn declare_function(&mut self, function: &Declared) -> Parse<()> {
        let (name, at) = (&function.name, function.span.clone());
        match self.tag(name) {
            Some(tag) if built_in(tag).is_some() => return is_built_in(name, at),
            Some(_) => return error(at, format!("the function `{name}` is there already"), ""),
            None => {}
        }
        if self.protocol.functions.len() as u32 == limits::FUNCTIONS {
            let most = limits::FUNCTIONS;
            let label = "the files have no tag for it";
            return error(at, format!("more than {most} functions"), label);
        }
        self.names.functions.push(name.clone());
        self.protocol.functions.push(function.arity);
        Ok(())
    }

    fn declare_fact(&mut self, name: &str, arity: u32, persistent: bool, at: &Span) -> Parse<u32> {
        if !names_a_fact(name) {
            let message = format!("no fact can be named `{name}`");
            return error(at.clone(), message, "this word begins a formula");
        }
        self.names.facts.push(name.to_string());
        self.protocol.facts.push((arity, persistent));
        Ok(FIRST_OWN_FACT + self.protocol.facts.len() as u32 - 1)
    }

    /// A function's tag by its name.
    pub fn tag(&self, name: &str) -> Option<u32> {
        let alias = ALIASES.iter().find(|(alias, _)| *alias == name);
        let name = alias.map_or(name, |(_, name)| name);
        let built_in = BUILT_IN.iter().find(|function| function.name == name);
        let free = || self.names.functions.iter().position(|known| known == name);
        built_in
            .map(|function| function.tag)
            .or_else(|| free().map(|i| FIRST_FREE + i as u32))
    }

    fn symbol(&self, name: &str) -> Option<u32> {
        let given = GIVEN_FACTS.iter().position(|known| *known == name);
        let own = || self.names.facts.iter().position(|known| known == name);
        given
            .map(|i| i as u32)
            .or_else(|| own().map(|i| FIRST_OWN_FACT + i as u32))
    }

    pub fn term(&mut self, raw: &Raw, leaf: &mut Leaf) -> Parse<Term> {
        match &raw.term {
            RawTerm::Apply(name, arguments) => self.apply(name, arguments, &raw.span, leaf),
            RawTerm::Public(name) => self.public.number(name, 'p', &raw.span).map(Term::Public),
            RawTerm::Fresh(name) => self.fresh.number(name, 'n', &raw.span).map(Term::Fresh),
            RawTerm::Word(name) => match self.constant(name) {
                Some(tag) => Ok(Term::Apply(tag, Vec::new())),
                None => leaf(self, raw),
            },
            _ => leaf(self, raw),
        }
    }

    /// A function without arguments.
    pub fn constant(&self, name: &str) -> Option<u32> {
        let tag = self.tag(name)?;
        (self.protocol.arity(tag) == Some(0)).then_some(tag)
    }

    fn apply(
        &mut self,
        name: &str,
        arguments: &[Raw],
        span: &Span,
        leaf: &mut Leaf,
    ) -> Parse<Term> {
        let Some(tag) = self.tag(name) else {
            let built_in = BUILT_IN.iter().map(|function| function.name);
            let known = built_in.chain(self.names.functions.iter().map(String::as_str));
            let message = format!("there is no function `{name}`");
            return error(span.clone(), message, near(name, known));
        };
        let arity = self.protocol.arity(tag).unwrap_or(0);
        if arguments.len() != arity as usize {
            let message = format!(
                "`{name}` takes {}, here it has {}",
                plural(arity),
                arguments.len()
            );
            return error(span.clone(), message, "");
        }
        let arguments = arguments.iter().map(|argument| self.term(argument, leaf));
        Ok(Term::Apply(tag, arguments.collect::<Parse<_>>()?))
    }

    pub fn fact(&mut self, raw: &RawFact, leaf: &mut Leaf) -> Parse<Fact> {
        let symbol = self.fact_symbol(raw)?;
        let (arity, persistent) = self.protocol.symbol(symbol).unwrap_or_default();
        if arity as usize != raw.arguments.len() {
            let message = format!(
                "`{}` takes {}, here it has {}",
                raw.name,
                plural(arity),
                raw.arguments.len()
            );
            return error(raw.span.clone(), message, "");
        }
        if symbol >= FIRST_OWN_FACT && persistent != raw.persistent {
            let (is, sign) = match persistent {
                true => ("persistent", "with"),
                false => ("linear", "without"),
            };
            let message = format!("`{}` is {is}, so it is written {sign} `!`", raw.name);
            return error(raw.span.clone(), message, "");
        }
        let terms = raw.arguments.iter().map(|term| self.term(term, leaf));
        Ok(Fact {
            symbol,
            terms: terms.collect::<Parse<_>>()?,
        })
    }

    fn fact_symbol(&mut self, raw: &RawFact) -> Parse<u32> {
        if let Some(symbol) = self.symbol(&raw.name) {
            return Ok(symbol);
        }
        if self.facts_closed {
            let own = self.names.facts.iter().map(String::as_str);
            let hint = near(&raw.name, GIVEN_FACTS.into_iter().chain(own));
            let message = format!("there is no fact `{}`", raw.name);
            return error(raw.span.clone(), message, hint);
        }
        let arity = raw.arguments.len() as u32;
        self.declare_fact(&raw.name, arity, raw.persistent, &raw.span)
    }

    /// Whether a property's fact is persistent; its mark may be left out there, as in Tamarin's actions.
    pub fn with_own_mark(&self, raw: &RawFact) -> RawFact {
        let symbol = self.symbol(&raw.name);
        let declared = symbol.and_then(|symbol| self.protocol.symbol(symbol));
        RawFact {
            persistent: declared.map_or(raw.persistent, |(_, persistent)| persistent),
            ..raw.clone()
        }
    }

    fn rules(&mut self, raw: &[RawRule]) -> Parse<()> {
        for rule in raw {
            let name = &rule.name;
            once(name, &rule.span, self.names.rules.iter())?;
            if INTRUDER.contains(&name.as_str()) || name.starts_with("c_") {
                let message = format!("`{name}` is a name of a built-in rule");
                return error(rule.span.clone(), message, "");
            }
            if self.names.rules.len() as u32 == limits::RULES {
                let message = format!("more than {} rules", limits::RULES);
                let label = "the files have no number for it";
                return error(rule.span.clone(), message, label);
            }
            self.names.rules.push(name.clone());
        }
        for rule in raw {
            let resolved = self.rule(rule)?;
            self.protocol.rules.push(resolved);
        }
        Ok(())
    }

    fn rule(&mut self, raw: &RawRule) -> Parse<Rule> {
        let mut variables = Variables::default();
        for parameter in raw.parameters.iter().flatten() {
            match &parameter.term {
                RawTerm::Word(name) if self.constant(name).is_some() => {
                    return is_function(name, &parameter.span);
                }
                _ => variables.parameter(parameter)?,
            }
        }
        variables.closed = raw.parameters.is_some();
        let mut part = |facts: &[RawFact]| {
            let leaf: &mut Leaf = &mut |resolver, raw| variables.leaf(resolver, raw);
            let facts = facts.iter().map(|fact| self.fact(fact, leaf));
            facts.collect::<Parse<Vec<Fact>>>()
        };
        let premises = part(&raw.parts[0])?;
        let actions = part(&raw.parts[1])?;
        let conclusions = part(&raw.parts[2])?;
        let (names, sorts) = variables.all.into_iter().unzip();
        self.names.variables.push(names);
        Ok(Rule {
            sorts,
            premises,
            actions,
            conclusions,
        })
    }
}

/// The error of a declaration in the place of a built-in function.
fn is_built_in<T>(name: &str, span: Span) -> Parse<T> {
    let note = "a function of your own needs another name; the files have numbers for names, so that changes no byte";
    Err(Error {
        span,
        message: format!("the function `{name}` is built in"),
        label: "leave it out here".into(),
        notes: vec![note.into()],
    })
}

/// The error of a name for something else, where the word alone is a function's.
pub fn is_function<T>(name: &str, span: &Span) -> Parse<T> {
    let label = "it takes no arguments, so this word alone stands for it";
    error(span.clone(), format!("`{name}` is a function"), label)
}

/// That nothing before has this name.
pub fn once<'a>(
    name: &str,
    span: &Span,
    mut before: impl Iterator<Item = &'a String>,
) -> Parse<()> {
    match before.any(|other| other == name) {
        true => error(span.clone(), format!("`{name}` is there already"), ""),
        false => Ok(()),
    }
}

/// The variables of a rule, by parameters or by appearance.
#[derive(Default)]
struct Variables {
    all: Vec<(String, u32)>,
    closed: bool,
}

impl Variables {
    fn written(raw: &Raw) -> Option<(String, u32)> {
        match &raw.term {
            RawTerm::Word(name) => Some((name.clone(), SORT_MESSAGE)),
            RawTerm::FreshVariable(name) => Some((name.clone(), SORT_FRESH)),
            RawTerm::PublicVariable(name) => Some((name.clone(), SORT_PUBLIC)),
            _ => None,
        }
    }

    fn parameter(&mut self, raw: &Raw) -> Parse<()> {
        let Some((name, sort)) = Self::written(raw) else {
            return error(
                raw.span.clone(),
                "a rule's parameters are variables",
                "x, ~x or $x",
            );
        };
        once(&name, &raw.span, self.all.iter().map(|(name, _)| name))?;
        self.all.push((name, sort));
        Ok(())
    }

    fn leaf(&mut self, _: &Resolver, raw: &Raw) -> Parse<Term> {
        let Some((name, sort)) = Self::written(raw) else {
            return error(
                raw.span.clone(),
                "only variables, public names and functions stand in a rule",
                "",
            );
        };
        let number = match self.all.iter().position(|(known, _)| *known == name) {
            Some(i) if self.all[i].1 == sort => i,
            Some(i) => {
                let sign = SORT_SIGNS[self.all[i].1 as usize];
                let message = format!("`{name}` stands for `{sign}{name}` elsewhere in this rule");
                return error(raw.span.clone(), message, "one variable has one sort");
            }
            None if self.closed => {
                let message = format!("`{name}` is not among the rule's parameters");
                return error(raw.span.clone(), message, "");
            }
            None => {
                self.all.push((name, sort));
                self.all.len() - 1
            }
        };
        Ok(Term::Variable(number as u32))
    }
}
