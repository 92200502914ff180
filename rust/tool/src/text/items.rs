//! Tokens to the items of a theory: declarations, rules, lemmas, runs and graphs.

use super::formulas::FORMULA_WORDS;
use super::lex::Token;
use super::names::near;
use super::parser::Parser;
use super::syntax::*;
use super::{error, Error, Parse};
use crate::model::*;

/// What an item begins with.
pub const SECTIONS: [&str; 9] = [
    "functions",
    "facts",
    "names",
    "builtins",
    "rule",
    "lemma",
    "run",
    "graph",
    "end",
];

/// Words that begin something in a run, so no rule has such a name.
const STEP_WORDS: [&str; 3] = ["let", "know", "edges"];

impl Parser<'_> {
    pub fn theory(&mut self) -> Parse<RawTheory> {
        let mut theory = RawTheory::default();
        if self.eat_word("theory") {
            theory.name = Some(self.word("the theory's name")?);
            if !self.eat_word("begin") {
                return self.unexpected("`begin`");
            }
        }
        while *self.peek() != Token::End && !self.eat_word("end") {
            self.item(&mut theory)?;
        }
        Ok(theory)
    }

    fn item(&mut self, theory: &mut RawTheory) -> Parse<()> {
        let span = self.span();
        let Token::Word(word) = self.peek().clone() else {
            return self.unexpected("`rule`, `lemma`, `run` or another beginning");
        };
        self.next();
        match word.as_str() {
            "builtins" => self.builtins()?,
            "functions" => {
                let declared = self.declarations("functions", limits::FUNCTION_ARITY)?;
                theory.functions.extend(declared);
            }
            "facts" => {
                let declared = self.declarations("facts", limits::FACT_ARITY)?;
                theory.facts.get_or_insert_with(Vec::new).extend(declared);
            }
            "names" => theory.names.extend(self.named_numbers()?),
            "rule" => theory.rules.push(self.rule()?),
            "lemma" => theory.lemmas.push(self.lemma()?),
            "run" => theory.runs.push(self.run()?),
            "graph" => theory.runs.push(self.graph()?),
            _ => {
                return Err(Error {
                    span,
                    message: format!("`{word}` begins nothing"),
                    label: near(&word, SECTIONS.into_iter()),
                    notes: vec![format!("a theory has: {}", SECTIONS.join(", "))],
                });
            }
        }
        Ok(())
    }

    /// `builtins: diffie-hellman, hashing`: read and passed over, for all are there.
    fn builtins(&mut self) -> Parse<()> {
        self.expect(":", "after `builtins`")?;
        loop {
            self.word("a built-in theory")?;
            while self.eat("-") {
                self.word("the rest of its name")?;
            }
            if !self.eat(",") {
                return Ok(());
            }
        }
    }

    fn declarations(&mut self, what: &str, most: u32) -> Parse<Vec<Declared>> {
        self.expect(":", &format!("after `{what}`"))?;
        let mut all = Vec::new();
        let another = |p: &Self| p.is("!") || *p.peek_second() == Token::Sign("/");
        if !another(self) {
            return Ok(all);
        }
        loop {
            all.push(self.declaration(most)?);
            if !self.eat(",") {
                return Ok(all);
            }
        }
    }

    fn declaration(&mut self, most: u32) -> Parse<Declared> {
        let start = self.span().start;
        let persistent = self.eat("!");
        let name = self.word("a name")?;
        self.expect("/", "and the arity after the name")?;
        let at = self.span();
        let arity = self.number("an arity")?;
        if arity > most {
            return error(at, format!("an arity of {arity}; the most is {most}"), "");
        }
        Ok(Declared {
            name,
            span: self.since(start),
            arity,
            persistent,
        })
    }

    fn named_numbers(&mut self) -> Parse<Vec<NamedNumber>> {
        self.expect(":", "after `names`")?;
        let mut all = Vec::new();
        loop {
            let span = self.span();
            let fresh = self.eat("~");
            let name = match self.next() {
                Token::Quoted(name) => name,
                Token::Word(name) if fresh => name,
                _ => return error(span, "a name here is 'g' or ~k", ""),
            };
            self.expect("=", "and a number after the name")?;
            let number = self.file_number("a number")?;
            all.push(NamedNumber {
                name,
                span,
                fresh,
                number,
            });
            if !self.eat(",") {
                return Ok(all);
            }
        }
    }

    /// `[fill, exact]` and the like; what stands behind `=` is passed over.
    fn attributes(&mut self) -> Parse<Vec<(String, Span)>> {
        if !self.eat("[") {
            return Ok(Vec::new());
        }
        self.listed("]", |p| {
            let span = p.span();
            let word = p.word("an attribute")?;
            if p.eat("=") {
                while !(p.is(",") || p.is("]") || *p.peek() == Token::End) {
                    p.next();
                }
            }
            Ok((word, span))
        })
    }

    fn rule(&mut self) -> Parse<RawRule> {
        let span = self.span();
        let name = self.word("the rule's name")?;
        if SECTIONS.contains(&name.as_str()) || STEP_WORDS.contains(&name.as_str()) {
            return error(span, format!("no rule can be named `{name}`"), "");
        }
        let parameters = match self.eat("(") {
            true => Some(self.listed(")", Self::primary)?),
            false => None,
        };
        self.attributes()?;
        self.expect(":", "after the rule's name")?;
        self.expect("[", "before the premises")?;
        let premises = self.listed("]", Self::fact)?;
        let actions = if self.eat("--[") {
            self.listed("]->", Self::fact)?
        } else if self.eat("-->") {
            Vec::new()
        } else {
            return self.unexpected("`-->` or `--[ actions ]->`");
        };
        self.expect("[", "before the conclusions")?;
        let conclusions = self.listed("]", Self::fact)?;
        Ok(RawRule {
            name,
            span,
            parameters,
            parts: [premises, actions, conclusions],
        })
    }

    fn lemma(&mut self) -> Parse<RawLemma> {
        let span = self.span();
        let name = self.word("the lemma's name")?;
        self.attributes()?;
        self.expect(":", "after the lemma's name")?;
        self.trace_quantifier()?;
        let quoted = self.eat("\"");
        let start = self.span().start;
        let formula = self.formula()?;
        let text = self.text[self.since(start)].to_string();
        if quoted {
            self.expect("\"", "after the formula")?;
        }
        Ok(RawLemma {
            name,
            span,
            text,
            formula,
        })
    }

    /// `all-traces` may stand before a formula, `exists-trace` may not.
    fn trace_quantifier(&mut self) -> Parse<()> {
        let start = self.span().start;
        let exists = self.is_word("exists");
        if !exists && !self.is_word("all") {
            return Ok(());
        }
        self.next();
        self.expect("-", "in `all-traces`")?;
        self.word("`traces`")?;
        match exists {
            false => Ok(()),
            true => error(
                self.since(start),
                "`exists-trace` is about all runs of a protocol; the checker judges one graph",
                "leave it out: `run` then means that the formula holds of the graph",
            ),
        }
    }

    fn run(&mut self) -> Parse<RawRun> {
        let span = self.span();
        let name = self.word("a name of the run or graph")?;
        let (mut exact, mut fill) = (false, false);
        for (attribute, at) in self.attributes()? {
            match attribute.as_str() {
                "exact" => exact = true,
                "fill" => fill = true,
                _ => {
                    return error(
                        at,
                        format!("`{attribute}` is no attribute of a run"),
                        "`exact` and `fill` are",
                    );
                }
            }
        }
        self.expect(":", "after the name")?;
        let mut steps = Vec::new();
        while let Some(step) = self.step(&steps, fill)? {
            steps.push(step);
        }
        Ok(RawRun {
            name,
            span,
            exact,
            fill,
            steps,
            edges: None,
        })
    }

    fn graph(&mut self) -> Parse<RawRun> {
        let mut graph = self.run()?;
        if graph.fill {
            return error(graph.span, "only a run can be filled in", "");
        }
        if !self.eat_word("edges") {
            return self.unexpected("a step, or `edges:`");
        }
        self.expect(":", "after `edges`")?;
        let mut edges = Vec::new();
        while matches!(self.peek(), Token::Number(_)) {
            edges.push(self.edge()?);
            self.eat(",");
        }
        graph.edges = Some(edges);
        Ok(graph)
    }

    fn step(&mut self, before: &[RawStep], fill: bool) -> Parse<Option<RawStep>> {
        if let Token::Number(number) = *self.peek() {
            let span = self.span();
            self.next();
            self.expect(":", "after the step's number")?;
            let written = before.iter().filter(|s| matches!(s, RawStep::Step(_)));
            let here = written.count() as u32 + 1;
            if number != here && !fill {
                return error(
                    span,
                    format!("this is step {here}, not {number}"),
                    "steps are numbered from 1 without gaps",
                );
            }
        }
        let Token::Word(word) = self.peek().clone() else {
            return Ok(None);
        };
        let start = self.span().start;
        match word.as_str() {
            "let" => {
                self.next();
                let at = self.span();
                let name = self.word("a name after `let`")?;
                self.expect("=", "after the name")?;
                Ok(Some(RawStep::Let(name, at, self.term()?)))
            }
            "know" => {
                self.next();
                let term = self.term()?;
                Ok(Some(RawStep::Know(term, self.since(start))))
            }
            "edges" => Ok(None),
            section if SECTIONS.contains(&section) => Ok(None),
            _ => Ok(Some(RawStep::Step(self.node(word, start)?))),
        }
    }

    fn node(&mut self, rule: String, start: usize) -> Parse<RawNode> {
        self.next();
        let arguments = match self.eat("(") {
            true => self.listed(")", Self::argument)?,
            false => Vec::new(),
        };
        Ok(RawNode {
            rule,
            arguments,
            span: self.since(start),
        })
    }

    /// A value, perhaps with its variable: `gb=ge`.
    fn argument(&mut self) -> Parse<(Option<String>, Raw)> {
        let named = match (self.peek().clone(), self.peek_second()) {
            (Token::Word(word), Token::Sign("=")) => {
                self.next();
                self.next();
                Some(word)
            }
            _ => None,
        };
        Ok((named, self.term()?))
    }

    fn edge(&mut self) -> Parse<(Edge, Span)> {
        let start = self.span().start;
        let [source, conclusion] = self.edge_end()?;
        self.expect("->", "in an edge")?;
        let [target, premise] = self.edge_end()?;
        let edge = [source, conclusion, target, premise];
        Ok((edge, self.since(start)))
    }

    fn edge_end(&mut self) -> Parse<[u32; 2]> {
        let node = self.file_number("a node")?;
        self.expect(".", "between node and place")?;
        let place = self.file_number("the place of a conclusion or premise")?;
        Ok([node, place])
    }
}

/// Whether a fact may have this name.
pub fn names_a_fact(name: &str) -> bool {
    !FORMULA_WORDS.contains(&name)
}
