//! Tokens to formulas: `==>` binds least, then `|`, `&`, `not`; a quantifier reaches as far as it can.

use super::lex::Token;
use super::parser::Parser;
use super::syntax::*;
use super::{error, Parse};
use crate::model::{Span, ONLY_PLAIN, SORT_MESSAGE, SORT_TIME};

/// Words that begin a formula, so no fact has such a name.
pub const FORMULA_WORDS: [&str; 6] = ["F", "T", "All", "Ex", "not", "last"];

impl Parser<'_> {
    pub fn formula(&mut self) -> Parse<Written> {
        self.nested(|p| {
            let left = p.either()?;
            if !p.eat("==>") {
                return Ok(left);
            }
            Ok(Written::Implies(Box::new(left), Box::new(p.formula()?)))
        })
    }

    fn either(&mut self) -> Parse<Written> {
        self.nested(|p| {
            let left = p.both()?;
            if !p.eat("|") {
                return Ok(left);
            }
            Ok(Written::Or(Box::new(left), Box::new(p.either()?)))
        })
    }

    fn both(&mut self) -> Parse<Written> {
        self.nested(|p| {
            let left = p.negated()?;
            if !p.eat("&") {
                return Ok(left);
            }
            Ok(Written::And(Box::new(left), Box::new(p.both()?)))
        })
    }

    fn negated(&mut self) -> Parse<Written> {
        if !(self.eat_word("not") || self.eat("¬")) {
            return self.atom();
        }
        self.nested(|p| Ok(Written::Not(Box::new(p.negated()?))))
    }

    fn atom(&mut self) -> Parse<Written> {
        if self.eat_word("F") || self.eat("⊥") {
            return Ok(Written::False);
        }
        if self.eat_word("T") {
            return Ok(Written::True);
        }
        if self.is_word("last") {
            return error(
                self.span(),
                "`last` is not in the properties that the checker judges",
                "",
            );
        }
        let all = self.is_word("All") || self.is("∀");
        if all || self.is_word("Ex") || self.is("∃") {
            return self.quantifier(all);
        }
        if self.eat("(") {
            let inner = self.formula()?;
            self.expect(")", "to close the bracket")?;
            return Ok(Written::Brackets(Box::new(inner)));
        }
        match (self.peek(), self.peek_second()) {
            (Token::Word(_), Token::Sign("(" | "@")) | (Token::Sign("!"), _) => self.action(),
            _ => self.comparison(),
        }
    }

    fn quantifier(&mut self, all: bool) -> Parse<Written> {
        let start = self.span().start;
        self.next();
        let mut variables = Vec::new();
        while !self.eat(".") {
            let sort = match self.eat("#") {
                true => SORT_TIME,
                false => SORT_MESSAGE,
            };
            variables.push((self.word("a variable, or `.` after the variables")?, sort));
        }
        let span = self.since(start);
        let body = Box::new(self.formula()?);
        Ok(Written::Quantified(WrittenQuantifier {
            all,
            variables,
            body,
            span,
        }))
    }

    fn action(&mut self) -> Parse<Written> {
        let fact = self.fact()?;
        if self.eat("@") {
            return Ok(Written::Action(fact, self.primary()?));
        }
        if self.is("=") || self.is("^") || self.is("*") {
            return no_function(&format!("{}(..)", fact.name), fact.span);
        }
        self.unexpected("`@` and a time after the fact")
    }

    fn comparison(&mut self) -> Parse<Written> {
        let left = self.term()?;
        if self.eat("<") {
            return Ok(Written::Before(left, self.primary()?));
        }
        if !self.eat("=") {
            return self.unexpected("`=`, `<` or `@`");
        }
        let right = self.term()?;
        match is_time(&left) || is_time(&right) {
            true => Ok(Written::SameTime(left, right)),
            false => Ok(Written::Equal(left, right)),
        }
    }
}

fn is_time(raw: &Raw) -> bool {
    matches!(raw.term, RawTerm::Time(_) | RawTerm::Numbered(_, true))
}

/// The error of a function, written so, in a property.
pub fn no_function<T>(written: &str, span: Span) -> Parse<T> {
    let label = "a rule can record it in an action";
    error(span, format!("`{written}`: {ONLY_PLAIN}"), label)
}
