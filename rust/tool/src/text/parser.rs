//! Tokens to trees: what all parts share, and terms and facts.

use super::lex::{tokens, Token};
use super::syntax::*;
use super::{error, Parse};
use crate::model::{limits, Span};

/// Deeper nesting is refused, so that no tree is too deep for the stack.
pub const MOST_NESTING: usize = 1_000;

pub struct Parser<'a> {
    pub text: &'a str,
    tokens: Vec<(Token, Span)>,
    at: usize,
    nesting: usize,
}

impl<'a> Parser<'a> {
    pub fn new(text: &'a str) -> Parse<Self> {
        Ok(Parser {
            text,
            tokens: tokens(text)?,
            at: 0,
            nesting: 0,
        })
    }

    pub fn tokens(&self) -> &[(Token, Span)] {
        &self.tokens
    }

    pub fn peek(&self) -> &Token {
        &self.tokens[self.at].0
    }

    /// The token behind the next one.
    pub fn peek_second(&self) -> &Token {
        &self.tokens[(self.at + 1).min(self.tokens.len() - 1)].0
    }

    pub fn span(&self) -> Span {
        self.tokens[self.at].1.clone()
    }

    /// From a place to the end of the token before.
    pub fn since(&self, start: usize) -> Span {
        start..self.tokens[self.at.saturating_sub(1)].1.end
    }

    pub fn next(&mut self) -> Token {
        let token = self.peek().clone();
        self.at = (self.at + 1).min(self.tokens.len() - 1);
        token
    }

    pub fn is(&self, sign: &str) -> bool {
        matches!(self.peek(), Token::Sign(s) if *s == sign)
    }

    pub fn eat(&mut self, sign: &str) -> bool {
        let found = self.is(sign);
        if found {
            self.next();
        }
        found
    }

    pub fn is_word(&self, word: &str) -> bool {
        matches!(self.peek(), Token::Word(w) if w == word)
    }

    pub fn eat_word(&mut self, word: &str) -> bool {
        let found = self.is_word(word);
        if found {
            self.next();
        }
        found
    }

    pub fn unexpected<T>(&self, wanted: &str) -> Parse<T> {
        // At the end of the file, the place is behind the last token and not in an empty line.
        let span = match self.peek() {
            Token::End => self.since(0).end..self.since(0).end,
            _ => self.span(),
        };
        error(
            span,
            format!("expected {wanted}, found {}", self.peek()),
            format!("expected {wanted}"),
        )
    }

    pub fn expect(&mut self, sign: &'static str, place: &str) -> Parse<()> {
        match self.eat(sign) {
            true => Ok(()),
            false => self.unexpected(&format!("`{sign}` {place}")),
        }
    }

    pub fn word(&mut self, what: &str) -> Parse<String> {
        let Token::Word(word) = self.peek().clone() else {
            return self.unexpected(what);
        };
        self.next();
        Ok(word)
    }

    pub fn number(&mut self, what: &str) -> Parse<u32> {
        let Token::Number(number) = *self.peek() else {
            return self.unexpected(what);
        };
        self.next();
        Ok(number)
    }

    /// A number that a file is to hold.
    pub fn file_number(&mut self, what: &str) -> Parse<u32> {
        let span = self.span();
        match self.number(what)? {
            number if number > limits::LARGEST_NUMBER => number_too_large(span, ""),
            number => Ok(number),
        }
    }

    /// Something and commas up to a closing sign.
    pub fn listed<T>(
        &mut self,
        close: &'static str,
        mut each: impl FnMut(&mut Self) -> Parse<T>,
    ) -> Parse<Vec<T>> {
        let mut all = Vec::new();
        if self.eat(close) {
            return Ok(all);
        }
        loop {
            all.push(each(self)?);
            if self.eat(close) {
                return Ok(all);
            }
            if !self.eat(",") {
                return self.unexpected(&format!("`,` or `{close}`"));
            }
        }
    }

    /// Reads what may hold itself, and counts how deep.
    pub fn nested<T>(&mut self, read: impl FnOnce(&mut Self) -> Parse<T>) -> Parse<T> {
        self.nesting += 1;
        if self.nesting > MOST_NESTING {
            return too_deep(self.span());
        }
        let done = read(self);
        self.nesting -= 1;
        done
    }

    /// `*` nests to the right.
    pub fn term(&mut self) -> Parse<Raw> {
        self.nested(|p| {
            let first = p.power()?;
            if !p.eat("*") {
                return Ok(first);
            }
            let rest = p.term()?;
            let span = first.span.start..rest.span.end;
            apply("mul", vec![first, rest], span)
        })
    }

    /// `^` nests to the left.
    fn power(&mut self) -> Parse<Raw> {
        let mut base = self.primary()?;
        while self.eat("^") {
            let exponent = self.primary()?;
            let span = base.span.start..exponent.span.end;
            base = apply("exp", vec![base, exponent], span)?;
        }
        Ok(base)
    }

    pub fn primary(&mut self) -> Parse<Raw> {
        let start = self.span().start;
        let term = match self.peek().clone() {
            Token::Sign("(") => return self.bracketed(start),
            Token::Sign("<") => return self.tuple(start),
            Token::Word(word) => return self.word_or_function(word, start),
            Token::Number(1) => RawTerm::Apply("one".into(), Vec::new()),
            Token::Quoted(name) => RawTerm::Public(name),
            Token::Bytes(bytes) => RawTerm::Bytes(bytes),
            Token::Sign("~" | "$" | "#" | "?") => return self.signed(start),
            _ => return self.unexpected("a term"),
        };
        self.next();
        Ok(leaf(term, self.since(start)))
    }

    /// `~x`, `~'x'`, `$x`, `#x`, `?7` and `#?7`.
    fn signed(&mut self, start: usize) -> Parse<Raw> {
        let term = match self.next() {
            Token::Sign("$") => RawTerm::PublicVariable(self.word("a name after `$`")?),
            Token::Sign("#") if self.eat("?") => RawTerm::Numbered(self.variable()?, true),
            Token::Sign("#") => RawTerm::Time(self.word("a time variable after `#`")?),
            Token::Sign("?") => RawTerm::Numbered(self.variable()?, false),
            _ => match self.peek().clone() {
                Token::Quoted(name) => {
                    self.next();
                    RawTerm::Fresh(name)
                }
                _ => RawTerm::FreshVariable(self.word("a name after `~`")?),
            },
        };
        Ok(leaf(term, self.since(start)))
    }

    fn variable(&mut self) -> Parse<u32> {
        self.file_number("a variable's number after `?`")
    }

    fn bracketed(&mut self, start: usize) -> Parse<Raw> {
        self.next();
        let mut inner = self.term()?;
        self.expect(")", "to close the bracket")?;
        inner.span = self.since(start);
        Ok(inner)
    }

    /// A tuple is pairs, nested to the right.
    fn tuple(&mut self, start: usize) -> Parse<Raw> {
        self.next();
        let mut parts = self.listed(">", Self::term)?;
        let Some(mut all) = parts.pop() else {
            return error(
                self.since(start),
                "an empty tuple",
                "a tuple has one part or more",
            );
        };
        while let Some(part) = parts.pop() {
            all = apply("pair", vec![part, all], self.since(start))?;
        }
        Ok(all)
    }

    fn word_or_function(&mut self, word: String, start: usize) -> Parse<Raw> {
        self.next();
        if !self.eat("(") {
            return Ok(leaf(RawTerm::Word(word), self.since(start)));
        }
        let arguments = self.listed(")", Self::term)?;
        apply(&word, arguments, self.since(start))
    }

    pub fn fact(&mut self) -> Parse<RawFact> {
        let start = self.span().start;
        let persistent = self.eat("!");
        let name = self.word("a fact")?;
        let arguments = match self.eat("(") {
            true => self.listed(")", Self::term)?,
            false => Vec::new(),
        };
        Ok(RawFact {
            name,
            persistent,
            arguments,
            span: self.since(start),
        })
    }
}

/// The error of a number that no file can hold.
pub fn number_too_large<T>(span: Span, label: &str) -> Parse<T> {
    let most = limits::LARGEST_NUMBER;
    error(span, format!("a number is at most {most}"), label)
}

fn too_deep<T>(span: Span) -> Parse<T> {
    error(
        span,
        "nested more than 1,000 deep",
        "a value as large as this is written as its bytes, `0x..`, in a run that is [exact]",
    )
}

fn leaf(term: RawTerm, span: Span) -> Raw {
    Raw {
        term,
        span,
        depth: 1,
    }
}

fn apply(name: &str, arguments: Vec<Raw>, span: Span) -> Parse<Raw> {
    let depth = 1 + arguments.iter().map(|raw| raw.depth).max().unwrap_or(0);
    if depth > MOST_NESTING {
        return too_deep(span);
    }
    Ok(Raw {
        term: RawTerm::Apply(name.into(), arguments),
        span,
        depth,
    })
}
