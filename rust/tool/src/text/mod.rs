//! Text to trees: a lexer and a parser by hand, so that each message says what was expected and where.

mod formulas;
mod guarded;
mod items;
mod lex;
mod names;
mod parser;
mod resolve;
mod runs;
mod syntax;

pub use items::SECTIONS;
pub use lex::{pieces, Piece, Token};
pub use names::near;
pub use parser::MOST_NESTING;

use crate::model::*;
use parser::Parser;
use resolve::Resolver;

/// What is wrong with a text, and where.
#[derive(Clone, Debug)]
pub struct Error {
    pub span: Span,
    pub message: String,
    pub label: String,
    pub notes: Vec<String>,
}

pub type Parse<T> = Result<T, Error>;

pub(crate) fn error<T>(
    span: Span,
    message: impl Into<String>,
    label: impl Into<String>,
) -> Parse<T> {
    Err(Error {
        span,
        message: message.into(),
        label: label.into(),
        notes: Vec::new(),
    })
}

#[derive(Debug)]
pub struct Lemma {
    pub name: String,
    pub span: Span,
    /// The formula as written.
    pub text: String,
    pub formula: Formula,
}

#[derive(Clone, Debug)]
pub enum Step {
    Node(Node),
    /// The intruder is to know this.
    Know(Term),
}

/// A run, or a graph where it has edges.
#[derive(Debug)]
pub struct Run {
    pub name: String,
    pub span: Span,
    pub exact: bool,
    pub fill: bool,
    pub steps: Vec<(Step, Span)>,
    pub edges: Option<Vec<(Edge, Span)>>,
}

#[derive(Debug)]
pub struct Theory {
    pub protocol: Protocol,
    pub names: Names,
    /// Where each rule's name stands.
    pub rule_spans: Vec<Span>,
    pub lemmas: Vec<Lemma>,
    pub runs: Vec<Run>,
}

pub fn parse(text: &str) -> Parse<Theory> {
    let mut parser = Parser::new(text)?;
    let raw = parser.theory()?;
    Resolver::default().theory(parser.tokens(), &raw)
}

/// A message alone, under a theory's names where one is given; and the names with those that it adds.
pub fn parse_term(text: &str, theory: Option<&Theory>) -> Parse<(Term, Names)> {
    let mut parser = Parser::new(text)?;
    let raw = parser.term()?;
    if *parser.peek() != Token::End {
        return parser.unexpected("the end of the term");
    }
    let mut resolver = theory.map_or_else(Resolver::default, Resolver::of_theory);
    let term = resolver.message(parser.tokens(), &raw)?;
    Ok((term, resolver.finished_names()))
}

/// The error of a text that is not UTF-8 from this byte on.
pub fn not_utf8(at: usize) -> Parse<Theory> {
    error(at..at, "a text is UTF-8, and this byte is not", "")
}
