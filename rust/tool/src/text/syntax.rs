//! Trees of a text as written: names are not numbers yet.

use crate::model::{Edge, Span};

#[derive(Clone, Debug)]
pub enum RawTerm {
    /// `x`
    Word(String),
    /// `~x`
    FreshVariable(String),
    /// `$x`
    PublicVariable(String),
    /// `#x`
    Time(String),
    /// `'x'`
    Public(String),
    /// `~'x'`
    Fresh(String),
    /// `?7`, or `#?7` for a time
    Numbered(u32, bool),
    Apply(String, Vec<Raw>),
    /// `0x..`
    Bytes(Vec<u8>),
}

#[derive(Clone, Debug)]
pub struct Raw {
    pub term: RawTerm,
    pub span: Span,
    pub depth: usize,
}

#[derive(Clone, Debug)]
pub struct RawFact {
    pub name: String,
    pub persistent: bool,
    pub arguments: Vec<Raw>,
    pub span: Span,
}

/// A formula before it is brought into the files' guarded form.
#[derive(Clone, Debug)]
pub enum Written {
    False,
    True,
    Equal(Raw, Raw),
    Before(Raw, Raw),
    SameTime(Raw, Raw),
    Action(RawFact, Raw),
    Not(Box<Written>),
    And(Box<Written>, Box<Written>),
    Or(Box<Written>, Box<Written>),
    Implies(Box<Written>, Box<Written>),
    Quantified(WrittenQuantifier),
    Brackets(Box<Written>),
}

#[derive(Clone, Debug)]
pub struct WrittenQuantifier {
    pub all: bool,
    /// Names and sorts.
    pub variables: Vec<(String, u32)>,
    pub body: Box<Written>,
    pub span: Span,
}

pub struct RawRule {
    pub name: String,
    pub span: Span,
    pub parameters: Option<Vec<Raw>>,
    /// Premises, actions, conclusions.
    pub parts: [Vec<RawFact>; 3],
}

pub struct RawLemma {
    pub name: String,
    pub span: Span,
    pub text: String,
    pub formula: Written,
}

pub struct RawRun {
    pub name: String,
    pub span: Span,
    pub exact: bool,
    pub fill: bool,
    pub steps: Vec<RawStep>,
    pub edges: Option<Vec<(Edge, Span)>>,
}

pub enum RawStep {
    /// A name, its place, and what it stands for.
    Let(String, Span, Raw),
    Know(Raw, Span),
    Step(RawNode),
}

pub struct RawNode {
    pub rule: String,
    /// Each with the variable's name, where one is given.
    pub arguments: Vec<(Option<String>, Raw)>,
    pub span: Span,
}

/// A declared function or fact.
pub struct Declared {
    pub name: String,
    pub span: Span,
    pub arity: u32,
    pub persistent: bool,
}

/// A line of `names:`.
pub struct NamedNumber {
    pub name: String,
    pub span: Span,
    pub fresh: bool,
    pub number: u32,
}

/// All of a text, by kind.
#[derive(Default)]
pub struct RawTheory {
    pub name: Option<String>,
    pub functions: Vec<Declared>,
    /// None where the text leaves them to appearance.
    pub facts: Option<Vec<Declared>>,
    pub names: Vec<NamedNumber>,
    pub rules: Vec<RawRule>,
    pub lemmas: Vec<RawLemma>,
    pub runs: Vec<RawRun>,
}
