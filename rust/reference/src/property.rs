//! "Property (1,024 bytes)": its file and limits (cause 3), and scope (cause 5).

use crate::number::{self, Fault, Read, Reader};
use crate::protocol::{Fact, Protocol};
use crate::term::{Public, Term, PUBLIC, VARIABLE};

pub const MOST_NEW: u32 = 8;
/// "Variables are numbered from the outermost, 0 up, 16 in scope"
pub const MOST_IN_SCOPE: usize = 16;
/// "nesting at most 16, the outermost formula counting one"
pub const MOST_NESTING: usize = 16;

#[derive(Clone, Copy, Debug, PartialEq, Eq)]
pub enum Sort {
    Message = 0,
    Time = 3,
}

#[derive(Clone, Debug, PartialEq, Eq)]
pub enum Formula {
    False,
    Equal(Term, Term),
    Unequal(Term, Term),
    Before(u32, u32),
    NotBefore(u32, u32),
    SameTime(u32, u32),
    NotSameTime(u32, u32),
    Action(Fact, u32),
    NoAction(Fact, u32),
    And(Box<Formula>, Box<Formula>),
    Or(Box<Formula>, Box<Formula>),
    Exists(Quantifier),
    ForAll(Quantifier),
}

/// "a count of new variables (8), each sort (0 message, 3 time), a guard fact, its time variable, then
/// the body"
#[derive(Clone, Debug, PartialEq, Eq)]
pub struct Quantifier {
    pub new: Vec<Sort>,
    pub guard: Fact,
    pub time: u32,
    pub body: Box<Formula>,
}

/// Reads the whole file: cause 3.
pub fn read(bytes: &[u8], protocol: &Protocol) -> Read<Formula> {
    let mut reader = Reader::new(bytes);
    let mut file = FormulaReader {
        reader: &mut reader,
        protocol,
    };
    let formula = file.formula(1, 0)?;
    reader.finish()?;
    Ok(formula)
}

struct FormulaReader<'a, 'b> {
    reader: &'a mut Reader<'b>,
    protocol: &'a Protocol,
}

impl FormulaReader<'_, '_> {
    /// A formula at this level of nesting, with so many variables in scope.
    fn formula(&mut self, level: usize, in_scope: usize) -> Read<Formula> {
        if level > MOST_NESTING {
            return Err(Fault);
        }
        Ok(match self.reader.number()? {
            0 => Formula::False,
            1 => Formula::Equal(self.term()?, self.term()?),
            2 => Formula::Unequal(self.term()?, self.term()?),
            3 => Formula::Before(self.time()?, self.time()?),
            4 => Formula::NotBefore(self.time()?, self.time()?),
            5 => Formula::SameTime(self.time()?, self.time()?),
            6 => Formula::NotSameTime(self.time()?, self.time()?),
            7 => Formula::Action(self.fact()?, self.time()?),
            8 => Formula::NoAction(self.fact()?, self.time()?),
            9 => Formula::And(self.part(level, in_scope)?, self.part(level, in_scope)?),
            10 => Formula::Or(self.part(level, in_scope)?, self.part(level, in_scope)?),
            11 => Formula::Exists(self.quantifier(level, in_scope)?),
            12 => Formula::ForAll(self.quantifier(level, in_scope)?),
            _ => return Err(Fault),
        })
    }

    fn part(&mut self, level: usize, in_scope: usize) -> Read<Box<Formula>> {
        Ok(Box::new(self.formula(level + 1, in_scope)?))
    }

    fn quantifier(&mut self, level: usize, in_scope: usize) -> Read<Quantifier> {
        let new = self
            .reader
            .counted(MOST_NEW, |reader| match reader.number()? {
                0 => Ok(Sort::Message),
                3 => Ok(Sort::Time),
                _ => Err(Fault),
            })?;
        let in_scope = in_scope + new.len();
        if in_scope > MOST_IN_SCOPE {
            return Err(Fault);
        }
        Ok(Quantifier {
            guard: self.fact()?,
            time: self.time()?,
            body: self.part(level, in_scope)?,
            new,
        })
    }

    fn fact(&mut self) -> Read<Fact> {
        let symbol = self.reader.number()?;
        let arity = self.protocol.fact_symbol(symbol).ok_or(Fault)?.arity;
        let terms = (0..arity).map(|_| self.term()).collect::<Read<_>>()?;
        Ok(Fact { symbol, terms })
    }

    /// "Only tags 0 and 1 stand for terms here."
    fn term(&mut self) -> Read<Term> {
        match self.reader.number()? {
            VARIABLE => Ok(Term::Variable(self.reader.number()?)),
            PUBLIC => Ok(Term::Public(Public(self.reader.number()?))),
            _ => Err(Fault),
        }
    }

    fn time(&mut self) -> Read<u32> {
        self.reader.number()
    }
}

impl Formula {
    pub fn tag(&self) -> u32 {
        match self {
            Formula::False => 0,
            Formula::Equal(..) => 1,
            Formula::Unequal(..) => 2,
            Formula::Before(..) => 3,
            Formula::NotBefore(..) => 4,
            Formula::SameTime(..) => 5,
            Formula::NotSameTime(..) => 6,
            Formula::Action(..) => 7,
            Formula::NoAction(..) => 8,
            Formula::And(..) => 9,
            Formula::Or(..) => 10,
            Formula::Exists(_) => 11,
            Formula::ForAll(_) => 12,
        }
    }

    /// The file of this formula, within the limits or not.
    pub fn encoded(&self) -> Vec<u8> {
        let mut bytes = Vec::new();
        self.encode(&mut bytes);
        bytes
    }

    pub fn encode(&self, bytes: &mut Vec<u8>) {
        number::write(self.tag(), bytes);
        match self {
            Formula::False => {}
            Formula::Equal(left, right) | Formula::Unequal(left, right) => {
                left.encode(bytes);
                right.encode(bytes);
            }
            Formula::Before(left, right)
            | Formula::NotBefore(left, right)
            | Formula::SameTime(left, right)
            | Formula::NotSameTime(left, right) => {
                number::write(*left, bytes);
                number::write(*right, bytes);
            }
            Formula::Action(fact, time) | Formula::NoAction(fact, time) => {
                fact.encode(bytes);
                number::write(*time, bytes);
            }
            Formula::And(left, right) | Formula::Or(left, right) => {
                left.encode(bytes);
                right.encode(bytes);
            }
            Formula::Exists(quantifier) | Formula::ForAll(quantifier) => quantifier.encode(bytes),
        }
    }

    /// Whether cause 5 is absent: "variable out of scope or of wrong sort, or new one not in its guard".
    pub fn is_fit(&self, scope: &[Sort]) -> bool {
        let term = |term: &Term| match term {
            Term::Variable(number) => has_sort(scope, *number, Sort::Message),
            _ => true,
        };
        let time = |number: &u32| has_sort(scope, *number, Sort::Time);
        match self {
            Formula::False => true,
            Formula::Equal(left, right) | Formula::Unequal(left, right) => {
                term(left) && term(right)
            }
            Formula::Before(left, right)
            | Formula::NotBefore(left, right)
            | Formula::SameTime(left, right)
            | Formula::NotSameTime(left, right) => time(left) && time(right),
            Formula::Action(fact, at) | Formula::NoAction(fact, at) => {
                fact.terms.iter().all(term) && time(at)
            }
            Formula::And(left, right) | Formula::Or(left, right) => {
                left.is_fit(scope) && right.is_fit(scope)
            }
            Formula::Exists(quantifier) | Formula::ForAll(quantifier) => quantifier.is_fit(scope),
        }
    }
}

fn has_sort(scope: &[Sort], number: u32, sort: Sort) -> bool {
    scope.get(number as usize) == Some(&sort)
}

impl Quantifier {
    fn encode(&self, bytes: &mut Vec<u8>) {
        number::write(self.new.len() as u32, bytes);
        for sort in &self.new {
            number::write(*sort as u32, bytes);
        }
        self.guard.encode(bytes);
        number::write(self.time, bytes);
        self.body.encode(bytes);
    }

    fn is_fit(&self, outer: &[Sort]) -> bool {
        let scope = [outer, &self.new].concat();
        let guard = Formula::Action(self.guard.clone(), self.time);
        let mut new = (outer.len() as u32..).zip(&self.new);
        guard.is_fit(&scope)
            && new.all(|(number, sort)| self.is_in_guard(number, *sort))
            && self.body.is_fit(&scope)
    }

    fn is_in_guard(&self, number: u32, sort: Sort) -> bool {
        match sort {
            Sort::Message => self.guard.terms.contains(&Term::Variable(number)),
            Sort::Time => self.time == number,
        }
    }
}
