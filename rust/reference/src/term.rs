//! "A term is written in prefix order, tag first (tags are decimal)".

use crate::figures::SIGNING;
use crate::number::{self, Fault, Read, Reader};

pub const VARIABLE: u32 = 0;
pub const PUBLIC: u32 = 1;
pub const FRESH: u32 = 2;
pub const ONE: u32 = 3;
pub const ENC: u32 = 4;
pub const DEC: u32 = 5;
pub const H: u32 = 6;
pub const PAIR: u32 = 7;
pub const FST: u32 = 8;
pub const SND: u32 = 9;
pub const EXP: u32 = 10;
pub const INV: u32 = 11;
pub const MUL: u32 = 12;
/// Free function j has the tag `FREE + j`.
pub const FREE: u32 = 13;
/// "tags 29 aenc, 30 adec, 31 pk, 32 sign, 33 verify, 34 true", whichever free functions are declared.
pub const AENC: u32 = 29;
pub const ADEC: u32 = 30;
pub const PK: u32 = 31;
pub const SIGN: u32 = 32;
pub const VERIFY: u32 = 33;
pub const TRUE: u32 = 34;

/// A public name; it never passes for a fresh one.
#[derive(Clone, Copy, Debug, PartialEq, Eq, PartialOrd, Ord)]
pub struct Public(pub u32);

/// A fresh name.
#[derive(Clone, Copy, Debug, PartialEq, Eq, PartialOrd, Ord, Hash)]
pub struct Fresh(pub u32);

#[derive(Clone, Debug, PartialEq, Eq, PartialOrd, Ord)]
pub enum Term {
    Variable(u32),
    Public(Public),
    Fresh(Fresh),
    /// A function's tag, from `ONE` on, and its arguments.
    Apply(u32, Vec<Term>),
}

/// The arities of the declared free functions, free function 0 first.
#[derive(Clone, Debug, Default, PartialEq, Eq)]
pub struct Signature {
    pub free: Vec<usize>,
}

impl Signature {
    /// "Arities: one 0; h, fst, snd, inv 1; the others 2; a free function as declared."
    /// None where the tag is no function, declared or built in.
    pub fn arity(&self, tag: u32) -> Option<usize> {
        match tag {
            VARIABLE | PUBLIC | FRESH => None,
            ONE => Some(0),
            H | FST | SND | INV => Some(1),
            ENC | DEC | PAIR | EXP | MUL => Some(2),
            FREE..AENC => self.free.get((tag - FREE) as usize).copied(),
            AENC.. => SIGNING.get((tag - AENC) as usize).copied(),
        }
    }
}

/// One tag with the number that follows the tags 0 to 2, or with the arity.
#[derive(Clone, Copy, Debug)]
enum Symbol {
    Leaf(u32, u32),
    Function(u32, usize),
}

/// One term as it lies in a file: its symbols in prefix order. It may be far too large for a tree.
#[derive(Clone, Debug)]
pub struct Prefix {
    symbols: Vec<Symbol>,
}

impl Prefix {
    /// Reads one term; the reader stands behind it afterwards.
    pub fn read(reader: &mut Reader, signature: &Signature) -> Read<Prefix> {
        let mut symbols = Vec::new();
        let mut missing = 1;
        while missing > 0 {
            let tag = reader.number()?;
            missing -= 1;
            symbols.push(match tag {
                VARIABLE | PUBLIC | FRESH => Symbol::Leaf(tag, reader.number()?),
                _ => {
                    let arity = signature.arity(tag).ok_or(Fault)?;
                    missing += arity;
                    Symbol::Function(tag, arity)
                }
            });
        }
        Ok(Prefix { symbols })
    }

    /// "Each tag counts as one symbol."
    pub fn symbols(&self) -> usize {
        self.symbols.len()
    }

    pub fn variables(&self) -> impl Iterator<Item = u32> + '_ {
        self.symbols.iter().filter_map(|symbol| match symbol {
            Symbol::Leaf(VARIABLE, number) => Some(*number),
            _ => None,
        })
    }

    pub fn has_variable(&self) -> bool {
        self.variables().next().is_some()
    }

    /// The tree, built from the last symbol to the first.
    pub fn tree(&self) -> Term {
        let mut done: Vec<Term> = Vec::new();
        for symbol in self.symbols.iter().rev() {
            let term = match *symbol {
                Symbol::Leaf(VARIABLE, number) => Term::Variable(number),
                Symbol::Leaf(PUBLIC, number) => Term::Public(Public(number)),
                Symbol::Leaf(_, number) => Term::Fresh(Fresh(number)),
                Symbol::Function(tag, arity) => {
                    let mut arguments = done.split_off(done.len() - arity);
                    arguments.reverse();
                    Term::Apply(tag, arguments)
                }
            };
            done.push(term);
        }
        done.pop().expect("a term has at least one symbol")
    }
}

impl Term {
    pub fn one() -> Term {
        Term::Apply(ONE, Vec::new())
    }

    pub fn apply(tag: u32, arguments: impl IntoIterator<Item = Term>) -> Term {
        Term::Apply(tag, arguments.into_iter().collect())
    }

    /// The arguments of a function; none of a leaf.
    pub fn arguments(&self) -> &[Term] {
        match self {
            Term::Apply(_, arguments) => arguments,
            _ => &[],
        }
    }

    pub fn has_tag(&self, tag: u32) -> bool {
        matches!(self, Term::Apply(own, _) if *own == tag)
    }

    pub fn encode(&self, bytes: &mut Vec<u8>) {
        match self {
            Term::Variable(number) => write_leaf(VARIABLE, *number, bytes),
            Term::Public(Public(number)) => write_leaf(PUBLIC, *number, bytes),
            Term::Fresh(Fresh(number)) => write_leaf(FRESH, *number, bytes),
            Term::Apply(tag, arguments) => {
                number::write(*tag, bytes);
                for argument in arguments {
                    argument.encode(bytes);
                }
            }
        }
    }

    pub fn encoded(&self) -> Vec<u8> {
        let mut bytes = Vec::new();
        self.encode(&mut bytes);
        bytes
    }

    pub fn symbols(&self) -> usize {
        1 + self.arguments().iter().map(Term::symbols).sum::<usize>()
    }

    /// Whether the term or a part of it meets the test.
    pub fn any(&self, test: &impl Fn(&Term) -> bool) -> bool {
        test(self) || self.arguments().iter().any(|argument| argument.any(test))
    }

    /// The term with `values` in place of its variables.
    pub fn fill_in(&self, values: &[Term]) -> Term {
        match self {
            Term::Variable(number) => values[*number as usize].clone(),
            Term::Apply(tag, arguments) => {
                Term::apply(*tag, arguments.iter().map(|part| part.fill_in(values)))
            }
            _ => self.clone(),
        }
    }
}

fn write_leaf(tag: u32, number: u32, bytes: &mut Vec<u8>) {
    number::write(tag, bytes);
    number::write(number, bytes);
}

#[cfg(test)]
mod tests {
    use super::*;

    fn read(bytes: &[u8], free: &[usize]) -> Read<(Term, usize)> {
        let signature = Signature {
            free: free.to_vec(),
        };
        let mut reader = Reader::new(bytes);
        let prefix = Prefix::read(&mut reader, &signature)?;
        Ok((prefix.tree(), reader.at()))
    }

    #[test]
    fn arguments_keep_their_order() {
        let (term, end) = read(&[4, 1, 7, 7, 2, 8, 3, 99], &[]).unwrap();
        let pair = Term::apply(PAIR, [Term::Fresh(Fresh(8)), Term::one()]);
        assert_eq!(term, Term::apply(ENC, [Term::Public(Public(7)), pair]));
        assert_eq!(end, 7);
        assert_eq!(term.symbols(), 5);
        assert_eq!(term.encoded(), [4, 1, 7, 7, 2, 8, 3]);
    }

    #[test]
    fn a_free_function_has_its_declared_arity() {
        assert_eq!(read(&[13, 3], &[0]).unwrap().1, 1);
        assert_eq!(read(&[14, 3, 3, 3], &[0, 3]).unwrap().1, 4);
        assert_eq!(read(&[14, 3, 3], &[0, 3]), Err(Fault));
        assert_eq!(read(&[15, 3], &[0, 3]), Err(Fault));
    }

    #[test]
    fn six_more_functions_and_no_seventh() {
        for free in [0, 16] {
            let arity = |tag| {
                Signature {
                    free: vec![1; free],
                }
                .arity(tag)
            };
            let arities: Vec<_> = (AENC..=TRUE).map(arity).collect();
            assert_eq!(arities, [2, 2, 1, 2, 3, 0].map(Some));
            assert_eq!(arity(AENC - 1).is_some(), free == 16);
            assert_eq!(arity(TRUE + 1), None);
        }
    }

    #[test]
    fn a_term_of_thirty_thousand_symbols_is_read() {
        let mut bytes = vec![6; 30_000];
        bytes.push(3);
        let mut reader = Reader::new(&bytes);
        let prefix = Prefix::read(&mut reader, &Signature::default()).unwrap();
        assert_eq!(prefix.symbols(), 30_001);
        assert_eq!(reader.finish(), Ok(()));
    }
}
