//! A reader of files that says where it stopped, and why.

use crate::model::*;

/// Which numbered part of a file a byte belongs to, from 1.
#[derive(Clone, Copy, Debug, PartialEq, Eq)]
pub enum Part {
    Whole,
    Rule(usize),
    Node(usize),
    Edge(usize),
}

#[derive(Clone, Debug)]
pub struct Fault {
    /// The byte, from 0.
    pub at: usize,
    pub part: Part,
    pub what: String,
}

type Read<T> = Result<T, Fault>;

/// The bits of a group.
const GROUP_BITS: u32 = 7;
/// The groups of the largest number.
const MOST_GROUPS: u32 = limits::LARGEST_NUMBER.ilog2() / GROUP_BITS + 1;

struct Reader<'a> {
    bytes: &'a [u8],
    at: usize,
    part: Part,
}

impl<'a> Reader<'a> {
    fn new(bytes: &'a [u8]) -> Self {
        Reader {
            bytes,
            at: 0,
            part: Part::Whole,
        }
    }

    fn fault<T>(&self, at: usize, what: impl Into<String>) -> Read<T> {
        Err(Fault {
            at,
            part: self.part,
            what: what.into(),
        })
    }

    fn number(&mut self) -> Read<u32> {
        let start = self.at;
        let mut value = 0;
        for group in 0..MOST_GROUPS {
            let Some(&byte) = self.bytes.get(self.at) else {
                return self.fault(start, "the file ends where a number should be");
            };
            self.at += 1;
            value |= u32::from(byte & 0x7F) << (GROUP_BITS * group);
            if byte & 0x80 == 0 {
                if group > 0 && byte == 0 {
                    return self.fault(start, "a number that is not in its shortest form");
                }
                return Ok(value);
            }
        }
        self.fault(start, format!("a number of more than {MOST_GROUPS} groups"))
    }

    fn at_most(&mut self, most: u32, what: &str) -> Read<u32> {
        let start = self.at;
        match self.number()? {
            n if n > most => self.fault(start, format!("{what} of {n}; the most is {most}")),
            n => Ok(n),
        }
    }

    fn counted<T>(
        &mut self,
        most: u32,
        what: &str,
        mut each: impl FnMut(&mut Self) -> Read<T>,
    ) -> Read<Vec<T>> {
        let count = self.at_most(most, what)?;
        (0..count).map(|_| each(self)).collect()
    }

    /// As `counted`, where a fault belongs to the numbered part that is read.
    fn counted_parts<T>(
        &mut self,
        most: u32,
        what: &str,
        part: fn(usize) -> Part,
        mut each: impl FnMut(&mut Self) -> Read<T>,
    ) -> Read<Vec<T>> {
        let mut index = 0;
        let all = self.counted(most, what, |reader| {
            index += 1;
            reader.part = part(index);
            each(reader)
        });
        let all = all?;
        self.part = Part::Whole;
        Ok(all)
    }

    fn finish(&self) -> Read<()> {
        match self.bytes.len() - self.at {
            0 => Ok(()),
            left => self.fault(self.at, format!("{left} bytes are left over")),
        }
    }

    /// Passes over a term, and counts its symbols. Thousands of nested functions are well laid out, so nothing here recurses.
    fn pass_term(&mut self, protocol: &Protocol) -> Read<usize> {
        let (mut symbols, mut open) = (0, 1);
        while open > 0 {
            let start = self.at;
            let tag = self.number()?;
            symbols += 1;
            open -= 1;
            match protocol.arity(tag) {
                Some(arity) => open += arity,
                None if tag < ONE => {
                    self.number()?;
                }
                None => {
                    return self.fault(start, format!("tag {tag} is no declared function"));
                }
            }
        }
        Ok(symbols)
    }

    fn term(&mut self, protocol: &Protocol) -> Read<Term> {
        let start = self.at;
        let symbols = self.pass_term(protocol)?;
        if symbols > MOST_SHOWN_SYMBOLS {
            return Ok(Term::Large(self.bytes[start..self.at].to_vec(), symbols));
        }
        self.at = start;
        self.small_term(protocol)
    }

    fn small_term(&mut self, protocol: &Protocol) -> Read<Term> {
        Ok(match self.number()? {
            0 => Term::Variable(self.number()?),
            1 => Term::Public(self.number()?),
            2 => Term::Fresh(self.number()?),
            tag => {
                let arguments = (0..protocol.arity(tag).unwrap_or(0))
                    .map(|_| self.small_term(protocol))
                    .collect::<Read<_>>()?;
                Term::Apply(tag, arguments)
            }
        })
    }

    fn fact(
        &mut self,
        protocol: &Protocol,
        mut term: impl FnMut(&mut Self) -> Read<Term>,
    ) -> Read<Fact> {
        let start = self.at;
        let symbol = self.number()?;
        let Some((arity, _)) = protocol.symbol(symbol) else {
            return self.fault(start, format!("fact symbol {symbol} is not declared"));
        };
        let terms = (0..arity).map(|_| term(self)).collect::<Read<_>>()?;
        Ok(Fact { symbol, terms })
    }

    fn rule(&mut self, protocol: &Protocol) -> Read<Rule> {
        let sorts = self.counted(limits::RULE_VARIABLES, "a count of variables", |r| {
            r.at_most(SORT_PUBLIC, "a sort")
        })?;
        let mut part = |what| {
            self.counted(limits::RULE_FACTS, what, |reader| {
                reader.fact(protocol, |r| r.rule_term(protocol, sorts.len()))
            })
        };
        Ok(Rule {
            premises: part("a count of premises")?,
            actions: part("a count of actions")?,
            conclusions: part("a count of conclusions")?,
            sorts,
        })
    }

    fn rule_term(&mut self, protocol: &Protocol, variables: usize) -> Read<Term> {
        let start = self.at;
        let term = self.term(protocol)?;
        if term.symbols() > limits::RULE_TERM_SYMBOLS {
            let symbols = term.symbols();
            return self.fault(
                start,
                format!(
                    "a rule's term of {symbols} symbols; the most is {}",
                    limits::RULE_TERM_SYMBOLS
                ),
            );
        }
        if term.any(|t| matches!(t, Term::Variable(n) if *n as usize >= variables)) {
            return self.fault(start, "a variable that the rule does not declare");
        }
        Ok(term)
    }

    fn formula(&mut self, protocol: &Protocol, level: u32, scope: usize) -> Read<Formula> {
        let start = self.at;
        if level > limits::NESTING {
            let most = limits::NESTING;
            return self.fault(start, format!("formulas nested more than {most} deep"));
        }
        let tag = self.number()?;
        Ok(match tag {
            0 => Formula::False,
            1 => Formula::Equal(self.plain()?, self.plain()?),
            2 => Formula::Unequal(self.plain()?, self.plain()?),
            3 => Formula::Before(self.number()?, self.number()?),
            4 => Formula::NotBefore(self.number()?, self.number()?),
            5 => Formula::SameTime(self.number()?, self.number()?),
            6 => Formula::NotSameTime(self.number()?, self.number()?),
            7 => Formula::Action(self.fact(protocol, Self::plain)?, self.number()?),
            8 => Formula::NoAction(self.fact(protocol, Self::plain)?, self.number()?),
            9 | 10 => {
                let first = Box::new(self.formula(protocol, level + 1, scope)?);
                let second = Box::new(self.formula(protocol, level + 1, scope)?);
                match tag {
                    9 => Formula::And(first, second),
                    _ => Formula::Or(first, second),
                }
            }
            11 => Formula::Exists(self.quantifier(protocol, level, scope)?),
            12 => Formula::ForAll(self.quantifier(protocol, level, scope)?),
            _ => return self.fault(start, format!("{tag} is no tag of a formula")),
        })
    }

    fn quantifier(&mut self, protocol: &Protocol, level: u32, scope: usize) -> Read<Quantifier> {
        let start = self.at;
        let sorts = self.counted(limits::NEW_VARIABLES, "a count of new variables", |r| {
            let at = r.at;
            match r.number()? {
                sort @ (SORT_MESSAGE | SORT_TIME) => Ok(sort),
                sort => r.fault(
                    at,
                    format!("sort {sort} is neither message (0) nor time (3)"),
                ),
            }
        })?;
        let scope = scope + sorts.len();
        if scope > limits::VARIABLES_IN_SCOPE {
            let most = limits::VARIABLES_IN_SCOPE;
            return self.fault(start, format!("more than {most} variables in scope"));
        }
        Ok(Quantifier {
            sorts,
            guard: self.fact(protocol, Self::plain)?,
            time: self.number()?,
            body: Box::new(self.formula(protocol, level + 1, scope)?),
            written: None,
        })
    }

    fn plain(&mut self) -> Read<Term> {
        let start = self.at;
        match self.number()? {
            0 => Ok(Term::Variable(self.number()?)),
            1 => Ok(Term::Public(self.number()?)),
            tag => {
                let name = built_in(tag).map_or(String::new(), |f| format!(" ({})", f.name));
                let what = format!("tag {tag}{name}: {ONLY_PLAIN}");
                self.fault(start, what)
            }
        }
    }

    fn nodes(&mut self, protocol: &Protocol) -> Read<Vec<Node>> {
        self.counted_parts(limits::NODES, "a count of nodes", Part::Node, |r| {
            let at = r.at;
            let rule = r.number()?;
            let Some(of) = protocol.rule(rule) else {
                return r.fault(at, format!("there is no rule {rule}"));
            };
            let values = of.sorts.iter().map(|_| r.term(protocol));
            Ok(Node {
                rule,
                values: values.collect::<Read<_>>()?,
            })
        })
    }

    fn edge(&mut self) -> Read<Edge> {
        Ok([
            self.number()?,
            self.number()?,
            self.number()?,
            self.number()?,
        ])
    }
}

/// Reads a whole file by one of the reader's functions.
fn whole<T>(bytes: &[u8], read: impl FnOnce(&mut Reader) -> Read<T>) -> Read<T> {
    let mut reader = Reader::new(bytes);
    let read = read(&mut reader)?;
    reader.finish()?;
    Ok(read)
}

pub fn protocol(bytes: &[u8]) -> Read<Protocol> {
    whole(bytes, |r| {
        let functions = r.counted(limits::FUNCTIONS, "a count of functions", |r| {
            r.at_most(limits::FUNCTION_ARITY, "an arity")
        })?;
        let facts = r.counted(limits::FACT_SYMBOLS, "a count of fact symbols", |r| {
            let arity = r.at_most(limits::FACT_ARITY, "an arity")?;
            Ok((arity, r.at_most(1, "a flag for persistent")? == 1))
        })?;
        let mut protocol = Protocol {
            functions,
            facts,
            rules: Vec::new(),
        };
        let rules = r.counted_parts(limits::RULES, "a count of rules", Part::Rule, |r| {
            r.rule(&protocol)
        })?;
        protocol.rules = rules;
        Ok(protocol)
    })
}

pub fn property(bytes: &[u8], protocol: &Protocol) -> Read<Formula> {
    whole(bytes, |r| r.formula(protocol, 1, 0))
}

pub fn steps(bytes: &[u8], protocol: &Protocol) -> Read<Vec<Node>> {
    whole(bytes, |r| r.nodes(protocol))
}

pub fn graph(bytes: &[u8], protocol: &Protocol) -> Read<Graph> {
    whole(bytes, |r| {
        let nodes = r.nodes(protocol)?;
        let what = "a count of edges";
        let edges = r.counted_parts(limits::EDGES, what, Part::Edge, Reader::edge)?;
        Ok(Graph { nodes, edges })
    })
}

pub fn term(bytes: &[u8], protocol: &Protocol) -> Read<Term> {
    whole(bytes, |r| r.term(protocol))
}
