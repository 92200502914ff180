//! "Protocol (4,096 bytes)": its file, its limits, the conditions P1 to P5, and rules by their number.

use crate::number::{self, Fault, Read, Reader};
use crate::term::{Prefix, Signature, Term, AENC};

pub const MOST_FUNCTIONS: u32 = 16;
pub const MOST_FUNCTION_ARITY: u32 = 4;
pub const MOST_FACT_SYMBOLS: u32 = 32;
pub const MOST_FACT_ARITY: u32 = 8;
pub const MOST_RULES: u32 = 64;
pub const MOST_VARIABLES: u32 = 16;
pub const MOST_FACTS: u32 = 8;
/// "a rule's term has at most 64 symbols"
pub const MOST_RULE_SYMBOLS: usize = 64;

/// "Symbols 0 Fr, 1 In, 2 Out are linear, 3 K persistent, each of arity 1; own ones start at 4."
pub const FR: u32 = 0;
pub const IN: u32 = 1;
pub const OUT: u32 = 2;
pub const K: u32 = 3;
const OWN: u32 = 4;

/// What a rule number stands for.
#[derive(Clone, Copy, Debug, PartialEq, Eq)]
pub enum Numbered {
    /// "Rule 0 makes Fr(fresh)", and so on up to 4.
    Fixed(u32),
    /// The apply-rule of this tag.
    Apply(u32),
    /// The protocol's rule, from 0.
    Own(u32),
}

/// What each number of a range stands for.
type Meaning = fn(u32) -> Numbered;

/// The ranges of rule numbers in their order, each with the number behind its last one and what its numbers stand for.
const RANGES: [(u32, Meaning); 4] = [
    (5, Numbered::Fixed),
    // "Rule t+2 applies the function of tag t"
    (31, |number| Numbered::Apply(number - 2)),
    // "a protocol rule r (from 0) is 31+r"
    (31 + MOST_RULES, |number| Numbered::Own(number - 31)),
    // "Their apply-rules are 95 to 100, in that order"
    (101, |number| Numbered::Apply(number - 95 + AENC)),
];

/// What this rule number stands for, whatever the protocol; nothing behind the last range.
pub fn numbered(number: u32) -> Option<Numbered> {
    let range = RANGES.iter().find(|(end, _)| number < *end);
    range.map(|(_, meaning)| meaning(number))
}

/// The number that stands for this.
pub fn number_of(meaning: Numbered) -> u32 {
    let all = 0..RANGES[RANGES.len() - 1].0;
    all.into_iter()
        .find(|number| numbered(*number) == Some(meaning))
        .expect("a rule number")
}

#[derive(Clone, Copy, Debug, PartialEq, Eq)]
pub enum Sort {
    Message = 0,
    Fresh = 1,
    Public = 2,
}

impl Sort {
    /// Whether a variable of this sort takes this value.
    pub fn takes(self, value: &Term) -> bool {
        match self {
            Sort::Message => true,
            Sort::Fresh => matches!(value, Term::Fresh(_)),
            Sort::Public => matches!(value, Term::Public(_)),
        }
    }
}

/// A fact of a rule, with variables, or of a node, without.
#[derive(Clone, Debug, PartialEq, Eq, PartialOrd, Ord)]
pub struct Fact {
    pub symbol: u32,
    pub terms: Vec<Term>,
}

#[derive(Clone, Debug, PartialEq, Eq)]
pub struct Rule {
    pub variables: Vec<Sort>,
    pub premises: Vec<Fact>,
    pub actions: Vec<Fact>,
    pub conclusions: Vec<Fact>,
}

#[derive(Clone, Copy, Debug, PartialEq, Eq)]
pub struct FactSymbol {
    pub arity: usize,
    pub persistent: bool,
}

#[derive(Clone, Debug, PartialEq, Eq)]
pub struct Protocol {
    pub signature: Signature,
    /// The own fact symbols, symbol 4 first.
    pub own: Vec<FactSymbol>,
    pub rules: Vec<Rule>,
}

impl Protocol {
    /// Reads the whole file: cause 3.
    pub fn read(bytes: &[u8]) -> Read<Protocol> {
        let mut reader = Reader::new(bytes);
        let free = reader.counted(MOST_FUNCTIONS, |reader| {
            Ok(reader.at_most(MOST_FUNCTION_ARITY)? as usize)
        })?;
        let own = reader.counted(MOST_FACT_SYMBOLS, read_fact_symbol)?;
        let mut protocol = Protocol {
            signature: Signature { free },
            own,
            rules: Vec::new(),
        };
        protocol.rules = reader.counted(MOST_RULES, |reader| protocol.read_rule(reader))?;
        reader.finish()?;
        Ok(protocol)
    }

    fn read_rule(&self, reader: &mut Reader) -> Read<Rule> {
        let variables = reader.counted(MOST_VARIABLES, read_sort)?;
        let declared = variables.len();
        let mut facts =
            || reader.counted(MOST_FACTS, |reader| self.read_rule_fact(reader, declared));
        Ok(Rule {
            premises: facts()?,
            actions: facts()?,
            conclusions: facts()?,
            variables,
        })
    }

    /// "A fact is its symbol and terms".
    fn read_rule_fact(&self, reader: &mut Reader, declared: usize) -> Read<Fact> {
        let symbol = reader.number()?;
        let arity = self.fact_symbol(symbol).ok_or(Fault)?.arity;
        let terms = (0..arity).map(|_| self.read_rule_term(reader, declared));
        Ok(Fact {
            symbol,
            terms: terms.collect::<Read<_>>()?,
        })
    }

    fn read_rule_term(&self, reader: &mut Reader, declared: usize) -> Read<Term> {
        let prefix = Prefix::read(reader, &self.signature)?;
        let undeclared = |number| number as usize >= declared;
        if prefix.symbols() > MOST_RULE_SYMBOLS || prefix.variables().any(undeclared) {
            return Err(Fault);
        }
        Ok(prefix.tree())
    }

    /// The file of this protocol, within the limits or not.
    pub fn encoded(&self) -> Vec<u8> {
        let mut bytes = Vec::new();
        write_counted(&self.signature.free, &mut bytes, |arity, bytes| {
            number::write(*arity as u32, bytes);
        });
        write_counted(&self.own, &mut bytes, |symbol, bytes| {
            number::write(symbol.arity as u32, bytes);
            number::write(u32::from(symbol.persistent), bytes);
        });
        write_counted(&self.rules, &mut bytes, Rule::encode);
        bytes
    }

    pub fn fact_symbol(&self, symbol: u32) -> Option<FactSymbol> {
        match symbol {
            FR | IN | OUT | K => Some(FactSymbol {
                arity: 1,
                persistent: symbol == K,
            }),
            OWN.. => self.own.get((symbol - OWN) as usize).copied(),
        }
    }

    pub fn persistent(&self, fact: &Fact) -> bool {
        self.fact_symbol(fact.symbol)
            .is_some_and(|symbol| symbol.persistent)
    }

    /// The rule of a number, built in or the protocol's own.
    pub fn rule(&self, number: u32) -> Option<Rule> {
        match numbered(number)? {
            Numbered::Fixed(0) => Some(made_of(Sort::Fresh, &[], &[], &[FR])),
            Numbered::Fixed(1) => Some(made_of(Sort::Message, &[OUT], &[], &[K])),
            Numbered::Fixed(2) => Some(made_of(Sort::Message, &[K], &[K], &[IN])),
            Numbered::Fixed(3) => Some(made_of(Sort::Public, &[], &[], &[K])),
            Numbered::Fixed(_) => Some(made_of(Sort::Fresh, &[FR], &[], &[K])),
            Numbered::Apply(tag) => self.apply_rule(tag),
            Numbered::Own(place) => self.rules.get(place as usize).cloned(),
        }
    }

    /// "applies the function of tag t to known messages, K to K"; none where no function has the tag.
    fn apply_rule(&self, tag: u32) -> Option<Rule> {
        let arity = self.signature.arity(tag)?;
        let arguments: Vec<Term> = (0..arity as u32).map(Term::Variable).collect();
        let known = |term: Term| Fact {
            symbol: K,
            terms: vec![term],
        };
        Some(Rule {
            variables: vec![Sort::Message; arity],
            premises: arguments.iter().cloned().map(known).collect(),
            actions: Vec::new(),
            conclusions: vec![known(Term::Apply(tag, arguments))],
        })
    }
}

/// A built-in rule of one variable, which is the only term of each of its facts.
fn made_of(sort: Sort, premises: &[u32], actions: &[u32], conclusions: &[u32]) -> Rule {
    let facts = |symbols: &[u32]| {
        let fact = |symbol: &u32| Fact {
            symbol: *symbol,
            terms: vec![Term::Variable(0)],
        };
        symbols.iter().map(fact).collect()
    };
    Rule {
        variables: vec![sort],
        premises: facts(premises),
        actions: facts(actions),
        conclusions: facts(conclusions),
    }
}

fn write_counted<T>(items: &[T], bytes: &mut Vec<u8>, write: impl Fn(&T, &mut Vec<u8>)) {
    number::write(items.len() as u32, bytes);
    for item in items {
        write(item, bytes);
    }
}

fn read_fact_symbol(reader: &mut Reader) -> Read<FactSymbol> {
    Ok(FactSymbol {
        arity: reader.at_most(MOST_FACT_ARITY)? as usize,
        persistent: reader.at_most(1)? == 1,
    })
}

fn read_sort(reader: &mut Reader) -> Read<Sort> {
    match reader.number()? {
        0 => Ok(Sort::Message),
        1 => Ok(Sort::Fresh),
        2 => Ok(Sort::Public),
        _ => Err(Fault),
    }
}

impl Fact {
    pub fn encode(&self, bytes: &mut Vec<u8>) {
        number::write(self.symbol, bytes);
        for term in &self.terms {
            term.encode(bytes);
        }
    }

    pub fn any(&self, test: &impl Fn(&Term) -> bool) -> bool {
        self.terms.iter().any(|term| term.any(test))
    }
}

impl Rule {
    fn encode(&self, bytes: &mut Vec<u8>) {
        write_counted(&self.variables, bytes, |sort, bytes| {
            number::write(*sort as u32, bytes);
        });
        write_counted(&self.premises, bytes, Fact::encode);
        write_counted(&self.actions, bytes, Fact::encode);
        write_counted(&self.conclusions, bytes, Fact::encode);
    }

    /// Premises, actions and conclusions.
    pub fn facts(&self) -> impl Iterator<Item = &Fact> {
        let actions_and_conclusions = self.actions.iter().chain(&self.conclusions);
        self.premises.iter().chain(actions_and_conclusions)
    }

    /// "Conditions P1 to P4" and document 02's fifth: which of them the rule meets.
    pub fn conditions(&self) -> [bool; 5] {
        let is_fresh_name = |term: &Term| matches!(term, Term::Fresh(_));
        let p1 = !self.facts().any(|fact| fact.any(&is_fresh_name));
        let p2 = !has_symbol(&self.premises, &[K, OUT]);
        let p3 = !has_symbol(&self.conclusions, &[K, IN, FR]);
        let p4 = self.binds(&self.conclusions);
        let p5 = self.binds(&self.actions);
        [p1, p2, p3, p4, p5]
    }

    /// Whether cause 4 is absent.
    pub fn meets_conditions(&self) -> bool {
        self.conditions() == [true; 5]
    }

    /// Each variable of these facts "is in a premise or is of sort public".
    fn binds(&self, facts: &[Fact]) -> bool {
        let is_bound = |number: u32, sort: Sort| {
            let is_it = |term: &Term| *term == Term::Variable(number);
            let stands_in = |facts: &[Fact]| facts.iter().any(|fact| fact.any(&is_it));
            !stands_in(facts) || stands_in(&self.premises) || sort == Sort::Public
        };
        let mut numbered = (0..).zip(&self.variables);
        numbered.all(|(number, sort)| is_bound(number, *sort))
    }
}

fn has_symbol(facts: &[Fact], symbols: &[u32]) -> bool {
    facts.iter().any(|fact| symbols.contains(&fact.symbol))
}

#[cfg(test)]
mod tests {
    use super::*;
    use crate::term::{FREE, ONE, TRUE};

    /// Document 01's numbers and those of Change 4, one by one.
    #[test]
    fn numbers_and_their_rules() {
        assert_eq!(
            (0..5).map(numbered).collect::<Vec<_>>(),
            [0, 1, 2, 3, 4].map(|rule| Some(Numbered::Fixed(rule)))
        );
        for tag in ONE..FREE + MOST_FUNCTIONS {
            assert_eq!(numbered(tag + 2), Some(Numbered::Apply(tag)));
        }
        for rule in 0..64 {
            assert_eq!(numbered(31 + rule), Some(Numbered::Own(rule)));
        }
        for tag in AENC..=TRUE {
            assert_eq!(numbered(66 + tag), Some(Numbered::Apply(tag)));
        }
        assert!((101..300).all(|number| numbered(number).is_none()));
        assert!((0..101).all(|number| number_of(numbered(number).unwrap()) == number));
    }

    #[test]
    fn rules_of_six_functions_under_every_protocol() {
        for rules in [0, 1, 64] {
            let mut bytes = vec![0, 0, rules];
            bytes.extend(vec![0; 4 * rules as usize]);
            let protocol = Protocol::read(&bytes).unwrap();
            let arity = |number| protocol.rule(number).map(|rule| rule.variables.len());
            let applied: Vec<_> = (95..=101).map(arity).collect();
            assert_eq!(
                applied,
                [Some(2), Some(2), Some(1), Some(2), Some(3), Some(0), None]
            );
            let own = |number: &u32| arity(*number) == Some(0);
            let behind = 31 + u32::from(rules);
            assert!((31..behind).all(|number| own(&number)));
            assert!((behind..95).all(|number| arity(number).is_none()));
        }
    }
}
