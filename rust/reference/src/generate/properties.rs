//! Properties whose guards meet the actions of a protocol.

use super::terms::name;
use crate::property::{Formula, Quantifier, Sort};
use crate::protocol::{Fact, Protocol, K};
use crate::random::Random;
use crate::term::{Public, Term};

/// Makes properties under one protocol.
pub struct Maker<'a> {
    protocol: &'a Protocol,
    /// The symbols of the actions that rules record.
    recorded: Vec<u32>,
    most_quantifiers: usize,
}

impl<'a> Maker<'a> {
    /// `most_quantifiers` is the most that may lie in one another.
    pub fn new(protocol: &'a Protocol, most_quantifiers: usize) -> Self {
        let actions = protocol.rules.iter().flat_map(|rule| &rule.actions);
        let recorded = actions.map(|fact| fact.symbol).chain([K]).collect();
        Maker {
            protocol,
            recorded,
            most_quantifiers,
        }
    }

    /// A fit property.
    pub fn property(&self, random: &mut Random) -> Formula {
        if random.percent(3) {
            return self.atom(random, &[]);
        }
        self.formula(random, &[], 0)
    }

    fn formula(&self, random: &mut Random, scope: &[Sort], quantifiers: usize) -> Formula {
        let quantify = quantifiers < self.most_quantifiers && scope.len() <= 10;
        let part = |random: &mut Random| Box::new(self.formula(random, scope, quantifiers + 1));
        match random.below(10) {
            0 if quantify => Formula::And(part(random), part(random)),
            1 if quantify => Formula::Or(part(random), part(random)),
            2..6 if quantify => Formula::Exists(self.quantifier(random, scope, quantifiers)),
            6..9 if quantify => Formula::ForAll(self.quantifier(random, scope, quantifiers)),
            _ => self.atom(random, scope),
        }
    }

    fn quantifier(&self, random: &mut Random, outer: &[Sort], quantifiers: usize) -> Quantifier {
        let symbol = self.symbol(random);
        let arity = self.arity(symbol);
        let mut scope = outer.to_vec();
        let mut terms = Vec::new();
        for _ in 0..arity {
            if random.percent(70) && scope.len() - outer.len() < 7 {
                terms.push(Term::Variable(scope.len() as u32));
                scope.push(Sort::Message);
            } else {
                terms.push(term(random, &scope));
            }
        }
        let old_time = number_of(random, outer, Sort::Time).filter(|_| random.percent(25));
        let time = old_time.unwrap_or_else(|| {
            scope.push(Sort::Time);
            scope.len() as u32 - 1
        });
        Quantifier {
            new: scope[outer.len()..].to_vec(),
            guard: Fact { symbol, terms },
            time,
            body: Box::new(self.formula(random, &scope, quantifiers + 1)),
        }
    }

    fn symbol(&self, random: &mut Random) -> u32 {
        if random.percent(90) {
            *random.choose(&self.recorded)
        } else {
            random.below(4 + self.protocol.own.len()) as u32
        }
    }

    fn arity(&self, symbol: u32) -> usize {
        self.protocol.fact_symbol(symbol).expect("declared").arity
    }

    fn atom(&self, random: &mut Random, scope: &[Sort]) -> Formula {
        let time = |random: &mut Random| number_of(random, scope, Sort::Time);
        let (Some(left), Some(right)) = (time(random), time(random)) else {
            return match random.below(3) {
                0 => Formula::False,
                1 => Formula::Equal(term(random, scope), term(random, scope)),
                _ => Formula::Unequal(term(random, scope), term(random, scope)),
            };
        };
        match random.below(9) {
            0 => Formula::False,
            1 => Formula::Equal(term(random, scope), term(random, scope)),
            2 => Formula::Unequal(term(random, scope), term(random, scope)),
            3 => Formula::Before(left, right),
            4 => Formula::NotBefore(left, right),
            5 => Formula::SameTime(left, right),
            6 => Formula::NotSameTime(left, right),
            7 => Formula::Action(self.fact(random, scope), left),
            _ => Formula::NoAction(self.fact(random, scope), left),
        }
    }

    fn fact(&self, random: &mut Random, scope: &[Sort]) -> Fact {
        let symbol = self.symbol(random);
        let terms = (0..self.arity(symbol)).map(|_| term(random, scope));
        Fact {
            symbol,
            terms: terms.collect(),
        }
    }
}

/// A variable in scope or a public name.
fn term(random: &mut Random, scope: &[Sort]) -> Term {
    let variable = number_of(random, scope, Sort::Message).filter(|_| random.percent(80));
    match variable {
        Some(number) => Term::Variable(number),
        None if random.percent(90) => Term::Public(Public(random.below(3) as u32)),
        None => Term::Public(Public(name(random))),
    }
}

/// A variable of this sort, if one is in scope.
fn number_of(random: &mut Random, scope: &[Sort], sort: Sort) -> Option<u32> {
    let numbered = (0..).zip(scope);
    let of_sort = numbered.filter(|(_, own)| **own == sort);
    let numbers: Vec<u32> = of_sort.map(|(number, _)| number).collect();
    (!numbers.is_empty()).then(|| *random.choose(&numbers))
}

/// What is true where the formula is false, and the other way round.
pub fn negated(formula: Formula) -> Formula {
    let part = |formula: Box<Formula>| Box::new(negated(*formula));
    let over = |quantifier: Quantifier| Quantifier {
        body: Box::new(negated(*quantifier.body)),
        ..quantifier
    };
    match formula {
        Formula::False => {
            let name = Term::Public(Public(0));
            Formula::Equal(name.clone(), name)
        }
        Formula::Equal(left, right) => Formula::Unequal(left, right),
        Formula::Unequal(left, right) => Formula::Equal(left, right),
        Formula::Before(left, right) => Formula::NotBefore(left, right),
        Formula::NotBefore(left, right) => Formula::Before(left, right),
        Formula::SameTime(left, right) => Formula::NotSameTime(left, right),
        Formula::NotSameTime(left, right) => Formula::SameTime(left, right),
        Formula::Action(fact, time) => Formula::NoAction(fact, time),
        Formula::NoAction(fact, time) => Formula::Action(fact, time),
        Formula::And(left, right) => Formula::Or(part(left), part(right)),
        Formula::Or(left, right) => Formula::And(part(left), part(right)),
        Formula::Exists(quantifier) => Formula::ForAll(over(quantifier)),
        Formula::ForAll(quantifier) => Formula::Exists(over(quantifier)),
    }
}

/// The formula below so many and, or below so many or.
pub fn wrap(random: &mut Random, formula: Formula, times: usize) -> Formula {
    let conjunction = random.percent(50);
    (0..times).fold(formula, |inner, _| {
        let inner = Box::new(inner);
        if conjunction {
            Formula::And(inner, Box::new(Formula::False))
        } else {
            Formula::Or(Box::new(Formula::False), inner)
        }
    })
}
