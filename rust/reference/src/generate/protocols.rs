//! Protocols that are fit, and ones with one fault.

use super::terms::Material;
use crate::protocol::*;
use crate::random::Random;
use crate::refusal::File;
use crate::term::*;

/// A protocol within the limits that meets P1 to P5; its rules perhaps have aenc to true.
pub fn fit(random: &mut Random) -> Protocol {
    let signing = random.percent(45);
    let functions = random.below(6);
    let free = (0..functions).map(|_| random.below(5)).collect();
    let symbols = 1 + random.below(6);
    let own = (0..symbols).map(|_| own_symbol(random)).collect();
    let mut protocol = Protocol {
        signature: Signature { free },
        own,
        rules: Vec::new(),
    };
    for _ in 0..random.below(5) {
        let rule = rule(random, &protocol, signing);
        protocol.rules.push(rule);
    }
    protocol
}

fn own_symbol(random: &mut Random) -> FactSymbol {
    FactSymbol {
        arity: random.below(4),
        persistent: random.percent(40),
    }
}

/// Whether a rule has one of aenc to true.
pub fn signs(protocol: &Protocol) -> bool {
    let mut facts = protocol.rules.iter().flat_map(Rule::facts);
    facts.any(|fact| fact.any(&is_signing))
}

/// Whether the term is one of aenc to true.
pub fn is_signing(term: &Term) -> bool {
    matches!(term, Term::Apply(AENC..=TRUE, _))
}

fn rule(random: &mut Random, protocol: &Protocol, signing: bool) -> Rule {
    let mut variables: Vec<Sort> = (0..random.below(5)).map(|_| sort(random)).collect();
    let count = variables.len() as u32;
    let facts =
        |random: &mut Random, built_in: &[u32]| facts(random, protocol, (count, signing), built_in);
    let mut premises = facts(random, &[FR, IN]);
    // Every variable stands in a premise or is public, so that it may stand in a conclusion and in an action.
    for (number, sort) in (0..).zip(&variables) {
        if *sort != Sort::Public || random.percent(60) {
            premises.push(binding(random, protocol, number));
        }
    }
    if !premises.is_empty() && random.percent(20) {
        premises.push(random.choose(&premises).clone());
    }
    // One that stands nowhere takes a value too.
    if random.percent(10) {
        variables.push(sort(random));
    }
    Rule {
        premises,
        actions: facts(random, &[FR, IN, OUT, K]),
        conclusions: facts(random, &[OUT]),
        variables,
    }
}

/// A premise that has this variable: as its term, mostly, or below a function, or perhaps of a persistent symbol.
fn binding(random: &mut Random, protocol: &Protocol, number: u32) -> Fact {
    let variable = Term::Variable(number);
    let persistent = |own: &FactSymbol| own.persistent && own.arity > 0;
    match random.below(20) {
        0 => fact_of(IN, Term::apply(H, [variable])),
        1 => fact_of(IN, removed(variable)),
        2 => match protocol.own.iter().position(persistent) {
            Some(place) => Fact {
                symbol: 4 + place as u32,
                terms: vec![variable; protocol.own[place].arity],
            },
            None => fact_of(IN, variable),
        },
        3..12 => fact_of(FR, variable),
        _ => fact_of(IN, variable),
    }
}

/// A term from which an equation would remove this one.
fn removed(term: Term) -> Term {
    Term::apply(FST, [Term::apply(PAIR, [Term::Public(Public(0)), term])])
}

fn sort(random: &mut Random) -> Sort {
    *random.choose(&[Sort::Message, Sort::Message, Sort::Fresh, Sort::Public])
}

pub fn fact_of(symbol: u32, term: Term) -> Fact {
    Fact {
        symbol,
        terms: vec![term],
    }
}

/// At most three facts of these built-in symbols and of own ones, over so many variables, perhaps with aenc to true.
fn facts(
    random: &mut Random,
    protocol: &Protocol,
    (variables, signing): (u32, bool),
    built_in: &[u32],
) -> Vec<Fact> {
    let own = 4..4 + protocol.own.len() as u32;
    let symbols: Vec<u32> = built_in.iter().copied().chain(own).collect();
    let fact = |random: &mut Random| {
        let symbol = *random.choose(&symbols);
        let arity = protocol.fact_symbol(symbol).expect("declared").arity;
        let terms = (0..arity).map(|_| rule_term(random, protocol, variables, signing));
        Fact {
            symbol,
            terms: terms.collect(),
        }
    };
    (0..random.below(4)).map(|_| fact(random)).collect()
}

fn rule_term(random: &mut Random, protocol: &Protocol, variables: u32, signing: bool) -> Term {
    let material = Material {
        signature: &protocol.signature,
        variables,
        fresh_names: false,
        products: random.percent(70),
        signing,
    };
    let symbols = match signing && random.percent(20) {
        true => 8 + random.below(8),
        false => 1 + random.below(7),
    };
    material.term(random, symbols)
}

/// A rule to be damaged; there is always one.
fn some_rule<'a>(random: &mut Random, protocol: &'a mut Protocol) -> &'a mut Rule {
    if protocol.rules.is_empty() {
        let rule = rule(random, protocol, false);
        protocol.rules.push(rule);
    }
    let place = random.below(protocol.rules.len());
    &mut protocol.rules[place]
}

/// Breaks one of P1 to P5 in one of its ways, and sometimes a second one, in whichever rule.
pub fn break_condition(random: &mut Random, protocol: &mut Protocol) {
    for _ in 0..*random.choose(&[1, 1, 1, 2]) {
        let rule = some_rule(random, protocol);
        if random.percent(30) {
            record_unbound(random, rule);
        } else {
            break_one_of_four(random, rule);
        }
    }
}

/// Breaks one of P1 to P4.
fn break_one_of_four(random: &mut Random, rule: &mut Rule) {
    let fresh = Term::Fresh(Fresh(0));
    let public = Term::Public(Public(0));
    match random.below(9) {
        0 => add(&mut rule.premises, IN, fresh),
        1 => add(&mut rule.actions, K, Term::apply(H, [fresh])),
        2 => add(&mut rule.conclusions, OUT, Term::apply(H, [fresh])),
        3 => add(&mut rule.premises, K, public),
        4 => add(&mut rule.premises, OUT, public),
        5 => add(&mut rule.conclusions, K, public),
        6 => add(&mut rule.conclusions, IN, public),
        7 => add(&mut rule.conclusions, FR, public),
        _ => {
            let variable = unbound(random, rule);
            add(&mut rule.conclusions, OUT, variable);
        }
    }
}

/// Breaks P5: an action has a variable that no premise has, at the top of its term, below a function, or where an
/// equation would remove it. A conclusion perhaps has it too, which breaks P4 as well.
fn record_unbound(random: &mut Random, rule: &mut Rule) {
    let variable = unbound(random, rule);
    let term = match random.below(4) {
        0 => Term::apply(H, [variable.clone()]),
        1 => removed(variable.clone()),
        _ => variable.clone(),
    };
    add(&mut rule.actions, *random.choose(&[FR, IN, OUT, K]), term);
    if random.percent(10) {
        add(&mut rule.conclusions, OUT, variable);
    }
}

/// A further variable of a rule, not of sort public.
fn unbound(random: &mut Random, rule: &mut Rule) -> Term {
    let sort = *random.choose(&[Sort::Message, Sort::Fresh]);
    rule.variables.push(sort);
    Term::Variable(rule.variables.len() as u32 - 1)
}

/// Puts a fact of a built-in symbol behind these, or in place of the last one that there may be.
fn add(facts: &mut Vec<Fact>, symbol: u32, term: Term) {
    facts.truncate(MOST_FACTS as usize - 1);
    facts.push(fact_of(symbol, term));
}

/// Brings one figure to its limit, or one above it, or uses something undeclared. A figure at its limit
/// is no fault of layout.
pub fn stretch(random: &mut Random, protocol: &mut Protocol) {
    let above = random.below(2);
    let most = |limit: u32| limit as usize + above;
    match random.below(9) {
        0 => protocol.signature.free.resize(most(MOST_FUNCTIONS), 0),
        1 => protocol.signature.free.push(most(MOST_FUNCTION_ARITY)),
        2 => {
            let symbol = own_symbol(random);
            protocol.own.resize(most(MOST_FACT_SYMBOLS), symbol);
        }
        3 => protocol.own.push(FactSymbol {
            arity: most(MOST_FACT_ARITY),
            persistent: false,
        }),
        4 => {
            let rule = Rule {
                variables: Vec::new(),
                premises: Vec::new(),
                actions: Vec::new(),
                conclusions: Vec::new(),
            };
            protocol.rules.resize(most(MOST_RULES), rule);
        }
        5 => {
            let rule = some_rule(random, protocol);
            rule.variables.resize(most(MOST_VARIABLES), Sort::Message);
        }
        6 => {
            let fact = fact_of(OUT, Term::Public(Public(0)));
            let rule = some_rule(random, protocol);
            let facts = if random.percent(50) {
                &mut rule.actions
            } else {
                &mut rule.conclusions
            };
            facts.resize(most(MOST_FACTS), fact);
        }
        7 => fill(protocol, File::Protocol.limit() + above),
        _ => use_undeclared(random, protocol, above),
    }
}

/// An action with a variable, function or symbol that is not declared, or with a term of 64 symbols or
/// one more.
fn use_undeclared(random: &mut Random, protocol: &mut Protocol, above: usize) {
    let functions = protocol.signature.free.len() as u32;
    let symbols = protocol.own.len() as u32;
    let rule = some_rule(random, protocol);
    let fact = match random.below(5) {
        0 => fact_of(K, Term::Variable(rule.variables.len() as u32)),
        1 => fact_of(K, Term::apply(undeclared(functions), [])),
        4 => fact_of(K, Term::apply(TRUE + 1 + random.below(2) as u32, [])),
        2 => fact_of(4 + symbols, Term::Public(Public(0))),
        _ => fact_of(K, nested(MOST_RULE_SYMBOLS + above)),
    };
    rule.actions.truncate(MOST_FACTS as usize - 1);
    rule.actions.push(fact);
}

/// The tag behind those of so many free functions, or the first that no function can have.
fn undeclared(functions: u32) -> u32 {
    match functions {
        MOST_FUNCTIONS.. => TRUE + 1,
        _ => FREE + functions,
    }
}

/// Nested h over a public name, so many symbols in all.
pub fn nested(symbols: usize) -> Term {
    (1..symbols).fold(Term::Public(Public(0)), |term, _| Term::apply(H, [term]))
}

/// Adds rules until the file has just this length, if it is not near it already.
fn fill(protocol: &mut Protocol, length: usize) {
    const MOST: usize = MOST_RULE_SYMBOLS + 2;
    let mut left = length.saturating_sub(protocol.encoded().len());
    while left >= 7 {
        let mut actions = Vec::new();
        left -= 4;
        while left > 0 && actions.len() < MOST_FACTS as usize {
            let bytes = match left {
                0..=MOST => left,
                67..74 => left / 2,
                _ => MOST,
            };
            actions.push(fact_of(K, nested(bytes - 2)));
            left -= bytes;
        }
        protocol.rules.push(Rule {
            variables: Vec::new(),
            premises: Vec::new(),
            actions,
            conclusions: Vec::new(),
        });
    }
}
