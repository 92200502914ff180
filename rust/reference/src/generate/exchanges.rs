//! Diffie-Hellman key exchanges of several shapes, with long-term keys and reveals.

use crate::protocol::*;
use crate::random::Random;
use crate::term::*;

/// The own fact symbols.
const LONG_TERM_KEY: u32 = 4;
const BEGUN: u32 = 5;
const AGREED: u32 = 6;
pub const DONE: u32 = 7;
pub const REVEALED: u32 = 8;

/// The variables of every rule: an agent and its partner, two secrets, a message received.
const SELF: u32 = 0;
const PEER: u32 = 1;
const LONG: u32 = 2;
const SHORT: u32 = 3;
const RECEIVED: u32 = 4;

fn fact(symbol: u32, terms: impl IntoIterator<Item = Term>) -> Fact {
    Fact {
        symbol,
        terms: terms.into_iter().collect(),
    }
}

fn power(base: Term, exponent: Term) -> Term {
    Term::apply(EXP, [base, exponent])
}

fn variable(number: u32) -> Term {
    Term::Variable(number)
}

/// The group's generator.
fn generator() -> Term {
    Term::Public(Public(0))
}

/// Rules with these premises, actions and conclusions, over the five variables.
fn rule(sorts: [Sort; 5], premises: Vec<Fact>, actions: Vec<Fact>, conclusions: Vec<Fact>) -> Rule {
    Rule {
        variables: sorts.to_vec(),
        premises,
        actions,
        conclusions,
    }
}

/// Agents have long-term keys, begin, answer and finish sessions; long-term and session keys are revealed; messages are repeated. Perhaps
/// they sign.
pub fn exchange(random: &mut Random) -> Protocol {
    let own = |arity, persistent| FactSymbol { arity, persistent };
    let exponent = exponent(random);
    let key = key(random, &exponent);
    let mut rules = rules(&exponent, &key);
    if random.percent(30) {
        sign(&mut rules, &exponent, &key);
    }
    Protocol {
        signature: Signature { free: vec![1] },
        own: vec![
            own(2, true),
            own(4, false),
            own(3, random.percent(50)),
            own(3, false),
            own(1, false),
        ],
        rules,
    }
}

/// Public keys are out, what is sent is signed, and the answering party's key is out, encrypted for it. A message is opened, or checked
/// against a signature.
fn sign(rules: &mut Vec<Rule>, exponent: &Term, key: &Term) {
    let [agent, long, short, received] = [SELF, LONG, SHORT, RECEIVED].map(variable);
    let public_key = Term::apply(PK, [long.clone()]);
    let sent = power(generator(), exponent.clone());
    let out = |tag: u32, terms: [&Term; 2]| fact(OUT, [Term::apply(tag, terms.map(Term::clone))]);
    rules[0].conclusions.push(fact(OUT, [public_key.clone()]));
    rules[1].conclusions.push(out(SIGN, [&sent, &long]));
    rules[2].conclusions.push(out(SIGN, [&sent, &long]));
    rules[2].conclusions.push(out(AENC, [key, &public_key]));
    let owner = fact(LONG_TERM_KEY, [agent, long.clone()]);
    let heard = |term: &Term| fact(IN, [term.clone()]);
    let opened = Term::apply(ADEC, [received.clone(), long]);
    let checked = Term::apply(VERIFY, [short.clone(), received.clone(), public_key]);
    let opening = vec![owner.clone(), heard(&received)];
    let checking = vec![owner, heard(&received), heard(&short)];
    use Sort::{Message as M, Public as P};
    for (premises, result) in [(opening, opened), (checking, checked)] {
        let recorded = vec![fact(REVEALED, [result.clone()])];
        rules.push(rule(
            [P, P, M, M, M],
            premises,
            recorded,
            vec![fact(OUT, [result])],
        ));
    }
}

/// What a party raises to: its short secret, or that with its long one.
fn exponent(random: &mut Random) -> Term {
    let (long, short) = (variable(LONG), variable(SHORT));
    match random.below(4) {
        0 => short,
        1 => Term::apply(H, [Term::apply(PAIR, [short, long])]),
        2 => Term::apply(MUL, [short, long]),
        _ => Term::apply(MUL, [short, Term::apply(INV, [long])]),
    }
}

/// The session key: of what was received and the own exponent, however that is put.
fn key(random: &mut Random, exponent: &Term) -> Term {
    let (received, long) = (variable(RECEIVED), variable(LONG));
    let shared = power(received.clone(), exponent.clone());
    match random.below(4) {
        0 => shared,
        1 => Term::apply(H, [shared]),
        2 => Term::apply(H, [Term::apply(PAIR, [shared, power(received, long)])]),
        _ => Term::apply(MUL, [shared, power(generator(), long)]),
    }
}

fn rules(exponent: &Term, key: &Term) -> Vec<Rule> {
    let [agent, peer, long, short, received] =
        [SELF, PEER, LONG, SHORT, RECEIVED].map(|number| move || variable(number));
    let long_term_key = || fact(LONG_TERM_KEY, [agent(), long()]);
    let sent = || fact(OUT, [power(generator(), exponent.clone())]);
    let begun = || fact(BEGUN, [agent(), peer(), long(), short()]);
    let heard = || fact(IN, [received()]);
    let agreed = |symbol| fact(symbol, [agent(), peer(), key.clone()]);
    let fresh = |name: Term| fact(FR, [name]);
    let public = fact(OUT, [power(generator(), long())]);
    use Sort::{Fresh as F, Message as M, Public as P};
    vec![
        rule(
            [P, P, F, M, M],
            vec![fresh(long())],
            vec![],
            vec![long_term_key(), public],
        ),
        rule(
            [P, P, M, F, M],
            vec![fresh(short()), long_term_key()],
            vec![],
            vec![begun(), sent()],
        ),
        rule(
            [P, P, M, F, M],
            vec![fresh(short()), long_term_key(), heard()],
            vec![agreed(DONE)],
            vec![agreed(AGREED), sent()],
        ),
        rule(
            [P, P, M, M, M],
            vec![begun(), heard()],
            vec![agreed(DONE)],
            vec![agreed(AGREED)],
        ),
        rule(
            [P, P, M, M, M],
            vec![long_term_key()],
            vec![fact(REVEALED, [agent()])],
            vec![fact(OUT, [long()])],
        ),
        rule(
            [P, P, M, M, M],
            vec![fact(AGREED, [agent(), peer(), received()])],
            vec![fact(REVEALED, [received()])],
            vec![fact(OUT, [Term::apply(FREE, [received()])])],
        ),
        // The same message taken twice, and the same one given twice.
        rule(
            [P, P, M, M, M],
            vec![heard(), heard()],
            vec![],
            vec![fact(OUT, [received()]), fact(OUT, [received()])],
        ),
    ]
}
