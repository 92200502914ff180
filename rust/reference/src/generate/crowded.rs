//! Protocols of few facts, each made by several conclusions and written in several ways, and their runs: most premises have more than one
//! fit source.

use super::runs::Run;
use super::terms::rare_name;
use crate::canonical::canonical_form;
use crate::protocol::*;
use crate::random::Random;
use crate::term::*;

/// The own symbols: linear, persistent, and linear without an argument.
const LINEAR: u32 = 4;
const PERSISTENT: u32 = 5;
const BARE: u32 = 6;

/// The variables of every rule, both public.
const VARIABLES: [Sort; 2] = [Sort::Public, Sort::Public];

/// The messages that all facts of a protocol are of, over the variables.
fn messages(random: &mut Random, signing: bool) -> Vec<Term> {
    let [x, y] = [0, 1].map(Term::Variable);
    let signed = Term::apply(SIGN, [x.clone(), y.clone()]);
    let public_key = Term::apply(PK, [y.clone()]);
    let mut all = vec![
        x.clone(),
        Term::apply(MUL, [x.clone(), y.clone()]),
        Term::apply(EXP, [x.clone(), y.clone()]),
        Term::apply(INV, [x.clone()]),
        Term::apply(PAIR, [x.clone(), y.clone()]),
    ];
    if signing {
        all.extend([
            Term::apply(INV, [signed.clone()]),
            Term::apply(MUL, [signed, y]),
            Term::apply(MUL, [public_key, x]),
            Term::apply(TRUE, []),
        ]);
    }
    (0..1 + random.below(2))
        .map(|_| random.choose(&all).clone())
        .collect()
}

/// The message, or another term that an equation makes equal to it.
fn written(random: &mut Random, message: &Term, signing: bool) -> Term {
    let (message, other) = (message.clone(), Term::Variable(1));
    let public = || Term::apply(PK, [Term::Variable(1)]);
    if signing && random.percent(15) {
        let verified = Term::apply(
            VERIFY,
            [
                Term::apply(SIGN, [message.clone(), other.clone()]),
                message.clone(),
                public(),
            ],
        );
        return match message.has_tag(TRUE) {
            true => verified,
            false => Term::apply(ADEC, [Term::apply(AENC, [message, public()]), other]),
        };
    }
    match random.below(12) {
        0 => Term::apply(FST, [Term::apply(PAIR, [message, other])]),
        1 => Term::apply(SND, [Term::apply(PAIR, [other, message])]),
        2 => Term::apply(DEC, [Term::apply(ENC, [message, other.clone()]), other]),
        3 => Term::apply(INV, [Term::apply(INV, [message])]),
        4 => Term::apply(MUL, [message, Term::one()]),
        5 => match message {
            Term::Apply(MUL, factors) => Term::apply(MUL, factors.into_iter().rev()),
            Term::Apply(EXP, parts) => Term::apply(EXP, [Term::apply(EXP, parts), Term::one()]),
            message => Term::apply(EXP, [message, Term::one()]),
        },
        _ => message,
    }
}

/// So many facts of these symbols; often one that is there already, perhaps written otherwise.
fn facts(
    random: &mut Random,
    (messages, signing): (&[Term], bool),
    symbols: &[u32],
    count: usize,
) -> Vec<Fact> {
    let mut chosen: Vec<(u32, Term)> = Vec::new();
    for _ in 0..count {
        let new = (*random.choose(symbols), random.choose(messages).clone());
        let again = !chosen.is_empty() && random.percent(50);
        let fact = if again {
            random.choose(&chosen).clone()
        } else {
            new
        };
        chosen.push(fact);
    }
    let fact = |(symbol, message): (u32, Term)| Fact {
        symbol,
        terms: match symbol {
            BARE => vec![],
            _ => vec![written(random, &message, signing)],
        },
    };
    chosen.into_iter().map(fact).collect()
}

/// A rule with so many premises, which perhaps gives back what it takes.
fn rule(random: &mut Random, messages: (&[Term], bool), premises: usize) -> Rule {
    let count = usize::from(premises == 0) + random.below(4);
    let premises = facts(
        random,
        messages,
        &[LINEAR, LINEAR, PERSISTENT, BARE, IN],
        premises,
    );
    let mut conclusions = facts(
        random,
        messages,
        &[LINEAR, LINEAR, PERSISTENT, BARE, OUT],
        count,
    );
    for premise in premises.iter().filter(|premise| premise.symbol != IN) {
        if random.percent(25) {
            let place = random.below(conclusions.len() + 1);
            conclusions.insert(place, premise.clone());
        }
    }
    let recorded = random.below(2);
    Rule {
        variables: VARIABLES.to_vec(),
        actions: facts(random, messages, &[LINEAR, PERSISTENT], recorded),
        premises,
        conclusions,
    }
}

/// A protocol, and the messages that its facts are of, with names in place of the variables.
pub struct Crowded {
    pub protocol: Protocol,
    names: [Term; 2],
    signing: bool,
    messages: Vec<Term>,
}

pub fn protocol(random: &mut Random) -> Crowded {
    let signing = random.percent(40);
    let messages = messages(random, signing);
    let own = |arity, persistent| FactSymbol { arity, persistent };
    let premises = [0, 0, 1, 2, random.below(4), 1 + random.below(3)];
    let protocol = Protocol {
        signature: Signature { free: vec![] },
        own: vec![own(1, false), own(1, true), own(0, false)],
        rules: premises
            .map(|count| rule(random, (&messages, signing), count))
            .to_vec(),
    };
    let mut numbers = [0, 1];
    if random.percent(25) {
        numbers = numbers.map(|_| rare_name(random));
    }
    let names = numbers.map(|number| Term::Public(Public(number)));
    let [p, q] = names.clone();
    let values = [[p.clone(), p.clone()], [p.clone(), q.clone()], [q, p]];
    let filled_in = |message: &Term| values.each_ref().map(|values| message.fill_in(values));
    let messages = messages.iter().flat_map(filled_in);
    Crowded {
        protocol,
        names,
        signing,
        messages: messages.map(|message| canonical_form(&message)).collect(),
    }
}

/// A run of at most so many nodes, each any that the machine can take.
pub fn run<'a>(random: &mut Random, few: &'a Crowded, length: usize) -> Run<'a> {
    let mut run = Run::new(&few.protocol, 0);
    let applies = |tag: u32| number_of(Numbered::Apply(tag));
    let mut functions = vec![3, applies(MUL), applies(PAIR), applies(INV)];
    if few.signing {
        functions.extend([SIGN, PK, TRUE, AENC].map(applies));
    }
    for _ in 0..6 * length {
        if run.steps.len() >= length {
            break;
        }
        let number = match random.below(10) {
            0 => 1,
            1 => 2,
            2 => *random.choose(&functions),
            _ => number_of(Numbered::Own(random.below(few.protocol.rules.len()) as u32)),
        };
        let rule = few.protocol.rule(number).expect("a rule");
        let values = rule.variables.iter().map(|sort| match sort {
            Sort::Message => random.choose(&few.messages).clone(),
            _ => few.names[usize::from(random.percent(15))].clone(),
        });
        let values = values.collect();
        run.take(number, values);
    }
    run
}
