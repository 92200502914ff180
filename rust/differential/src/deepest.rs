//! Inputs that nest as deep as the limits allow, for the stack that a call needs.

use crate::sized::{chain, nested, Files, CHAINS, GUARDS};
use reference::calls::{self, Outcome, WORK_AREA};
use reference::canonical::canonical_form;
use reference::generate::canonical::LONGEST_TERM;
use reference::generate::protocols::fact_of;
use reference::generate::runs::{encoded, Step};
use reference::graph::{write_edges, Edge};
use reference::number::LEAST_WIDE;
use reference::property::{Formula, Quantifier, Sort as PropertySort, MOST_NESTING};
use reference::protocol::{Protocol, Rule, Sort, IN, K, MOST_RULE_SYMBOLS, OUT};
use reference::refusal::File;
use reference::steps::{MOST_FILLED_IN_SYMBOLS, MOST_VALUE_SYMBOLS};
use reference::term::*;

/// One free function of the largest arity.
fn signature() -> Signature {
    Signature { free: vec![4] }
}

/// A function's tag, and the argument in which the next one stands.
type Place = (u32, usize);

/// Every argument of every function.
fn places() -> Vec<Place> {
    let arity = |tag| signature().arity(tag).expect("declared");
    (ENC..=FREE)
        .chain(AENC..=VERIFY)
        .flat_map(|tag| (0..arity(tag)).map(move |place| (tag, place)))
        .collect()
}

/// Two functions in turn, each within the other, over a term and up to so many symbols; names stand in the other arguments, every second one
/// of as many groups as there may be.
fn in_turn(places: [Place; 2], over: Term, symbols: usize) -> Term {
    let mut term = over;
    let mut size = term.symbols();
    for (tag, place) in places.into_iter().cycle() {
        let arity = signature().arity(tag).expect("declared");
        if size + arity > symbols {
            return term;
        }
        size += arity;
        let mut arguments: Vec<Term> = (0..arity)
            .map(|argument| (size + argument) as u32 % 100)
            .map(|number| Term::Public(Public(number + number % 2 * LEAST_WIDE)))
            .collect();
        arguments[place] = term;
        term = Term::Apply(tag, arguments);
    }
    term
}

/// aenc and adec in turn under one key, up to so many symbols: every one is undone.
fn undone(symbols: usize) -> Term {
    let key = || Term::Public(Public(LEAST_WIDE));
    let mut term = Term::Fresh(Fresh(0));
    while term.symbols() + 5 <= symbols {
        let cipher = Term::apply(AENC, [term, Term::apply(PK, [key()])]);
        term = Term::apply(ADEC, [cipher, key()]);
    }
    term
}

/// verify of a signature of a message so that all is as large as it may be: it is true.
fn verified(symbols: usize) -> Term {
    let part =
        |size: usize| (1..size).fold(Term::Fresh(Fresh(0)), |term, _| Term::apply(PK, [term]));
    let size = (symbols - 3) / 4;
    let signature = Term::apply(SIGN, [part(size), part(size)]);
    Term::apply(VERIFY, [signature, part(size), part(size + 1)])
}

fn pairs() -> impl Iterator<Item = [Place; 2]> {
    let pair = |first: Place| places().into_iter().map(move |second| [first, second]);
    places().into_iter().flat_map(pair)
}

/// The cases one after another, in the layout of tests/corpus/cases.bin.
#[derive(Default)]
struct Cases {
    count: u32,
    bytes: Vec<u8>,
}

impl Cases {
    fn number(&mut self, number: usize) {
        self.bytes.extend((number as u32).to_le_bytes());
    }

    fn slice(&mut self, slice: &[u8]) {
        self.number(slice.len());
        self.bytes.extend(slice);
    }

    fn add(
        &mut self,
        kind: usize,
        output: usize,
        files: &[&[u8]],
        outcome: Outcome,
        written: &[u8],
    ) {
        self.count += 1;
        let lengths = [kind, WORK_AREA, output, files.len()];
        lengths.iter().for_each(|number| self.number(*number));
        files.iter().for_each(|file| self.slice(file));
        let counts =
            |which, counts: calls::Counts| [which, counts.nodes, counts.with_action, counts.edges];
        let numbers = match outcome {
            Outcome::Refused(refusal) => [0, refusal.number, refusal.item, 0],
            Outcome::Attack(found) => counts(1, found),
            Outcome::Run(found) => counts(2, found),
            Outcome::Written(length) => [3, length, 0, 0],
        };
        numbers
            .iter()
            .for_each(|number| self.number(*number as usize));
        self.slice(written);
    }

    fn check(&mut self, files: &Files) {
        let mut work = vec![0; WORK_AREA];
        let outcome = calls::check(&files.protocol, &files.property, &files.graph, &mut work);
        let names = [&files.protocol[..], &files.property, &files.graph];
        self.add(0, 0, &names, outcome, &[]);
    }

    fn draw(&mut self, files: &Files) {
        let (mut output, mut work) = (vec![0; File::Graph.limit()], vec![0; WORK_AREA]);
        let outcome = calls::draw(&files.protocol, &files.steps, &mut output, &mut work);
        let written = match outcome {
            Outcome::Written(length) => &output[..length as usize],
            _ => &[],
        };
        let names = [&files.protocol[..], &files.steps];
        self.add(1, File::Graph.limit(), &names, outcome, written);
    }

    fn canonical(&mut self, term: &Term) {
        let protocol = protocol(vec![]).encoded();
        let (mut output, mut work) = (vec![0; LONGEST_TERM], vec![0; WORK_AREA]);
        let term = term.encoded();
        let outcome = calls::canonical_form(&protocol, &term, &mut output, &mut work);
        let Outcome::Written(length) = outcome else {
            panic!("{outcome}: {term:02X?}")
        };
        let written = &output[..length as usize];
        self.add(2, LONGEST_TERM, &[&protocol, &term], outcome, written);
    }
}

fn protocol(rules: Vec<Rule>) -> Protocol {
    Protocol {
        signature: signature(),
        own: vec![],
        rules,
    }
}

/// A node whose facts are as deep as a rule's term over a value can be, joined to one before.
fn deep_node(places: [Place; 2]) -> Files {
    let name = Term::Fresh(Fresh(0));
    let value = canonical_form(&in_turn(places, name, MOST_VALUE_SYMBOLS));
    let pattern = in_turn(places, Term::Variable(0), MOST_RULE_SYMBOLS);
    let rule = Rule {
        variables: vec![Sort::Message],
        premises: vec![fact_of(IN, pattern.clone())],
        actions: vec![fact_of(K, pattern.clone())],
        conclusions: vec![fact_of(OUT, pattern)],
    };
    let step = |rule| Step {
        rule,
        values: vec![value.clone()],
    };
    let edge = Edge {
        source: 1,
        conclusion: 1,
        target: 2,
        premise: 1,
    };
    let steps = encoded(&[step(2), step(31)]);
    let mut graph = steps.clone();
    write_edges(&[edge], &mut graph);
    Files {
        protocol: protocol(vec![rule]).encoded(),
        property: vec![0],
        graph,
        steps,
    }
}

/// Formulas in one another as deep as they may be, by the tags in turn, over a trace with an action.
fn deep_property(tags: [u32; 2]) -> Files {
    let mut files = nested(GUARDS[0], 1, 1);
    let mut formula = Formula::SameTime(0, 0);
    // The outermost one gives the time.
    for level in (1..MOST_NESTING - 1).rev() {
        let inner = Box::new(formula);
        let quantifier = |body| Quantifier {
            new: vec![],
            guard: fact_of(K, Term::Public(Public(0))),
            time: 0,
            body,
        };
        formula = match tags[level % 2] {
            9 => Formula::And(Box::new(Formula::SameTime(0, 0)), inner),
            10 => Formula::Or(Box::new(Formula::False), inner),
            11 => Formula::Exists(quantifier(inner)),
            _ => Formula::ForAll(quantifier(inner)),
        };
    }
    let outermost = Formula::Exists(Quantifier {
        new: vec![PropertySort::Time],
        guard: fact_of(K, Term::Public(Public(0))),
        time: 0,
        body: Box::new(formula),
    });
    files.property.clear();
    outermost.encode(&mut files.property);
    files
}

/// The deepest inputs of each call, with what the reference answers.
pub fn deepest() -> Vec<u8> {
    let mut cases = Cases::default();
    for pair in pairs() {
        cases.canonical(&in_turn(
            pair,
            Term::Fresh(Fresh(0)),
            MOST_FILLED_IN_SYMBOLS,
        ));
        cases.check(&deep_node(pair));
        cases.draw(&deep_node(pair));
    }
    cases.canonical(&undone(MOST_FILLED_IN_SYMBOLS));
    cases.canonical(&verified(MOST_FILLED_IN_SYMBOLS));
    for first in 9..=12 {
        for second in 9..=12 {
            cases.check(&deep_property([first, second]));
        }
    }
    for kind in CHAINS {
        cases.check(&chain(kind, 16));
        cases.draw(&chain(kind, 16));
    }
    let count = cases.count.to_le_bytes();
    [b"H5C1", &count[..], &cases.bytes].concat()
}
