//! Inputs of the call canonical form.

use super::damage::{damage_file, overfill};
use super::numbers::{self, wide};
use super::protocols::{break_condition, fit, signs, stretch};
use super::terms::Material;
use crate::calls::WORK_AREA;
use crate::canonical::canonical_form;
use crate::figures::MOST_GROUPS;
use crate::protocol::Protocol;
use crate::random::Random;
use crate::refusal::File;
use crate::steps::MOST_FILLED_IN_SYMBOLS;
use crate::term::*;

/// The longest that 256 symbols can be: 192 names of as many groups as there may be, each with its tag, and 64 functions, one of arity 3
/// and the others of arity 4.
pub const LONGEST_TERM: usize = LEAVES * (1 + MOST_GROUPS) + FUNCTIONS;
const LEAVES: usize = 192;
const FUNCTIONS: usize = 64;

/// What the call is given: two files, and the lengths of the lent slices.
#[derive(Clone, Debug, PartialEq, Eq)]
pub struct Input {
    pub protocol: Vec<u8>,
    pub term: Vec<u8>,
    pub output: usize,
    pub work: usize,
}

/// About half of the inputs have no fault.
pub fn input(random: &mut Random) -> Input {
    let mut protocol = fit(random);
    let term = match random.below(50) {
        0 => longest_term(random, &mut protocol),
        _ => ground_term(random, &protocol),
    };
    let need = canonical_form(&term).encoded().len();
    let mut input = Input {
        protocol: Vec::new(),
        term: term.encoded(),
        output: need + *random.choose(&[0, 0, 1, 7, 1_024]),
        work: WORK_AREA + *random.choose(&[0, 0, 0, 1, 5_000]),
    };
    let faults = *random.choose(&[0, 0, 0, 0, 1, 1, 1, 1, 2]);
    let faults: Vec<usize> = (0..faults).map(|_| random.below(100)).collect();
    for fault in &faults {
        match fault {
            0..20 => break_condition(random, &mut protocol),
            20..40 => stretch(random, &mut protocol),
            _ => {}
        }
    }
    input.protocol = protocol.encoded();
    for fault in &faults {
        spoil(random, (&protocol, &term), &mut input, *fault, need);
    }
    input
}

/// The faults of bytes and lengths; the smaller numbers are faults of the protocol's rules.
fn spoil(
    random: &mut Random,
    (protocol, term): (&Protocol, &Term),
    input: &mut Input,
    fault: usize,
    need: usize,
) {
    match fault {
        0..40 => {}
        40..46 => input.work = *random.choose(&[0, 1, 1_024, WORK_AREA - 1]),
        46..51 => overfill(random, &mut input.protocol, File::Protocol.limit()),
        51..55 => overfill(random, &mut input.term, File::Term.limit()),
        55..60 => input.term = long_file(random, term),
        60..69 => {
            let numbers = numbers::of_protocol(protocol);
            damage_file(random, &mut input.protocol, &numbers);
        }
        69..78 => damage_file(random, &mut input.term, &numbers::of_term(term)),
        78..81 => input.term = with_variable(random, protocol),
        81 => input.term = unknown_tag(random, term),
        82..90 => input.term = large_term(random, protocol),
        _ => input.output = random.below(need),
    }
}

fn ground_term(random: &mut Random, protocol: &Protocol) -> Term {
    let symbols = match random.below(10) {
        0 => MOST_FILLED_IN_SYMBOLS - random.below(4),
        1 | 2 => 1 + random.below(MOST_FILLED_IN_SYMBOLS),
        3..6 => 1 + random.below(60),
        _ => 1 + random.below(20),
    };
    let products = random.percent(60);
    let material = Material {
        signing: signs(protocol) || random.percent(25),
        ..material(protocol, 0, products)
    };
    match random.below(30) {
        0 => twins(random, &material),
        _ => material.term(random, symbols),
    }
}

/// A function times itself or its inverse with another argument at one place.
fn twins(random: &mut Random, material: &Material) -> Term {
    let tags = [ENC, PAIR, AENC, ADEC, PK, SIGN, VERIFY];
    let tag = tags[random.below(if material.signing { tags.len() } else { 2 })];
    let arity = material.signature.arity(tag).expect("a function");
    let mut arguments: Vec<Term> = (0..arity).map(|_| material.term(random, 1)).collect();
    let one = Term::Apply(tag, arguments.clone());
    arguments[random.below(arity)] = material.term(random, 1);
    let other = Term::Apply(tag, arguments);
    match random.below(2) {
        0 => Term::apply(MUL, [one, other]),
        _ => Term::apply(MUL, [one, Term::apply(INV, [other])]),
    }
}

/// As many bytes as 256 symbols can have, all names wide. The protocol gets the functions for it.
fn longest_term(random: &mut Random, protocol: &mut Protocol) -> Term {
    let free = &mut protocol.signature.free;
    let tag = FREE + free.len() as u32;
    free.extend([4, 3]);
    let name = |random: &mut Random| {
        let number = random.below(4) as u32;
        let number = wide(random, number);
        match random.below(2) {
            0 => Term::Fresh(Fresh(number)),
            _ => Term::Public(Public(number)),
        }
    };
    let mut names = |count| (0..count).map(|_| name(random)).collect::<Vec<Term>>();
    let innermost = Term::apply(tag + 1, names(3));
    (1..FUNCTIONS).fold(innermost, |inner, place| {
        let mut arguments = names(3);
        arguments.insert(place % 4, inner);
        Term::apply(tag, arguments)
    })
}

/// The term below as many h as make its file as long as 256 symbols can be, or longer; whole, cut off, or with a byte left over.
fn long_file(random: &mut Random, term: &Term) -> Vec<u8> {
    let limit = File::Term.limit();
    let between = LONGEST_TERM + random.below(limit - LONGEST_TERM);
    let ends = [LONGEST_TERM, LONGEST_TERM + 1, limit - 1, limit, limit + 1];
    let length = *random.choose(&[&ends[..], &[between; 3]].concat());
    let term = term.encoded();
    let mut bytes = vec![H as u8; length.saturating_sub(term.len())];
    bytes.extend(term);
    match random.below(5) {
        0 => drop(bytes.pop()),
        1 => bytes.push(0),
        2 => drop(bytes.remove(0)),
        _ => {}
    }
    bytes
}

fn with_variable(random: &mut Random, protocol: &Protocol) -> Vec<u8> {
    let symbols = 1 + random.below(2 * MOST_FILLED_IN_SYMBOLS);
    material(protocol, 3, true).term(random, symbols).encoded()
}

/// The term with a tag that no function has in place of a constant or of another tag.
fn unknown_tag(random: &mut Random, term: &Term) -> Vec<u8> {
    let tag = TRUE + 1 + random.below(3) as u32;
    let parts = term.arguments().to_vec();
    match random.percent(50) {
        true => Term::Apply(tag, parts).encoded(),
        false => Term::apply(PAIR, [term.clone(), Term::apply(tag, [])]).encoded(),
    }
}

/// More than 256 symbols, and at most as many bytes as the file may have.
fn large_term(random: &mut Random, protocol: &Protocol) -> Vec<u8> {
    let beyond = 1 + *random.choose(&[0, 0, 1, 40, 200]);
    let material = material(protocol, 0, true);
    let term = material.term(random, MOST_FILLED_IN_SYMBOLS + beyond);
    let mut bytes = term.encoded();
    bytes.truncate(File::Term.limit());
    bytes
}

fn material(protocol: &Protocol, variables: u32, products: bool) -> Material<'_> {
    Material {
        signature: &protocol.signature,
        variables,
        fresh_names: true,
        products,
        signing: signs(protocol),
    }
}
