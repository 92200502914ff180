//! The random inputs use aenc to true in every file that may have them, in every way in which an engine could get them wrong.

use reference::calls::{fit_property, fit_protocol, ruled_steps, Outcome};
use reference::canonical::canonical_form;
use reference::generate::numbers::{encoded, of_protocol, of_steps, of_term, retagged};
use reference::generate::properties::Maker;
use reference::generate::protocols::{self, is_signing};
use reference::generate::{canonical, faults, runs};
use reference::number::Reader;
use reference::protocol::{numbered, Numbered, Protocol};
use reference::random::Random;
use reference::refusal::{File, Refusal};
use reference::steps::{MOST_FILLED_IN_SYMBOLS, MOST_VALUE_SYMBOLS};
use reference::term::*;
use std::collections::BTreeMap;

mod ruled;
use ruled::ruled;

/// How many inputs have each of these.
#[derive(Default)]
struct Counts(BTreeMap<String, usize>);

impl Counts {
    fn add(&mut self, what: impl ToString, holds: bool) {
        *self.0.entry(what.to_string()).or_default() += usize::from(holds);
    }

    /// So many of 1,000 inputs, at least, have each.
    fn at_least(&self, least: usize, inputs: usize) {
        println!("{:#?} of {inputs}", self.0);
        for (what, count) in &self.0 {
            assert!(1_000 * count >= least * inputs, "{what}: {count}");
        }
    }
}

/// A test of a function's canonical arguments.
type Kind = (&'static str, u32, fn(&[Term]) -> bool);

fn public_key(key: &Term) -> Term {
    Term::apply(PK, [key.clone()])
}

/// Whether adec or verify applies to these arguments as they are.
fn opens(tag: u32, parts: &[Term]) -> bool {
    match (tag, parts) {
        (ADEC, [Term::Apply(AENC, cipher), key]) => cipher[1] == public_key(key),
        (VERIFY, [Term::Apply(SIGN, signed), message, key]) => {
            signed[0] == *message && public_key(&signed[1]) == *key
        }
        _ => false,
    }
}

/// The ways in which adec and verify apply or nearly apply.
const KINDS: [Kind; 10] = [
    ("adec applies", ADEC, |parts| opens(ADEC, parts)),
    ("adec, another key", ADEC, |parts| match parts {
        [Term::Apply(AENC, cipher), key] => {
            cipher[1].has_tag(PK) && cipher[1] != public_key(key) && cipher[1] != *key
        }
        _ => false,
    }),
    ("adec, no pk", ADEC, |parts| match parts {
        [Term::Apply(AENC, cipher), key] => cipher[1] == *key,
        _ => false,
    }),
    ("adec, not of aenc", ADEC, |parts| match parts {
        [Term::Apply(tag, cipher), key] => *tag != AENC && cipher.get(1) == Some(&public_key(key)),
        _ => false,
    }),
    ("dec of aenc", DEC, |parts| match parts {
        [Term::Apply(AENC, cipher), key] => cipher[1] == public_key(key),
        _ => false,
    }),
    ("verify applies", VERIFY, |parts| opens(VERIFY, parts)),
    ("verify, another message", VERIFY, |parts| match parts {
        [Term::Apply(SIGN, signed), message, key] => {
            signed[0] != *message && public_key(&signed[1]) == *key
        }
        _ => false,
    }),
    ("verify, another key", VERIFY, |parts| match parts {
        [Term::Apply(SIGN, signed), message, key] => {
            signed[0] == *message && key.has_tag(PK) && public_key(&signed[1]) != *key
        }
        _ => false,
    }),
    ("verify, no pk", VERIFY, |parts| match parts {
        [Term::Apply(SIGN, signed), message, key] => signed[0] == *message && signed[1] == *key,
        _ => false,
    }),
    ("verify, not of sign", VERIFY, |parts| match parts {
        [Term::Apply(tag, signed), message, key] => {
            *tag != SIGN
                && signed.len() == 2
                && signed[0] == *message
                && public_key(&signed[1]) == *key
        }
        _ => false,
    }),
];

/// The canonical forms of a function's arguments.
fn forms(term: &Term) -> Vec<Term> {
    term.arguments().iter().map(canonical_form).collect()
}

/// Whether a part of the term is this function of such arguments, once these are canonical.
fn has_kind(term: &Term, (_, tag, test): &Kind) -> bool {
    term.any(&|part| part.has_tag(*tag) && test(&forms(part)))
}

/// Whether a part of the term is this function, which applies only once its arguments are canonical.
fn opens_only_by_equations(term: &Term, tag: u32) -> bool {
    term.any(&|part| part.has_tag(tag) && !opens(tag, part.arguments()) && opens(tag, &forms(part)))
}

/// The factors of a canonical product or inverse.
fn factors<'a>(term: &'a Term, found: &mut Vec<&'a Term>) {
    match term {
        Term::Apply(MUL | INV, parts) => parts.iter().for_each(|part| factors(part, found)),
        factor => found.push(factor),
    }
}

/// Whether a part of the canonical term is a product with factors that meet both tests.
fn has_factors(term: &Term, first: &dyn Fn(&Term) -> bool, second: &dyn Fn(&Term) -> bool) -> bool {
    term.any(&|part| {
        let mut found = Vec::new();
        if matches!(part, Term::Apply(MUL | INV, _)) {
            factors(part, &mut found);
        }
        found.iter().any(|factor| first(factor)) && found.iter().any(|factor| second(factor))
    })
}

/// The term of an input of canonical form, where it reads.
fn term_of(input: &canonical::Input) -> Option<Term> {
    let protocol = Protocol::read(&input.protocol).ok()?;
    let mut reader = Reader::new(&input.term);
    let prefix = Prefix::read(&mut reader, &protocol.signature).ok()?;
    let whole = reader.finish().is_ok() && prefix.symbols() <= MOST_FILLED_IN_SYMBOLS;
    whole.then(|| prefix.tree())
}

/// Half a hundredth of the terms, at least, have each of the six functions, also as a factor; each equation applies, also only after the
/// arguments are normalised, or nearly applies, in each way.
#[test]
fn terms_are_sealed_and_signed() {
    const INPUTS: usize = 20_000;
    let mut random = Random::new(51);
    let mut counts = Counts::default();
    for _ in 0..INPUTS {
        let input = canonical::input(&mut random);
        let Some(term) = term_of(&input) else {
            continue;
        };
        let form = canonical_form(&term);
        let is_free = |term: &Term| matches!(term, Term::Apply(FREE..AENC, _));
        for tag in AENC..=TRUE {
            let is_it = |term: &Term| term.has_tag(tag);
            counts.add(format!("tag {tag}"), term.any(&is_it));
            counts.add(
                format!("factor {tag}"),
                has_factors(&form, &is_it, &|_| true),
            );
        }
        counts.add(
            "behind a free function",
            has_factors(&form, &is_free, &is_signing),
        );
        let both = |tags: [u32; 2]| {
            has_factors(&form, &|term| term.has_tag(tags[0]), &|term| {
                term.has_tag(tags[1])
            })
        };
        counts.add(
            "true and another of the six",
            [AENC, ADEC, PK, SIGN, VERIFY]
                .iter()
                .any(|tag| both([*tag, TRUE])),
        );
        for kind in &KINDS {
            counts.add(kind.0, has_kind(&term, kind));
        }
        for (name, tag) in [("adec", ADEC), ("verify", VERIFY)] {
            let only = opens_only_by_equations(&term, tag);
            counts.add(format!("{name}, only by the equations"), only);
        }
    }
    counts.at_least(5, INPUTS);
}

/// The nodes of a step list or graph, up to one that does not read.
fn nodes_of(protocol: &[u8], bytes: &[u8]) -> Vec<(u32, Vec<Term>)> {
    let Ok(protocol) = Protocol::read(protocol) else {
        return Vec::new();
    };
    let mut reader = Reader::new(bytes);
    let count = reader.number().unwrap_or(0);
    let mut nodes = Vec::new();
    for _ in 0..count {
        let Ok(number) = reader.number() else {
            break;
        };
        let variables = protocol.rule(number).map_or(0, |rule| rule.variables.len());
        let value = |_| Prefix::read(&mut reader, &protocol.signature);
        let Ok(values) = (0..variables).map(value).collect::<Result<Vec<_>, _>>() else {
            break;
        };
        nodes.push((number, values.iter().map(Prefix::tree).collect()));
    }
    nodes
}

/// Of accepted graphs and drawn steps: each of the rules 95 to 100, adec and verify that apply and that stay, and the functions in
/// protocols. Of refusals 6: a number between the own rules and 95, and one behind 100. One of 500 inputs, at least, has each.
#[test]
fn runs_are_sealed_and_signed() {
    const INPUTS: usize = 6_000;
    let mut random = Random::new(52);
    let mut counts = Counts::default();
    for number in 0..INPUTS {
        let ([protocol, bytes], outcome) = ruled(&mut random, number % 2 == 0);
        let nodes = nodes_of(&protocol, &bytes);
        let refused = match outcome {
            Outcome::Refused(refusal) => Some(refusal),
            _ => None,
        };
        let no_rule = match refused {
            Some(Refusal { number: 6, item }) => nodes.get(item as usize - 1),
            _ => None,
        };
        let no_rule = no_rule.map(|(number, _)| *number);
        let own = |number: u32| matches!(numbered(number), Some(Numbered::Own(_)));
        counts.add("no own rule", no_rule.is_some_and(own));
        counts.add("rule 94 is none", no_rule == Some(94));
        counts.add(
            "behind all",
            no_rule.is_some_and(|number| (101..128).contains(&number)),
        );
        let good = refused.is_none();
        for rule in 95..=100 {
            let used = good && nodes.iter().any(|(number, _)| *number == rule);
            counts.add(format!("rule {rule}"), used);
        }
        for (tag, rule) in [(ADEC, 96), (VERIFY, 99)] {
            let opened = |applies: bool| {
                let mut of_rule = nodes.iter().filter(|(number, _)| *number == rule);
                good && of_rule.any(|(_, values)| opens(tag, values) == applies)
            };
            counts.add(format!("rule {rule} applies"), opened(true));
            counts.add(format!("rule {rule} stays"), opened(false));
        }
        let signs = good && protocols::signs(&Protocol::read(&protocol).expect("a protocol"));
        let own_rule = nodes.iter().any(|(number, _)| own(*number));
        counts.add(
            "a protocol's rule with one of the six, and a node of one",
            signs && own_rule,
        );
        let in_value = |(number, values): &(u32, Vec<Term>)| {
            own(*number) && values.iter().any(|value| value.any(&is_signing))
        };
        counts.add(
            "in a value of an own rule",
            good && nodes.iter().any(in_value),
        );
    }
    counts.at_least(2, INPUTS);
}

/// Of large nodes, those of verify have just as many symbols as are allowed, one more, and as many as three values can have.
#[test]
fn verify_is_filled_in_up_to_its_limit() {
    let mut random = Random::new(53);
    let mut counts: BTreeMap<usize, usize> = BTreeMap::new();
    for _ in 0..1_000 {
        let mut steps = Vec::new();
        faults::large_node(&mut random, &mut steps);
        let symbols: usize = steps[0].values.iter().map(Term::symbols).sum();
        if steps[0].rule == 99 {
            *counts.entry(1 + symbols).or_default() += 1;
        }
    }
    println!("{counts:?}");
    let all = 1 + 3 * MOST_VALUE_SYMBOLS;
    let sizes: Vec<usize> = counts.keys().copied().collect();
    assert_eq!(
        sizes,
        [MOST_FILLED_IN_SYMBOLS, MOST_FILLED_IN_SYMBOLS + 1, all]
    );
    assert!(counts.values().all(|count| *count >= 10));
}

/// "Outside properties, tags 29 to 34 cease to be a layout fault": whole functions in properties are refused with 3, and tag 35 in any file.
#[test]
fn tags_that_no_file_and_no_property_has() {
    let mut random = Random::new(54);
    let least = Protocol::read(&[0, 0, 0]).expect("a protocol");
    let mut tags: BTreeMap<u8, [usize; 2]> = BTreeMap::new();
    for _ in 0..2_000 {
        let property = Maker::new(&least, 1).property(&mut random);
        let bytes = faults::function(&mut random, property);
        let refusal = Refusal { number: 3, item: 2 };
        assert_eq!(fit_property(&bytes, &least), Err(refusal), "{bytes:02X?}");
        let tag = *bytes
            .iter()
            .find(|byte| (29..=35).contains(*byte))
            .expect("a tag");
        tags.entry(tag).or_default()[usize::from(bytes.len() == 1)] += 1;
    }
    println!("as a term, as a formula: {tags:?}");
    assert_eq!(tags.len(), 7);
    assert!(tags.values().flatten().all(|count| *count >= 20));
    let mut behind = [0; 3];
    for _ in 0..3_000 {
        let protocol = protocols::fit(&mut random);
        let run = runs::run(&mut random, &protocol, 6);
        let term = Term::apply(PAIR, [Term::one(), Term::apply(TRUE, [])]);
        let files = [of_protocol(&protocol), of_steps(&run.steps), of_term(&term)];
        for (place, numbers) in files.iter().enumerate() {
            let (bytes, tag) = retagged(&mut random, numbers);
            if tag <= TRUE || bytes == encoded(numbers) {
                continue;
            }
            let refused = match place {
                0 => fit_protocol(&bytes).err(),
                1 => ruled_steps(&protocol, &bytes).err(),
                _ => File::Term
                    .layout(Prefix::read(&mut Reader::new(&bytes), &protocol.signature))
                    .err(),
            };
            let number = refused.map(|refusal| refusal.number);
            assert_eq!(number, Some(3), "{bytes:02X?}");
            behind[place] += 1;
        }
    }
    println!("tag 35 or 36: {behind:?}");
    assert!(behind.iter().all(|count| *count >= 100));
}
