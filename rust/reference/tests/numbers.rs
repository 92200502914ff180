//! The random inputs use numbers of as many groups as there may be, at every place of every file, and term files up to their limit.

use reference::calls::{canonical_form, check, draw, Outcome, WORK_AREA};
use reference::figures::{MOST_GROUPS, TERM_BYTES};
use reference::generate::canonical::{self, LONGEST_TERM};
use reference::generate::numbers::*;
use reference::generate::properties::Maker;
use reference::generate::runs::{self, some_edges};
use reference::generate::terms::{rare_name, Material};
use reference::generate::{protocols, runs::Step};
use reference::number::{least_of, Reader, LARGEST, LEAST_WIDE};
use reference::protocol::Protocol;
use reference::random::Random;
use reference::refusal::{File, Refusal};
use reference::term::{Fresh, Prefix, Public, Term, MUL};
use std::collections::{BTreeMap, BTreeSet};

mod ruled;
use ruled::ruled;

/// Fit files, whose numbers are spoiled one at a time.
struct Files {
    protocol: Vec<u8>,
    property: Vec<u8>,
    graph: Vec<u8>,
    steps: Vec<u8>,
    term: Vec<u8>,
}

impl Files {
    /// What the call that reads this file answers.
    fn outcome(&self, file: File) -> Outcome {
        let (mut output, mut work) = (vec![0; File::Graph.limit()], vec![0; WORK_AREA]);
        let protocol = &self.protocol;
        match file {
            File::Term => canonical_form(protocol, &self.term, &mut output, &mut work),
            File::Steps => draw(protocol, &self.steps, &mut output, &mut work),
            _ => check(protocol, &self.property, &self.graph, &mut work),
        }
    }

    /// Puts these bytes in place of a file.
    fn with(&mut self, file: File, bytes: Vec<u8>) {
        match file {
            File::Protocol => self.protocol = bytes,
            File::Property => self.property = bytes,
            File::Graph => self.graph = bytes,
            File::Steps => self.steps = bytes,
            File::Term => self.term = bytes,
        }
    }
}

/// Fit files, and the numbers of each.
fn fit_files(random: &mut Random) -> (Files, [(File, Numbers); 5]) {
    let protocol = protocols::fit(random);
    let run = runs::run(random, &protocol, 12);
    let edges = some_edges(random, &protocol, &run.nodes);
    let property = Maker::new(&protocol, 2).property(random);
    let material = Material {
        signature: &protocol.signature,
        variables: 0,
        fresh_names: true,
        products: true,
        signing: true,
    };
    let term = material.term(random, 12);
    let numbers = [
        (File::Protocol, of_protocol(&protocol)),
        (File::Property, of_property(&property)),
        (File::Graph, of_graph(&run.steps, &edges)),
        (File::Steps, of_steps(&run.steps)),
        (File::Term, of_term(&term)),
    ];
    let files = Files {
        protocol: protocol.encoded(),
        property: property.encoded(),
        graph: encoded(&numbers[2].1),
        steps: runs::encoded(&run.steps),
        term: term.encoded(),
    };
    for (file, numbers) in &numbers {
        let same = match file {
            File::Protocol => &files.protocol,
            File::Property => &files.property,
            File::Steps => &files.steps,
            File::Graph => &files.graph,
            File::Term => &files.term,
        };
        assert_eq!(&encoded(numbers), same);
    }
    (files, numbers)
}

/// The causes that a number of this form can have there, where nothing else is wrong with the file. None: that is no fault by itself.
fn cause(file: File, place: Place, form: Form) -> Option<u32> {
    match (form, place) {
        (Form::TooLong | Form::NotShortest, _) => Some(3),
        (_, Place::PublicName | Place::FreshName) => None,
        (_, Place::RuleNumber) => Some(6),
        (_, Place::EdgeField) => Some(10),
        (_, Place::Variable | Place::Time) if file == File::Property => Some(5),
        _ => Some(3),
    }
}

/// "Every reader and writer of a number relies on the new range": each number is judged by its place, and each place comes in every form.
#[test]
fn a_number_is_judged_by_its_place() {
    let mut random = Random::new(41);
    let mut counts = BTreeMap::new();
    for _ in 0..6_000 {
        let (mut files, numbers) = fit_files(&mut random);
        let (file, numbers) = random.choose(&numbers);
        let (bytes, place, form) = spoiled(&mut random, numbers);
        files.with(*file, bytes);
        let outcome = files.outcome(*file);
        let refusal = match outcome {
            Outcome::Refused(refusal) => Some(refusal),
            _ => None,
        };
        match cause(*file, place, form) {
            Some(3) => {
                let (number, item) = (3, *file as u32);
                assert_eq!(
                    refusal,
                    Some(Refusal { number, item }),
                    "{place:?} {form:?}"
                );
            }
            Some(cause) => {
                let number = refusal.map(|refusal| refusal.number);
                assert_eq!(number, Some(cause), "{place:?} {form:?}");
            }
            None => assert!(
                refusal.is_none_or(|refusal| refusal.number > 6),
                "{place:?} {form:?}: {outcome}"
            ),
        }
        *counts.entry((*file as u32, place, form)).or_insert(0) += 1;
    }
    println!("{counts:#?}");
    // Of a protocol 8 places, of a property 8, of a graph 6, of steps 5, of a term 3; a fit one has no fresh name in a rule and no
    // variable in a value.
    assert_eq!(counts.len(), FORMS.len() * (8 + 8 + 6 + 5 + 3));
    assert!(counts.values().all(|count| *count >= 10));
}

/// The names of a term, public and fresh.
fn names(term: &Term, found: &mut Vec<u32>) {
    match term {
        Term::Public(Public(number)) | Term::Fresh(Fresh(number)) => found.push(*number),
        _ => term.arguments().iter().for_each(|part| names(part, found)),
    }
}

/// The kind and the number of a name.
fn name_of(term: &Term) -> Option<(bool, u32)> {
    match term {
        Term::Public(Public(number)) => Some((false, *number)),
        Term::Fresh(Fresh(number)) => Some((true, *number)),
        _ => None,
    }
}

/// Whether a product of the canonical term has two names of one kind, one of them wide, whose numbers fall.
fn falls_by_number(term: &Term) -> bool {
    let falls = |first: &Term, rest: &Term| {
        let next = match rest {
            Term::Apply(MUL, factors) => &factors[0],
            other => other,
        };
        match (name_of(first), name_of(next)) {
            (Some((kind, number)), Some((other, lower))) => {
                kind == other && number > lower && number >= LEAST_WIDE
            }
            _ => false,
        }
    };
    term.any(&|part| match part {
        Term::Apply(MUL, factors) => falls(&factors[0], &factors[1]),
        _ => false,
    })
}

/// A hundredth of the terms, at least, has each end of each number of groups, and as many have a product that ascends by bytes and not by
/// number because of a wide name.
#[test]
fn terms_have_names_of_every_width() {
    const INPUTS: usize = 20_000;
    let mut random = Random::new(42);
    let ends: BTreeSet<u32> = (2..=MOST_GROUPS)
        .flat_map(|groups| [least_of(groups) - 1, least_of(groups)])
        .chain([LARGEST])
        .collect();
    let mut counts: BTreeMap<u32, usize> = BTreeMap::new();
    let mut falling = 0;
    for _ in 0..INPUTS {
        let input = canonical::input(&mut random);
        let Ok(protocol) = Protocol::read(&input.protocol) else {
            continue;
        };
        let Ok(prefix) = Prefix::read(&mut Reader::new(&input.term), &protocol.signature) else {
            continue;
        };
        if prefix.symbols() > 256 {
            continue;
        }
        let term = prefix.tree();
        let mut found = Vec::new();
        names(&term, &mut found);
        let found: BTreeSet<u32> = found.into_iter().collect();
        for end in found.intersection(&ends) {
            *counts.entry(*end).or_default() += 1;
        }
        falling += usize::from(falls_by_number(&reference::canonical::canonical_form(
            &term,
        )));
    }
    println!("{counts:?}, falling {falling}");
    assert_eq!(counts.len(), ends.len());
    assert!(counts.values().all(|count| 100 * count >= INPUTS));
    assert!(100 * falling >= INPUTS);
    assert!((0..1_000).all(|_| rare_name(&mut random) <= LARGEST));
}

/// Term files as long as a term of 256 symbols can be are written, longer ones are refused with 3 or 8 up to the limit and with 2 above it:
/// each a thousandth of the inputs at least. No form is longer than `LONGEST_TERM`.
#[test]
fn term_files_come_up_to_their_limit() {
    const INPUTS: usize = 20_000;
    let mut random = Random::new(43);
    let mut counts: BTreeMap<&str, usize> = BTreeMap::new();
    for _ in 0..INPUTS {
        let input = canonical::input(&mut random);
        let (mut output, mut work) = (vec![0; 2 * LONGEST_TERM], vec![0; WORK_AREA]);
        let outcome = canonical_form(&input.protocol, &input.term, &mut output, &mut work);
        let refused = |number| matches!(outcome, Outcome::Refused(of) if of.number == number);
        let length = input.term.len();
        if let Outcome::Written(written) = outcome {
            assert!(length <= LONGEST_TERM && written as usize <= LONGEST_TERM);
        }
        let kind = match length {
            LONGEST_TERM if outcome == Outcome::Written(LONGEST_TERM as u32) => "written in full",
            LONGEST_TERM if refused(8) => "8, as long as 256 symbols can be",
            _ if length <= LONGEST_TERM => continue,
            _ if refused(3) && length <= TERM_BYTES => "3, longer",
            _ if refused(8) && length == TERM_BYTES => "8, at the limit",
            _ if refused(8) && length < TERM_BYTES => "8, longer",
            _ if refused(2) && length == TERM_BYTES + 1 => "2, one above the limit",
            _ => continue,
        };
        *counts.entry(kind).or_default() += 1;
    }
    println!("{counts:#?}");
    assert_eq!(counts.len(), 6);
    assert!(counts.values().all(|count| 1_000 * count >= INPUTS));
}

/// The nodes of a well-formed list.
fn steps_of(protocol: &[u8], bytes: &[u8]) -> Vec<Step> {
    let protocol = Protocol::read(protocol).expect("a protocol");
    let mut reader = Reader::new(bytes);
    let count = reader.number().expect("a count");
    let step = |_| {
        let rule = reader.number().expect("a rule's number");
        let variables = protocol.rule(rule).expect("a rule").variables.len();
        let value = |_| Prefix::read(&mut reader, &protocol.signature).expect("a value");
        let values = (0..variables).map(value).map(|value| value.tree());
        Step {
            rule,
            values: values.collect(),
        }
    };
    (0..count).map(step).collect()
}

/// Whether a node of these rules has such a name in its values.
fn has_name(steps: &[Step], rules: impl Fn(u32) -> bool, name: impl Fn(u32) -> bool) -> bool {
    let mut of_rules = steps.iter().filter(|step| rules(step.rule));
    of_rules.any(|step| {
        let mut found = Vec::new();
        step.values
            .iter()
            .for_each(|value| names(value, &mut found));
        found.into_iter().any(&name)
    })
}

/// Accepted graphs and drawn steps make wide names, know them and take them into protocol rules, and a wide name is made twice: so many of
/// 1,000 inputs at least.
#[test]
fn runs_have_wide_names() {
    const INPUTS: usize = 4_000;
    let least = [
        ("made", 50),
        ("in a protocol rule", 10),
        ("the largest", 10),
        ("known", 5),
        ("made twice", 2),
    ];
    let mut random = Random::new(44);
    let mut counts: BTreeMap<&str, usize> = BTreeMap::new();
    let wide = |number| number >= LEAST_WIDE;
    for number in 0..INPUTS {
        let ([protocol, bytes], outcome) = ruled(&mut random, number % 2 == 0);
        let mut count = |what, holds: bool| *counts.entry(what).or_default() += usize::from(holds);
        match outcome {
            Outcome::Refused(Refusal { number: 9, item }) => {
                let steps = steps_of(&protocol, &bytes);
                let again = &steps[item as usize - 1..item as usize];
                count("made twice", has_name(again, |_| true, wide));
            }
            Outcome::Refused(_) => {}
            _ => {
                let steps = steps_of(&protocol, &bytes);
                let largest = |number| number == LARGEST;
                count("made", has_name(&steps, |rule| rule == 0, wide));
                count("known", has_name(&steps, |rule| rule == 3, wide));
                count(
                    "in a protocol rule",
                    has_name(&steps, |rule| (31..95).contains(&rule), wide),
                );
                count("the largest", has_name(&steps, |_| true, largest));
            }
        }
    }
    println!("{counts:#?}");
    for (what, least) in least {
        assert!(1_000 * counts[what] >= least * INPUTS, "{what}");
    }
}
