//! The random inputs have the shares that a differential test needs.

use reference::calls::{canonical_form, check, draw, Outcome};
use reference::generate::properties::Maker;
use reference::generate::{canonical, exchanges, graphs, protocols};
use reference::number::Reader;
use reference::property;
use reference::protocol::{Fact, Protocol, Rule, Sort};
use reference::random::Random;
use reference::refusal::{File, Refusal};
use reference::steps::{nodes, read_steps};
use reference::term::{Term, EXP, INV, MUL};
use std::collections::BTreeMap;

const ROUNDS: usize = 20_000;

/// The outcome without the figures that differ from input to input.
fn kind(outcome: Outcome) -> String {
    match outcome {
        Outcome::Refused(Refusal {
            number: 2 | 3,
            item,
        }) => format!("{} file {item}", kind_word(outcome)),
        _ => kind_word(outcome),
    }
}

fn kind_word(outcome: Outcome) -> String {
    match outcome {
        Outcome::Refused(refusal) => format!("refused {}", refusal.number),
        Outcome::Attack(_) => "attack".to_string(),
        Outcome::Run(_) => "run".to_string(),
        Outcome::Written(_) => "written".to_string(),
    }
}

/// The share of each kind, in hundredths of a percent.
fn shares(kinds: impl Iterator<Item = String>) -> BTreeMap<String, usize> {
    let mut counts = BTreeMap::new();
    let mut all = 0;
    for kind in kinds {
        *counts.entry(kind).or_default() += 1;
        all += 1;
    }
    for count in counts.values_mut() {
        *count = *count * 10_000 / all;
    }
    println!("{counts:#?}");
    counts
}

#[test]
fn canonical_form_has_every_outcome_often_enough() {
    let mut random = Random::new(3);
    let mut products = 0;
    let shares = shares((0..ROUNDS).map(|_| {
        let input = canonical::input(&mut random);
        let has = |tags: &[u32]| {
            input
                .term
                .iter()
                .any(|byte| tags.contains(&u32::from(*byte)))
        };
        products += usize::from(has(&[EXP, INV, MUL]));
        let (mut output, mut work) = (vec![0; input.output], vec![0; input.work]);
        kind(canonical_form(
            &input.protocol,
            &input.term,
            &mut output,
            &mut work,
        ))
    }));
    assert!(shares["written"] >= 2_500);
    let refusals = [
        "refused 1",
        "refused 2 file 1",
        "refused 2 file 4",
        "refused 3 file 1",
        "refused 3 file 4",
        "refused 4",
        "refused 8",
        "refused 15",
    ];
    for refusal in refusals {
        assert!(shares[refusal] >= 50, "{refusal}");
    }
    assert_eq!(shares.len(), 1 + refusals.len());
    assert!(2 * products >= ROUNDS);
}

const GRAPHS: usize = 4_000;

fn at_least(shares: &BTreeMap<String, usize>, least: usize, kinds: &[&str]) {
    for kind in kinds {
        let share = shares.get(*kind).copied().unwrap_or(0);
        assert!(share >= least, "{kind}: {share}");
    }
}

/// The count of nodes at the start of a step list or graph.
fn node_count(file: &[u8]) -> u32 {
    Reader::new(file).number().unwrap_or(0)
}

#[test]
fn checking_has_every_outcome_often_enough() {
    let mut random = Random::new(4);
    let mut long = 0;
    let shares = shares((0..GRAPHS).map(|_| {
        let input = graphs::check_input(&mut random);
        let mut work = vec![1; input.work];
        let outcome = check(&input.protocol, &input.property, &input.graph, &mut work);
        let accepted = !matches!(outcome, Outcome::Refused(_));
        long += usize::from(accepted && node_count(&input.graph) > 100);
        kind(outcome)
    }));
    println!("over 100 nodes: {long}");
    assert!(shares["attack"] + shares["run"] >= 2_500);
    at_least(&shares, 1_000, &["attack", "run"]);
    let wanted = [7, 8, 9, 10, 11, 12, 13].map(|number| format!("refused {number}"));
    at_least(&shares, 100, &wanted.each_ref().map(|kind| kind.as_str()));
    let files = [1, 2, 3].map(|item| [2, 3].map(|number| format!("refused {number} file {item}")));
    let files = files.as_flattened();
    let files: Vec<&str> = files.iter().map(String::as_str).collect();
    at_least(&shares, 50, &files);
    at_least(
        &shares,
        50,
        &["refused 1", "refused 4", "refused 5", "refused 6"],
    );
    assert!(20 * long >= GRAPHS);
}

/// Runs of key exchanges finish several sessions, reveal keys, and make properties true and false.
#[test]
fn sessions_have_every_outcome_often_enough() {
    let mut random = Random::new(6);
    let (mut accepted, mut several, mut revealed) = (0, 0, 0);
    let shares = shares((0..GRAPHS).map(|_| {
        let input = graphs::session_input(&mut random);
        let mut work = vec![1; input.work];
        let outcome = check(&input.protocol, &input.property, &input.graph, &mut work);
        if matches!(outcome, Outcome::Attack(_) | Outcome::Run(_)) {
            let protocol = Protocol::read(&input.protocol).unwrap();
            let mut reader = Reader::new(&input.graph);
            let steps = read_steps(File::Graph, &mut reader, &protocol).unwrap();
            let nodes = nodes(&steps).unwrap();
            let actions = |symbol: u32| {
                let all = nodes.iter().flat_map(|node| &node.actions);
                all.filter(|fact| fact.symbol == symbol).count()
            };
            accepted += 1;
            several += usize::from(actions(exchanges::DONE) > 1);
            revealed += usize::from(actions(exchanges::REVEALED) > 0);
        }
        kind(outcome)
    }));
    println!("several sessions: {several}, reveals: {revealed}, of {accepted}");
    at_least(&shares, 1_500, &["attack", "run"]);
    assert!(3 * several >= accepted && 2 * revealed >= accepted);
}

/// How many facts a drawn step list's nodes have, and how many of them hold a product, an inverse or a
/// power.
fn facts_and_products(input: &graphs::DrawInput) -> (usize, usize) {
    let protocol = Protocol::read(&input.protocol).unwrap();
    let steps = read_steps(File::Steps, &mut Reader::new(&input.steps), &protocol).unwrap();
    let nodes = nodes(&steps).unwrap();
    let facts = nodes
        .iter()
        .flat_map(|node| [&node.premises, &node.actions, &node.conclusions])
        .flatten();
    let product = |term: &Term| matches!(term, Term::Apply(EXP | INV | MUL, _));
    facts.fold((0, 0), |(all, some), fact| {
        (all + 1, some + usize::from(fact.any(&product)))
    })
}

#[test]
fn drawing_has_every_outcome_often_enough() {
    let mut random = Random::new(5);
    let (mut long, mut facts, mut products) = (0, 0, 0);
    let shares = shares((0..GRAPHS).map(|_| {
        let input = graphs::draw_input(&mut random);
        let (mut output, mut work) = (vec![1; input.output], vec![1; input.work]);
        let outcome = draw(&input.protocol, &input.steps, &mut output, &mut work);
        let drawn = matches!(outcome, Outcome::Written(_));
        if drawn {
            let (all, some) = facts_and_products(&input);
            facts += all;
            products += some;
        }
        long += usize::from(drawn && node_count(&input.steps) > 100);
        kind(outcome)
    }));
    println!("over 100 nodes: {long}, {products} products in {facts} facts");
    at_least(&shares, 2_500, &["written"]);
    let wanted = [7, 8, 9, 14, 15].map(|number| format!("refused {number}"));
    at_least(&shares, 100, &wanted.each_ref().map(|kind| kind.as_str()));
    let files = [1, 5].map(|item| [2, 3].map(|number| format!("refused {number} file {item}")));
    let files: Vec<&str> = files.as_flattened().iter().map(String::as_str).collect();
    at_least(&shares, 50, &files);
    at_least(&shares, 50, &["refused 1", "refused 4", "refused 6"]);
    assert!(20 * long >= GRAPHS);
    assert!(2 * products >= facts);
}

/// What is within the limits reads back from its encoding.
#[test]
fn fit_protocols_and_properties_read_back() {
    let mut random = Random::new(10);
    for _ in 0..2_000 {
        let protocol = protocols::fit(&mut random);
        assert_eq!(Protocol::read(&protocol.encoded()).as_ref(), Ok(&protocol));
        assert!(protocol.rules.iter().all(Rule::meets_conditions));

        let formula = Maker::new(&protocol, 3).property(&mut random);
        let mut bytes = Vec::new();
        formula.encode(&mut bytes);
        if bytes.len() <= File::Property.limit() {
            assert_eq!(property::read(&bytes, &protocol).as_ref(), Ok(&formula));
            assert!(formula.is_fit(&[]));
        }
    }
}

/// Whether a variable of the rule stands in these facts: the term has it, or the term is it.
fn stands_in(facts: &[Fact], number: u32) -> [bool; 2] {
    let is_it = |term: &Term| *term == Term::Variable(number);
    let below = facts.iter().any(|fact| fact.any(&is_it));
    [below, facts.iter().any(|fact| fact.terms.iter().any(is_it))]
}

/// P5 is broken alone in the least rule that is refused, the first or a later one; also where a later rule breaks another condition; with a
/// variable at the top of an action and only below a function, of sort message and of sort fresh; and with P4 where a conclusion has it.
#[test]
fn the_fifth_condition_is_broken_in_every_way() {
    const ONLY_FIFTH: [bool; 5] = [true, true, true, true, false];
    let mut random = Random::new(11);
    let mut counts = BTreeMap::new();
    let mut count = |what: &'static str, holds: bool| {
        *counts.entry(what).or_insert(0) += usize::from(holds);
    };
    for _ in 0..2_000 {
        let mut protocol = protocols::fit(&mut random);
        protocols::break_condition(&mut random, &mut protocol);
        let unfit = |rule: &Rule| !rule.meets_conditions();
        let least = protocol.rules.iter().position(unfit).expect("a broken one");
        let rule = &protocol.rules[least];
        let alone = rule.conditions() == ONLY_FIFTH;
        let later = &protocol.rules[least + 1..];
        let number = rule.variables.len() as u32 - u32::from(!rule.variables.is_empty());
        let [_, top] = stands_in(&rule.actions, number);
        count("in the first rule", alone && least == 0);
        count("in a later rule", alone && least > 0);
        count(
            "another condition in a later rule",
            alone
                && later
                    .iter()
                    .any(|rule| rule.conditions()[..4].contains(&false)),
        );
        count("at the top", alone && top);
        count("below a function", alone && !top);
        count(
            "of sort message",
            alone && rule.variables.last() == Some(&Sort::Message),
        );
        count(
            "of sort fresh",
            alone && rule.variables.last() == Some(&Sort::Fresh),
        );
        count(
            "with the fourth",
            !rule.conditions()[3] && !rule.conditions()[4],
        );
    }
    println!("{counts:#?}");
    assert_eq!(counts.len(), 8);
    assert!(counts.values().all(|count| *count >= 5));
}

/// What P5 lets pass: a variable of an action that stands in no premise and is public; in persistent premises alone; below a function of a
/// premise alone; and a variable that stands nowhere.
#[test]
fn fit_protocols_are_near_the_fifth_condition() {
    let mut random = Random::new(12);
    let mut counts = [0; 4];
    for _ in 0..4_000 {
        let protocol = protocols::fit(&mut random);
        for rule in &protocol.rules {
            for (number, sort) in (0..).zip(&rule.variables) {
                let linear = rule
                    .premises
                    .iter()
                    .filter(|fact| !protocol.persistent(fact));
                let linear: Vec<Fact> = linear.cloned().collect();
                let [recorded, _] = stands_in(&rule.actions, number);
                let [bound, whole] = stands_in(&rule.premises, number);
                let [by_linear, _] = stands_in(&linear, number);
                let facts: Vec<Fact> = rule.facts().cloned().collect();
                counts[0] += usize::from(recorded && !bound && *sort == Sort::Public);
                counts[1] += usize::from(recorded && bound && !by_linear);
                counts[2] += usize::from(recorded && bound && !whole);
                counts[3] += usize::from(!stands_in(&facts, number)[0]);
            }
        }
    }
    println!("{counts:?}");
    assert!(counts.iter().all(|count| *count >= 20));
}
