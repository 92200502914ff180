//! What the ruling of a step list and the comparison of facts cost in the test programs, with the ratio to the reference.

use differential::step_lists::{step_list, value, INJECT, KINDS, PROTOCOL};
use differential::{program, MOST_INPUT};
use reference::calls::fit_protocol;
use reference::cases::{data, Case, Kind};
use reference::number::Reader;
use reference::protocol::Fact;
use reference::steps::instance;
use reference::term::Prefix;
use std::hint::black_box;
use std::time::Instant;

/// So many cases of one input are enough beside the start of a program.
const MOST_CASES: usize = 20;

/// Microseconds of the fastest run within half a second.
fn fastest(run: impl Fn()) -> f64 {
    let begin = Instant::now();
    let mut best = f64::INFINITY;
    while begin.elapsed().as_secs_f64() < 0.5 {
        let start = Instant::now();
        run();
        best = best.min(start.elapsed().as_secs_f64() * 1e6);
    }
    best
}

/// Of one case of a test program that is given many of them, without what it needs for no input at all.
fn program_time(name: &str, case: &Case) -> f64 {
    let many = MOST_CASES.min(MOST_INPUT / case.data().len());
    let input = data(&vec![case.clone(); many]);
    let run =
        |input: &[u8]| fastest(|| assert_eq!(program(name, input).is_empty(), input.is_empty()));
    (run(&input) - run(&[])) / many as f64
}

/// The ruling of 512 nodes.
fn ruling(kind: &str) {
    let values: Vec<Vec<u8>> = (0..512).map(|node| value(kind, node)).collect();
    let case = step_list(Kind::Steps, &values);
    let ours = program_time("cases_steps", &case);
    let theirs = fastest(|| {
        black_box(case.nodes()).expect("a good list");
    });
    println!(
        "{kind}: 512 nodes ruled {ours:.1} us, ratio to the reference {:.2}",
        ours / theirs
    );
}

/// Compares as cases_facts does, each fact and then each argument with the first ones up to one that is the same; how many pairs. Each pair
/// begins at the bytes of the two values, as in the calls.
fn compare(values: &[Vec<u8>]) -> usize {
    let protocol = fit_protocol(&PROTOCOL).expect("a fit protocol");
    let rule = protocol.rule(INJECT.into()).expect("its rule");
    let facts: Vec<&Fact> = rule.facts().collect();
    let made = |k: usize| {
        let value = Prefix::read(
            &mut Reader::new(&values[k / facts.len()]),
            &protocol.signature,
        );
        let value = value.expect("a term").tree();
        instance(facts[k % facts.len()], &[value])
    };
    let count = values.len() * facts.len();
    let first = |same: &dyn Fn(Fact, Fact) -> bool| -> usize {
        let number = |k| (0..=k).find(|i| same(made(*i), made(k))).expect("itself") + 1;
        (0..count).map(number).sum()
    };
    first(&|f, g| f == g) + first(&|f, g| f.terms == g.terms)
}

/// The comparison of pairs: nodes of different values give more pairs than nodes of one value, and all else alike.
fn comparison(kind: &str) {
    let nodes = 0..20;
    let different: Vec<Vec<u8>> = nodes.clone().map(|node| value(kind, node)).collect();
    let one: Vec<Vec<u8>> = nodes.map(|_| value(kind, 0)).collect();
    let program = |values: &[Vec<u8>]| program_time("cases_facts", &step_list(Kind::Facts, values));
    let reference = |values: &[Vec<u8>]| {
        fastest(|| {
            black_box(compare(values));
        })
    };
    let pairs = compare(&different) - compare(&one);
    let ours = program(&different) - program(&one);
    let theirs = reference(&different) - reference(&one);
    println!(
        "{kind}: 1,000 pairs of facts or arguments compared {:.1} us, ratio to the reference {:.2}",
        ours * 1_000.0 / pairs as f64,
        ours / theirs
    );
}

fn main() {
    KINDS.iter().for_each(|kind| ruling(kind));
    KINDS.iter().for_each(|kind| comparison(kind));
}
