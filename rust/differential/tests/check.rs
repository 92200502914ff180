//! Checking beside the reference, over random inputs from a fixed seed, mostly good ones, some damaged.

use differential::sized::{self, GUARDS};
use differential::{check_agrees, side_by_side, Shares};
use reference::calls::Outcome;
use reference::cost;
use reference::generate::graphs;
use reference::random::Random;
use reference::refusal::{File, Refusal};

/// Inputs of one half; the halves run side by side.
const INPUTS: usize = 100_000;

/// One of so many inputs, at most, has a property that may take much longer than a second, and is left out.
const LEFT_OUT: usize = 25_000;

/// The shares, and how many inputs are left out.
fn half(seed: u64) -> (Shares, usize) {
    let mut random = Random::new(seed);
    let mut shares = Shares::default();
    let mut left_out = 0;
    for number in 0..INPUTS {
        let input = graphs::check_input(&mut random);
        if cost::of_files(&input.protocol, &input.property, &input.graph) > cost::A_SECOND {
            left_out += 1;
            continue;
        }
        let outcome = check_agrees(
            &input.protocol,
            &input.property,
            &input.graph,
            input.work,
            number as u64,
        );
        if matches!(outcome, Outcome::Attack(_) | Outcome::Run(_)) {
            shares.add_nodes(File::Graph, &input.protocol, &input.graph);
        }
        shares.add(outcome);
    }
    (shares, left_out)
}

#[test]
fn checking_beside_the_reference() {
    let [(mut shares, left_out), (other, also_left_out)] = side_by_side([12, 13], half);
    shares.merge(other);
    shares.print("checking");
    let left_out = left_out + also_left_out;
    println!("left out: {left_out}");
    assert!(left_out * LEFT_OUT <= 2 * INPUTS);
    shares.together_at_least(2_500, &["attack", "run"]);
    shares.at_least(1_000, &["attack", "run"]);
    let causes = [7, 8, 9, 10, 11, 12, 13].map(|number| format!("refused {number}"));
    shares.at_least(100, &causes.each_ref().map(String::as_str));
    let files = [1, 2, 3].map(|item| [2, 3].map(|number| format!("refused {number} file {item}")));
    let files: Vec<&str> = files.as_flattened().iter().map(String::as_str).collect();
    shares.at_least(50, &files);
    shares.at_least(50, &["refused 1", "refused 4", "refused 5", "refused 6"]);
    shares.long_with_products();
}

/// "The work area is short below 65,536 bytes and never otherwise"; what it holds at entry never matters.
#[test]
fn work_areas_around_the_limit() {
    let files = sized::nested(GUARDS[0], 3, 2);
    for work in [0, 1, 65_534, 65_535, 65_536, 65_537, 131_072, 190_000] {
        for seed in 0..20 {
            let outcome = check_agrees(&files.protocol, &files.property, &files.graph, work, seed);
            let short = matches!(outcome, Outcome::Refused(Refusal { number: 1, item: 0 }));
            assert_eq!(short, work < 65_536, "{work}: {outcome}");
        }
    }
}
