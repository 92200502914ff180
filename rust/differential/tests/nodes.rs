//! Step lists and the facts of their nodes beside the reference: the test programs over random inputs from a
//! fixed seed, mostly good ones, some damaged.

use differential::{fill_input, program_agrees, Shares};
use reference::calls::Outcome;
use reference::cases::{facts, Case, Kind};
use reference::generate::graphs::draw_input;
use reference::random::Random;
use reference::refusal::File;

const ROUNDS: usize = 40;
/// The facts and arguments that cases_facts has room for.
const MOST_FACTS: usize = 64;
const MOST_ARGUMENTS: usize = 256;

/// A protocol and a step list within their files' byte limits.
fn step_list(random: &mut Random) -> Case {
    loop {
        let input = draw_input(random);
        let within = input.protocol.len() <= File::Protocol.limit()
            && input.steps.len() <= File::Steps.limit();
        if within {
            return Case {
                kind: Kind::Steps,
                label: String::new(),
                under: input.protocol,
                bytes: input.steps,
            };
        }
    }
}

fn has_few_facts(case: &Case) -> bool {
    let Ok(nodes) = case.nodes() else {
        return true;
    };
    let facts = facts(&nodes);
    let arguments: usize = facts.iter().map(|fact| fact.terms.len()).sum();
    facts.len() <= MOST_FACTS && arguments <= MOST_ARGUMENTS
}

#[test]
fn nodes_beside_the_reference() {
    let mut random = Random::new(29);
    let mut shares = Shares::default();
    let mut compared = 0;
    for _ in 0..ROUNDS {
        let mut cases = fill_input(|| step_list(&mut random));
        for case in &cases {
            match case.nodes() {
                Ok(_) => shares.count("good".to_string()),
                Err(refusal) => shares.add(Outcome::Refused(refusal)),
            }
        }
        program_agrees("cases_steps", &cases);
        cases.retain(has_few_facts);
        cases.iter_mut().for_each(|case| case.kind = Kind::Facts);
        program_agrees("cases_facts", &cases);
        compared += cases.len();
    }
    shares.print("step lists");
    println!("facts compared       {compared:8}");
    shares.at_least(2_500, &["good"]);
    let refusals = [
        "refused 3 file 1",
        "refused 3 file 5",
        "refused 4",
        "refused 6",
        "refused 7",
        "refused 8",
        "refused 9",
    ];
    shares.at_least(100, &refusals);
}
