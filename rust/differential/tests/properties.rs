//! Properties beside the reference: the test program over random inputs from a fixed seed, mostly good ones, some
//! damaged, and over the longest traces.

use differential::{fill_input, program_agrees, Shares};
use reference::by_words;
use reference::calls::Outcome;
use reference::cases::{property_case, trace, Case};
use reference::generate::judging::judge_input;
use reference::judge;
use reference::notation;
use reference::random::Random;
use reference::refusal::File;
use reference::steps::MOST_NODES;

const ROUNDS: usize = 40;
/// The most assignments for which the words of a property are asked too.
const CHEAP: f64 = 20_000.0;

/// A protocol, a property and a step list within their files' byte limits.
fn random_property(random: &mut Random) -> Case {
    loop {
        let input = judge_input(random);
        let within = input.protocol.len() <= File::Protocol.limit()
            && input.property.len() <= File::Property.limit()
            && input.steps.len() <= File::Steps.limit();
        if within {
            return property_case("", input.protocol, &input.property, &input.steps);
        }
    }
}

#[test]
fn properties_beside_the_reference() {
    let mut random = Random::new(31);
    let mut shares = Shares::default();
    let (mut by_the_words, mut by_the_trace) = (0, 0);
    for _ in 0..ROUNDS {
        let cases = fill_input(|| random_property(&mut random));
        for case in &cases {
            match case.property() {
                Ok((property, nodes)) => {
                    let trace = trace(&nodes);
                    let truth = judge::holds(&trace, &[], &property);
                    shares.count(truth.to_string());
                    by_the_trace += usize::from(truth != judge::holds(&[], &[], &property));
                    if by_words::cost(&trace, &property) <= CHEAP {
                        assert_eq!(by_words::holds(&trace, &property), truth);
                        by_the_words += 1;
                    }
                }
                Err(refusal) => shares.add(Outcome::Refused(refusal)),
            }
        }
        program_agrees("cases_properties", &cases);
    }
    shares.print("properties");
    println!("by the words too     {by_the_words:8}");
    println!("not as without nodes {by_the_trace:8}");
    assert!(by_the_words > 2_000 && by_the_trace > 1_500);
    shares.at_least(3_500, &["true", "false"]);
    shares.at_least(100, &["refused 3 file 2", "refused 5"]);
    shares.at_least(
        25,
        &["refused 3 file 5", "refused 7", "refused 8", "refused 9"],
    );
}

/// As many nodes as are allowed, node k by `node`, numbered from 0.
fn longest(node: impl Fn(usize) -> String) -> Vec<u8> {
    let nodes: Vec<String> = (0..MOST_NODES as usize).map(node).collect();
    notation::bytes(&format!("80 04 {}", nodes.join(" ")))
}

fn last(k: usize) -> bool {
    k + 1 == MOST_NODES as usize
}

/// Rule 31 takes eight values in and records them eight times, each time from another one on.
fn turning() -> Vec<u8> {
    let turned = |first: usize| {
        let values = (0..8).map(|k| format!("x{}", (first + k) % 8));
        format!("04 {}", values.collect::<Vec<String>>().join(" "))
    };
    let actions: Vec<String> = (0..8).map(turned).collect();
    let premises: Vec<String> = (0..8).map(|k| format!("01 x{k}")).collect();
    let rule = format!(
        "08 8*( 00 ) 08 {} 08 {} 00",
        premises.join(" "),
        actions.join(" ")
    );
    notation::bytes(&format!("00 01 08 00 01 {rule}"))
}

/// A node of rule 31 with eight names that no other node has.
fn eight_names(k: usize) -> String {
    let names = (8 * k..8 * k + 8).map(|name| format!("n{name}"));
    format!("1F {}", names.collect::<Vec<String>>().join(" "))
}

/// The label is the outcome by document 01.
#[test]
fn the_longest_traces_beside_the_reference() {
    let least = notation::bytes("00 00 00");
    let known = |label: &str, property: &str, node: &dyn Fn(usize) -> String| {
        property_case(
            label,
            least.clone(),
            &notation::bytes(property),
            &longest(node),
        )
    };
    let turned = |label: &str, property: &str, node: &dyn Fn(usize) -> String| {
        property_case(label, turning(), &notation::bytes(property), &longest(node))
    };
    // Different times have different messages.
    let different = "0C 02 00 03 03 x0 01 0C 02 00 03 03 x2 03 0A 05 01 03 02 x0 x2";
    // Each message comes again at another time.
    let again = "0C 02 00 03 03 x0 01 0B 01 03 03 x0 02 06 01 02";
    // There is a time that is before none.
    let behind_all = "0B 02 00 03 03 x0 01 0C 02 00 03 03 x2 03 04 01 03";
    // Where the first and the last of eight are the same message, false.
    let ends = "0C 08 00 00 00 00 00 00 00 03 04 x0 x1 x2 x3 x4 x5 x6 x0 07 00";
    // There is one with p0 first whose second and last differ.
    let name_first = "0B 08 00 00 00 00 00 00 00 03 04 p0 x0 x1 x2 x3 x4 x5 x6 07 02 x0 x6";
    let cases = [
        known("true 512", different, &|k| format!("02 n{k}")),
        known("false 512", different, &|k| format!("02 n{}", k % 511)),
        known("true 512", again, &|k| format!("02 n{}", k % 256)),
        known("false 512", again, &|k| {
            format!("02 n{}", k % 255 + usize::from(last(k)) * 255)
        }),
        known("true 512", behind_all, &|k| format!("02 n{k}")),
        known("true 256", behind_all, &|k| {
            format!("{} p{k}", if k % 2 == 0 { "02" } else { "03" })
        }),
        turned("true 512", ends, &eight_names),
        turned("false 512", ends, &|k| {
            if last(k) {
                "1F n0 n1 n2 n3 n4 n5 n6 n0".to_string()
            } else {
                eight_names(k)
            }
        }),
        turned("false 512", name_first, &eight_names),
        turned("true 512", name_first, &|k| {
            if last(k) {
                "1F n0 n1 n2 n3 n4 n5 n6 p0".to_string()
            } else {
                eight_names(k)
            }
        }),
    ];
    for case in cases {
        assert_eq!(case.outcome(), case.label);
        program_agrees("cases_properties", &[case]);
    }
}
