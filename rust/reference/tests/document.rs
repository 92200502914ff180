//! Document 01's own cases, from its own hexadecimal and words.

use reference::calls::{check, draw, Outcome};

const PROTOCOL: &str = "00 01 01 00 01 01 01 01 00 00 00 01 04 00 00 01 02 00 00";
const PROPERTY: &str = "0C 02 00 03 04 00 00 01 0C 01 03 03 00 00 02 00";
const GRAPH: &str = "04 00 02 07 1F 02 07 01 02 07 02 02 07 03 01 01 02 01 02 01 03 01 03 01 04 01";

fn bytes(words: &str) -> Vec<u8> {
    let byte = |word| u8::from_str_radix(word, 16).unwrap();
    words.split_whitespace().map(byte).collect()
}

fn line(protocol: &str, property: &str, graph: &str) -> String {
    let mut work = vec![0xFF; 65_536];
    let outcome = check(&bytes(protocol), &bytes(property), &bytes(graph), &mut work);
    assert!(work.iter().all(|byte| *byte == 0));
    outcome.to_string()
}

#[test]
fn the_hexadecimal_case() {
    assert_eq!(line(PROTOCOL, PROPERTY, GRAPH), "attack 4 2 3");
}

#[test]
fn without_its_last_edge() {
    let graph = "04 00 02 07 1F 02 07 01 02 07 02 02 07 02 01 01 02 01 02 01 03 01";
    assert_eq!(line(PROTOCOL, PROPERTY, graph), "refused 12 4");
}

#[test]
fn no_nodes_and_false() {
    assert_eq!(line(PROTOCOL, "00", "00 00"), "attack 0 0 0");
    assert_eq!(line("00 00 00", "00", "00 00"), "attack 0 0 0");
}

/// The steps of the hexadecimal case give its graph again.
#[test]
fn the_hexadecimal_case_is_drawn() {
    let graph = bytes(GRAPH);
    let steps = &graph[..13];
    let mut output = vec![0xEE; 40];
    let outcome = draw(&bytes(PROTOCOL), steps, &mut output, &mut [1; 65_536]);
    assert_eq!(outcome, Outcome::Written(26));
    assert_eq!(output[..26], graph);
    assert_eq!(output[26..], [0xEE; 14]);
}

/// A step list that makes the fresh names from 0 on, one a node.
fn names(count: u32) -> Vec<u8> {
    let mut steps = Vec::new();
    reference::number::write(count, &mut steps);
    for name in 0..count {
        steps.extend([0, 2]);
        reference::number::write(name, &mut steps);
    }
    steps
}

fn drawn(steps: &[u8]) -> String {
    let (mut output, mut work) = (vec![0; 61_440], vec![1; 65_536]);
    draw(&[0, 0, 0], steps, &mut output, &mut work).to_string()
}

#[test]
fn nodes_512_and_513() {
    let length = names(512).len() + 1;
    assert_eq!(drawn(&names(512)), format!("written {length}"));
    assert_eq!(drawn(&names(513)), "refused 3 5");
}

/// Rule 3 makes p0 known, and rule 8 applies h so many times; the last value has that many symbols.
fn hashes(symbols: usize) -> Vec<u8> {
    let mut steps = Vec::new();
    reference::number::write(symbols as u32 + 1, &mut steps);
    steps.extend([3, 1, 0]);
    for depth in 0..symbols {
        steps.push(8);
        steps.extend(vec![6; depth]);
        steps.extend([1, 0]);
    }
    steps
}

#[test]
fn symbols_128_and_129_in_a_value() {
    assert!(drawn(&hashes(128)).starts_with("written"));
    assert_eq!(drawn(&hashes(129)), "refused 7 130");
}

#[test]
fn k_used_twice() {
    let steps = bytes("03 03 01 00 08 01 00 08 01 00");
    assert_eq!(drawn(&steps), "written 19");
    let graph = "03 03 01 00 08 01 00 08 01 00 02 01 01 02 01 01 01 03 01";
    assert_eq!(line("00 00 00", "00", graph), "attack 3 0 2");
}

/// A rule that sends p0 once; the intruder receives it twice.
#[test]
fn one_out_received_twice() {
    let protocol = "00 00 01 00 00 00 01 02 01 00";
    let graph = "03 1F 01 01 00 01 01 00 02 01 01 02 01 01 01 03 01";
    assert_eq!(line(protocol, "00", graph), "refused 13 1");
}

/// "treating two equal linear premises as one": a rule takes Fr(x) twice, which is there once; another takes
/// In(x) twice, which is there twice.
#[test]
fn two_equal_linear_premises() {
    let protocol = "00 00 02 01 01 02 00 00 00 00 00 00 00 00 01 00 02 01 00 00 01 00 00 00 00";
    let steps = |words: &str| {
        let (mut output, mut work) = (vec![0; 100], vec![1; 65_537]);
        let outcome = draw(&bytes(protocol), &bytes(words), &mut output, &mut work);
        assert!(work.iter().all(|byte| *byte == 0));
        outcome.to_string()
    };
    assert_eq!(steps("02 00 02 07 1F 02 07"), "refused 14 2");
    assert_eq!(steps("03 03 01 00 02 01 00 20 01 00"), "refused 14 3");
    assert_eq!(
        steps("04 03 01 00 02 01 00 02 01 00 20 01 00"),
        "written 30"
    );
    let one_source = "04 03 01 00 02 01 00 02 01 00 20 01 00 \
                      04 01 01 02 01 01 01 03 01 02 01 04 01 02 01 04 02";
    assert_eq!(line(protocol, "00", one_source), "refused 13 2");
    let two_sources = "04 03 01 00 02 01 00 02 01 00 20 01 00 \
                       04 01 01 02 01 01 01 03 01 02 01 04 02 03 01 04 01";
    assert_eq!(line(protocol, "00", two_sources), "attack 4 2 4");
}

/// "dropping silent nodes from edge numbers": node 2 is the only one with an action.
#[test]
fn silent_nodes_are_counted() {
    let graph = "02 03 01 00 02 01 00 01 01 01 02 01";
    assert_eq!(line("00 00 00", "00", graph), "attack 2 1 1");
}
