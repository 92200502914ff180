//! The corpus through the proved calls: outcome and every lent byte. And its graphs through their test program.

use differential::{outcome, program, ruled};
use reference::cases::{data, Case, Kind};
use reference::corpus::{cases, expected_memory, INDEX, OUTPUT_BYTE, WORK_BYTE};
use std::path::Path;

#[test]
fn every_canonical_form_of_the_corpus() {
    let mut run = 0;
    for (case, label) in cases().iter().zip(INDEX.lines()) {
        let (2, [protocol, term]) = (case.kind, &case.files[..]) else {
            continue;
        };
        let (mut output, mut work) = (vec![OUTPUT_BYTE; case.output], vec![WORK_BYTE; case.work]);
        let answer = outcome(levtosziv::canonical_form(
            protocol,
            term,
            &mut output,
            &mut work,
        ));
        assert_eq!(answer, case.outcome, "{label}");
        assert_eq!((output, work), expected_memory(case), "{label}");
        run += 1;
    }
    assert_eq!(run, 176);
}

/// Length, need and every byte drawn: the earliest source leaves no choice.
#[test]
fn every_draw_of_the_corpus() {
    let mut run = 0;
    for (case, label) in cases().iter().zip(INDEX.lines()) {
        let (1, [protocol, steps]) = (case.kind, &case.files[..]) else {
            continue;
        };
        let (mut output, mut work) = (vec![OUTPUT_BYTE; case.output], vec![WORK_BYTE; case.work]);
        let answer = outcome(levtosziv::draw(protocol, steps, &mut output, &mut work));
        assert_eq!(answer, case.outcome, "{label}");
        assert_eq!((output, work), expected_memory(case), "{label}");
        run += 1;
    }
    assert_eq!(run, 286);
}

#[test]
fn every_check_of_the_corpus() {
    let mut run = 0;
    for (case, label) in cases().iter().zip(INDEX.lines()) {
        let (0, [protocol, property, graph]) = (case.kind, &case.files[..]) else {
            continue;
        };
        let mut work = vec![WORK_BYTE; case.work];
        let answer = ruled(levtosziv::check(protocol, property, graph, &mut work));
        assert_eq!(answer, case.outcome, "{label}");
        assert_eq!(work, expected_memory(case).1, "{label}");
        run += 1;
    }
    println!("checks of the corpus: {run}");
    assert_eq!(run, 454);
}

/// What the test program says of a graph that is checked with this outcome. Nothing, where the outcome is about
/// the work area, a file's byte limit or the property.
fn graph_outcome(outcome: &str) -> Option<String> {
    match outcome.split(' ').collect::<Vec<&str>>()[..] {
        ["attack" | "run", nodes, _, edges] => Some(format!("good {nodes} {edges}")),
        ["refused", "1" | "2" | "5", _] | ["refused", "3", "2"] => None,
        _ => Some(outcome.to_string()),
    }
}

/// One where the outcome is about the graph and is what the program says.
fn graph_agrees(protocol: &[u8], graph: &[u8], outcome: &str, label: &str) -> usize {
    let Some(outcome) = graph_outcome(outcome) else {
        return 0;
    };
    let case = Case {
        kind: Kind::Graph,
        label: label.to_string(),
        under: protocol.to_vec(),
        bytes: graph.to_vec(),
    };
    let line = program("cases_graphs", &data(&[case]));
    assert_eq!(line, format!("1 {outcome}\n"), "{label}");
    1
}

#[test]
fn every_graph_of_the_corpus() {
    let mut run = 0;
    for (case, label) in cases().iter().zip(INDEX.lines()) {
        if let (0, [protocol, _, graph]) = (case.kind, &case.files[..]) {
            run += graph_agrees(protocol, graph, &case.outcome.to_string(), label);
        }
    }
    assert_eq!(run, 346);
}

#[test]
fn every_graph_of_a_real_protocol() {
    let real = Path::new(env!("CARGO_MANIFEST_DIR")).join("../../tests/corpus/real");
    let mut run = 0;
    for entry in std::fs::read_dir(real).unwrap() {
        let folder = entry.unwrap().path();
        let file = |name: &str| std::fs::read(folder.join(name));
        if let Ok(graph) = file("graph.bin") {
            let expected = std::fs::read_to_string(folder.join("expected.txt")).unwrap();
            let (protocol, label) = (file("protocol.bin").unwrap(), folder.to_string_lossy());
            run += graph_agrees(&protocol, &graph, expected.trim_end(), &label);
        }
    }
    assert_eq!(run, 44);
}
