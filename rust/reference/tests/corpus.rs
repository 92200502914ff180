//! Every case of the corpus: its outcome and all lent bytes.

use reference::calls::{canonical_form, check, draw, fit_protocol, ruled_graph, Outcome};
use reference::corpus::{cases, expected_memory, Case, INDEX, OUTPUT_BYTE, WORK_BYTE};
use reference::earliest::is_earliest;
use reference::generate::runs::{edges_by, latest};
use reference::protocol::{Protocol, Rule};
use reference::refusal::Refusal;
use std::path::{Path, PathBuf};

/// What the call answers, and the output and the work area after it. What they held before is no zero.
fn call(case: &Case) -> (Outcome, Vec<u8>, Vec<u8>) {
    let mut output = vec![OUTPUT_BYTE; case.output];
    let mut work = vec![WORK_BYTE; case.work];
    let (output_part, work_part) = (&mut output[..], &mut work[..]);
    let outcome = match (case.kind, &case.files[..]) {
        (0, [protocol, property, graph]) => check(protocol, property, graph, work_part),
        (1, [protocol, steps]) => draw(protocol, steps, output_part, work_part),
        (2, [protocol, term]) => canonical_form(protocol, term, output_part, work_part),
        _ => panic!("no such call"),
    };
    (outcome, output, work)
}

#[test]
fn every_case_of_the_corpus() {
    let cases = cases();
    assert_eq!(cases.len(), INDEX.lines().count());
    let mut different = Vec::new();
    for (case, label) in cases.iter().zip(INDEX.lines()) {
        let (outcome, output, work) = call(case);
        if outcome != case.outcome || (output, work) != expected_memory(case) {
            different.push(format!("{label}: {outcome}, not {}", case.outcome));
        }
    }
    assert!(different.is_empty(), "{different:#?}");
}

/// The cases that record a variable which no premise has: P5 alone refuses them, and `four` is their outcome by P1 to P4.
#[test]
fn cases_that_break_the_fifth_condition_alone() {
    let cases = cases();
    let mut broken = 0;
    for (case, label) in cases.iter().zip(INDEX.lines()) {
        if !label.contains("\"four\": ") {
            continue;
        }
        let Outcome::Refused(Refusal { number: 4, item }) = case.outcome else {
            panic!("{label}");
        };
        let rules = Protocol::read(case.files[0]).expect(label).rules;
        let (before, rest) = rules.split_at(item as usize - 1);
        assert!(before.iter().all(Rule::meets_conditions), "{label}");
        let only_fifth = [true, true, true, true, false];
        assert_eq!(rest[0].conditions(), only_fifth, "{label}");
        broken += 1;
    }
    assert_eq!(broken, 93);
}

/// The bytes that the corpus expects of drawing hold the earliest sources by their words; often there are other fit ones.
#[test]
fn drawn_graphs_have_the_earliest_sources() {
    let (mut drawn, mut choices) = (0, 0);
    for (case, label) in cases().iter().zip(INDEX.lines()) {
        let (1, Outcome::Written(_)) = (case.kind, case.outcome) else {
            continue;
        };
        let protocol = fit_protocol(case.files[0]).expect(label);
        let (nodes, edges) = ruled_graph(&protocol, case.written).expect(label);
        assert!(is_earliest(&protocol, &nodes, &edges), "{label}");
        choices += usize::from(edges_by(&protocol, &nodes, latest) != Some(edges));
        drawn += 1;
    }
    assert_eq!((drawn, choices), (121, 27));
}

/// The line for the three files of a folder, or for its steps where it has no graph.
fn line(folder: &Path) -> String {
    let file = |name: &str| std::fs::read(folder.join(name)).unwrap();
    let mut work = vec![1; 65_536];
    let protocol = file("protocol.bin");
    let outcome = if folder.join("graph.bin").exists() {
        let (property, graph) = (file("property.bin"), file("graph.bin"));
        check(&protocol, &property, &graph, &mut work)
    } else {
        draw(&protocol, &file("steps.bin"), &mut [0; 61_440], &mut work)
    };
    outcome.to_string()
}

fn real_folders() -> Vec<PathBuf> {
    let real = Path::new(env!("CARGO_MANIFEST_DIR")).join("../../tests/corpus/real");
    let entries = std::fs::read_dir(real).unwrap();
    let paths = entries.map(|entry| entry.unwrap().path());
    paths.filter(|path| path.is_dir()).collect()
}

#[test]
fn every_real_protocol() {
    let folders = real_folders();
    assert_eq!(folders.len(), 55);
    for folder in folders {
        let expected = std::fs::read_to_string(folder.join("expected.txt")).unwrap();
        assert_eq!(line(&folder), expected.trim_end(), "{}", folder.display());
    }
}

/// An accepted graph of the corpus has the edges that the writer draws from its steps.
#[test]
fn every_real_graph_is_drawn_again() {
    let mut drawn = 0;
    for folder in real_folders() {
        if line(&folder).starts_with("refused") {
            continue;
        }
        let file = |name: &str| std::fs::read(folder.join(name)).unwrap();
        let (mut output, mut work) = (vec![0; 61_440], vec![1; 65_536]);
        let outcome = draw(
            &file("protocol.bin"),
            &file("steps.bin"),
            &mut output,
            &mut work,
        );
        let graph = file("graph.bin");
        assert_eq!(outcome, Outcome::Written(graph.len() as u32));
        assert_eq!(output[..graph.len()], graph, "{}", folder.display());
        drawn += 1;
    }
    assert_eq!(drawn, 42);
}
