//! Every case of tests/corpus and every example: the line, text and back, a diagnosis at the item, the actions of an attack.

mod common;

use common::*;
use reference::calls::{Outcome, WORK_AREA};
use reference::corpus;
use std::path::Path;
use tool::answer::answer;
use tool::kernel::{Kernel, Ruling};
use tool::witness::Reading;

/// What is asked of the case in a folder, beside its line.
fn explained(folder: &Path) {
    let case = case_of(folder);
    if let Some([protocol, property, graph]) = through_text(&case) {
        assert_eq!(protocol, case.protocol_bytes, "{folder:?}");
        assert_eq!(property, case.property_bytes, "{folder:?}");
        assert_eq!(graph, case.graph_bytes, "{folder:?}");
    }
    let answer = answer(&case);
    assert_ne!(answer.reading, Reading::Differs, "{folder:?}");
    if let Err(refusal) = answer.ruling {
        let reasons = &answer.diagnosis.as_ref().unwrap().reasons;
        assert!(!reasons.is_empty(), "{folder:?}: refused {refusal:?}");
    }
    if let Ok(Ruling::Attack(_)) = answer.ruling {
        assert!(answer.witness().is_some(), "{folder:?}");
    }
}

#[test]
fn checked() {
    let folder = folder("corpus-checked");
    let cases = corpus::cases();
    let checked = cases.iter().filter(|c| c.kind == 0 && c.work >= WORK_AREA);
    let (mut count, mut laid_out) = (0, 0);
    for case in checked {
        let [protocol, property, graph] = case.files[..] else {
            panic!("checking is given three files")
        };
        put(
            &folder,
            &[
                ("protocol.bin", protocol),
                ("property.bin", property),
                ("graph.bin", graph),
            ],
        );
        let line = levtosziv(&["check", ".", "--format", "line"], &folder);
        assert_eq!(stdout(&line), format!("{}\n", case.outcome));
        assert_eq!(line.status.code(), Some(0));
        explained(&folder);
        count += 1;
        laid_out += usize::from(through_text(&case_of(&folder)).is_some());
    }
    assert!(count >= 280 && laid_out >= 200, "{count}, {laid_out}");
}

#[test]
fn drawn() {
    let folder = folder("corpus-drawn");
    let cases = corpus::cases();
    let enough = |c: &&corpus::Case| c.kind == 1 && c.work >= WORK_AREA && c.output >= 61_440;
    let mut count = 0;
    for case in cases.iter().filter(enough) {
        let [protocol, steps] = case.files[..] else {
            panic!("drawing is given two files")
        };
        put(&folder, &[("protocol.bin", protocol), ("steps.bin", steps)]);
        let output = folder.join("graph.out");
        let _ = std::fs::remove_file(&output);
        let said = levtosziv(&["draw", ".", "-o", "graph.out"], &folder);
        match case.outcome {
            Outcome::Written(_) => {
                assert_eq!(std::fs::read(&output).unwrap(), case.written);
            }
            refused => {
                let line = stdout(&said).lines().next().unwrap().to_string();
                assert_eq!(line, format!("corpus-drawn: {refused}"));
                assert!(!output.exists());
            }
        }
        count += 1;
    }
    assert!(count >= 120, "{count}");
}

#[test]
fn terms() {
    for case in corpus::cases().iter().filter(|c| c.kind == 2) {
        let [protocol_bytes, term_bytes] = case.files[..] else {
            panic!("canonical form is given two files")
        };
        let Ok(protocol) = tool::bytes::protocol(protocol_bytes) else {
            continue;
        };
        let Ok(term) = tool::bytes::term(term_bytes, &protocol) else {
            continue;
        };
        let names = tool::model::Names::generated(&protocol);
        let text = tool::print::Style::of(&names).term(&term);
        let declared = tool::print::protocol(&protocol, &names);
        let theory = tool::text::parse(&declared).unwrap();
        let (again, _) = tool::text::parse_term(&text, Some(&theory)).unwrap();
        assert_eq!(again, term, "{text}");
        let mut kernel = Kernel::new(protocol_bytes);
        if let (Outcome::Written(_), Ok(form)) = (case.outcome, kernel.canonical(&term, &protocol))
        {
            assert_eq!(tool::bytes::encode_term(&form.unwrap()), case.written);
        }
    }
}

/// The folders that have a graph, of real protocols and of examples.
fn folders() -> Vec<std::path::PathBuf> {
    let of = |place: &str| std::fs::read_dir(root().join(place)).unwrap();
    let all = of("tests/corpus/real").chain(of("examples"));
    let all = all.map(|entry| entry.unwrap().path());
    all.filter(|folder| folder.join("expected.txt").exists())
        .collect()
}

#[test]
fn real_protocols_and_examples() {
    let all = folders();
    assert!(all.len() >= 29, "{}", all.len());
    for folder in all {
        let expected = std::fs::read_to_string(folder.join("expected.txt")).unwrap();
        let line = levtosziv(&["check", ".", "--format", "line"], &folder);
        match expected.strip_prefix("draw: ") {
            None => assert_eq!(stdout(&line), expected, "{folder:?}"),
            Some(refused) => assert_eq!(stdout(&line), refused, "{folder:?}"),
        }
        explained(&folder);
    }
}

#[test]
fn texts_of_examples_give_their_bytes() {
    let built = folder("built");
    let mut count = 0;
    for example in folders().iter().filter(|f| f.join("theory.lev").exists()) {
        let text = example.join("theory.lev");
        let output = levtosziv(&["build", text.to_str().unwrap(), "."], &built);
        assert_eq!(output.status.code(), Some(0), "{example:?}: {output:?}");
        for name in ["protocol.bin", "property.bin", "graph.bin"] {
            let (here, there) = (built.join(name), example.join(name));
            let same = std::fs::read(here).unwrap() == std::fs::read(there).unwrap();
            assert!(same, "{name} of {example:?}");
        }
        count += 1;
    }
    assert_eq!(count, 9);
}
