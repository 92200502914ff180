//! The tables of docs/EXAMPLES.md: each run is the case that it names, byte for byte, with the ruling that stands there, and its picture is
//! the one that is shown.

mod common;

use common::*;
use std::collections::BTreeSet;
use std::path::Path;

/// A row of the table of texts.
struct Row {
    text: String,
    run: String,
    picture: String,
    lemma: String,
    ruling: String,
    case: String,
}

/// The cells of each row of the tables, without the marks around them.
fn table(columns: usize) -> Vec<Vec<String>> {
    let page = std::fs::read_to_string(root().join("docs/EXAMPLES.md")).unwrap();
    let rows = page.lines().filter(|line| line.starts_with("| `"));
    let cells = |row: &str| -> Vec<String> {
        let cells = row.trim_matches('|').split(" | ");
        cells
            .map(|cell| cell.trim().trim_matches('`').into())
            .collect()
    };
    rows.map(cells).filter(|row| row.len() == columns).collect()
}

fn rows() -> Vec<Row> {
    let row = |cells: Vec<String>| {
        let (run, picture) = cells[1].split_once("`](").unwrap();
        Row {
            text: cells[0].clone(),
            run: run.trim_start_matches("[`").into(),
            picture: picture.trim_end_matches(')').into(),
            lemma: cells[2].clone(),
            ruling: cells[5].clone(),
            case: cells[6].clone(),
        }
    };
    table(7).into_iter().map(row).collect()
}

fn read(path: &Path) -> Option<Vec<u8>> {
    std::fs::read(path).ok()
}

#[test]
fn each_run_is_its_case() {
    let folder = folder("examples-built");
    for row in rows() {
        let text = root().join("examples").join(&row.text);
        let case = root().join("tests/corpus/real").join(&row.case);
        let which = ["--run", &row.run, "--lemma", &row.lemma];
        let text = text.to_str().unwrap();
        let built = levtosziv(&[&["build", text, "."], &which[..]].concat(), &folder);
        assert_eq!(built.status.code(), Some(0), "{}: {built:?}", row.case);
        for name in ["protocol.bin", "property.bin", "steps.bin", "graph.bin"] {
            let same = read(&folder.join(name)) == read(&case.join(name));
            assert!(same, "{name} of {}", row.case);
        }
        let format = ["--format", "line"];
        let line = levtosziv(&[&["check", text], &which[..], &format].concat(), &folder);
        assert_eq!(stdout(&line), format!("{}\n", row.ruling), "{}", row.case);
        let expected = std::fs::read_to_string(case.join("expected.txt")).unwrap();
        assert_eq!(expected.trim().trim_start_matches("draw: "), row.ruling);
    }
}

/// The words of a picture, which do not depend on how it is laid out.
fn words(picture: &[u8]) -> Vec<String> {
    let picture = String::from_utf8_lossy(picture).into_owned();
    let texts = picture.split("<text ").skip(1);
    let words = texts.map(|text| {
        text.split_once('>')
            .unwrap()
            .1
            .split('<')
            .next()
            .unwrap()
            .into()
    });
    words.collect()
}

#[test]
fn each_picture_is_that_of_its_run() {
    let folder = folder("examples-pictures");
    for row in rows() {
        let text = root().join("examples").join(&row.text);
        let arguments = ["picture", text.to_str().unwrap(), "new.svg", "--simplify"];
        let which = ["--run", &row.run, "--lemma", &row.lemma];
        levtosziv(&[&arguments[..], &which].concat(), &folder);
        let new = words(&read(&folder.join("new.svg")).unwrap());
        let shown = words(&read(&root().join("docs").join(&row.picture)).expect(&row.picture));
        // The caption names the lemma, and one picture may stand for two.
        assert!(new.len() > 20 && new[1..] == shown[1..], "{}", row.picture);
    }
}

#[test]
fn none_is_left_out() {
    let rows = rows();
    for text in example_texts()
        .iter()
        .filter(|text| !text.ends_with("theory.lev"))
    {
        let name = text.file_name().unwrap().to_string_lossy().into_owned();
        let theory = tool::text::parse(&std::fs::read_to_string(text).unwrap()).unwrap();
        let runs: BTreeSet<&str> = theory.runs.iter().map(|run| run.name.as_str()).collect();
        let shown = rows.iter().filter(|row| row.text == name);
        let shown: BTreeSet<&str> = shown.map(|row| row.run.as_str()).collect();
        assert_eq!(runs, shown, "{name}");
    }
    let shown: BTreeSet<&str> = rows.iter().map(|row| row.case.as_str()).collect();
    let real = std::fs::read_dir(root().join("tests/corpus/real")).unwrap();
    for case in real.map(|entry| entry.unwrap().file_name().into_string().unwrap()) {
        let of_sources = [
            "nssk-",
            "otway-rees-",
            "yahalom-",
            "nspk-",
            "nsl-",
            "tmn-",
            "jfkr-",
            "jfki-",
        ];
        if of_sources.iter().any(|system| case.starts_with(system)) {
            assert!(shown.contains(case.as_str()), "{case}");
        }
    }
}

/// The attack on the handset that does not verify, tried on the one that does.
#[test]
fn a_forged_offer_is_no_step_of_the_handset_that_verifies() {
    let folder = folder("examples-forged");
    let read = |name: &str| {
        let text = root().join("examples").join(name).join("theory.lev");
        std::fs::read_to_string(text).unwrap()
    };
    let (verifying, unverified) = (
        read("signed-pairing-run"),
        read("signed-pairing-unverified-attack"),
    );
    let (protocol, _) = verifying.split_once("run honest:").unwrap();
    let (_, steps) = unverified.split_once("run forged_offer:").unwrap();
    let text = format!("{protocol}run forged_offer [fill]: Truth() {steps}");
    put(&folder, &[("t.lev", text.as_bytes())]);
    let said = stdout(&levtosziv(&["check", "t.lev"], &folder));
    assert!(
        said.starts_with("forged_offer / paired: refused 14 14\n"),
        "{said}"
    );
    let missing = "step 14 (Handset) needs !Holds(verify(sign(<'pair', 'g'^~e>, ~e), <'pair', 'g'^~e>, pk(~sk))): in the state: !Holds(true) (step 1)";
    assert!(said.contains(missing), "{said}");
}

#[test]
fn each_folder_has_its_ruling() {
    let rows = table(3);
    for row in &rows {
        let expected = root().join("examples").join(&row[0]).join("expected.txt");
        let expected = std::fs::read_to_string(expected).unwrap();
        assert_eq!(expected.trim(), row[2], "{}", row[0]);
    }
    let folders = example_texts();
    let folders = folders.iter().filter(|text| text.ends_with("theory.lev"));
    assert_eq!(folders.count(), rows.len());
}
