//! No decision of its own. Linked with a core that always answers `refused 99 0`, the tool says only that; with one that always answers
//! `attack` or `run`, it exits with 70 where its reading differs. `tests/tool` builds that program and runs these.

mod common;

use common::*;
use std::path::{Path, PathBuf};
use std::process::{Command, Output};

const REFUSED_99: &str = "0000006300000000";
const ATTACK: &str = "0100000100020003";
const RUN: &str = "0200000100020003";

fn other_core(answer: &str, check_only: bool, arguments: &[&str], directory: &Path) -> Output {
    let program = std::env::var("LEVTOSZIV_OTHER_CORE").expect("tests/tool says where it is");
    let mut command = Command::new(program);
    command
        .args(arguments)
        .current_dir(directory)
        .env("CORE_ANSWER", answer);
    if check_only {
        command.env("CORE_CHECK_ONLY", "1");
    }
    command.output().unwrap()
}

/// Folders with a graph.
fn folders() -> Vec<PathBuf> {
    let of = |place: &str| std::fs::read_dir(root().join(place)).unwrap();
    let all = of("tests/corpus/real").chain(of("examples"));
    let all = all.map(|entry| entry.unwrap().path());
    all.filter(|folder| folder.join("graph.bin").exists())
        .collect()
}

#[test]
#[ignore = "tests/tool builds the program that this needs"]
fn a_core_that_refuses_all() {
    for folder in folders() {
        let said = |arguments: &[&str]| other_core(REFUSED_99, false, arguments, &folder);
        assert_eq!(
            stdout(&said(&["check", ".", "--format", "line"])),
            "refused 99 0\n"
        );
        let name = folder.file_name().unwrap().to_string_lossy().into_owned();
        let words = said(&["check", ".", "--fail-on", "refused"]);
        assert_eq!(stdout(&words), format!("{name} / property: refused 99 0\n"));
        assert_eq!(words.status.code(), Some(11));
        let json = stdout(&said(&["check", ".", "--json"]));
        let case =
            format!("{{\"case\":\"{name}\",\"property\":\"property\",\"line\":\"refused 99 0\"");
        let expected = case + ",\"ruling\":\"refused\",\"refusal\":99,\"item\":0,\"words\":[]}\n";
        assert_eq!(json, expected);
        assert_eq!(
            stdout(&said(&["draw", "."])),
            format!("{name}: refused 99 0\n")
        );
        let dot = std::env::temp_dir().join(format!("levtosziv-{}.dot", std::process::id()));
        said(&["picture", ".", dot.to_str().unwrap()]);
        let picture = std::fs::read_to_string(&dot).unwrap();
        std::fs::remove_file(dot).unwrap();
        assert!(picture.contains(": refused 99 0"));
        assert!(!picture.contains("penwidth=2") && !picture.contains("penwidth=4"));
    }
}

#[test]
#[ignore = "tests/tool builds the program that this needs"]
fn a_page_with_another_core() {
    let folder = folder("honest-page");
    let case = root().join("examples/dh-man-in-the-middle");
    let page = |answer: &str, code: i32| {
        let arguments = ["page", case.to_str().unwrap(), "page.html"];
        let output = other_core(answer, true, &arguments, &folder);
        assert_eq!(output.status.code(), Some(code), "{output:?}");
        std::fs::read_to_string(folder.join("page.html")).unwrap()
    };
    for (page, line) in [
        (page(REFUSED_99, 0), "refused 99 0"),
        (page(RUN, 70), "run 1 2 3"),
    ] {
        assert!(page.contains(&format!("<span class=\"ruling\">{line}</span>")));
        for own in [
            "An attack:",
            "No attack:",
            "Refused:",
            "<li>",
            "class=\"witness\"",
        ] {
            assert!(!page.contains(own), "{line}: {own}");
        }
    }
}

#[test]
#[ignore = "tests/tool builds the program that this needs"]
fn texts_with_a_core_that_refuses_all() {
    let folder = folder("honest");
    let text = root().join("examples/dh-man-in-the-middle/theory.lev");
    std::fs::copy(text, folder.join("dh.lev")).unwrap();
    let said = |arguments: &[&str]| other_core(REFUSED_99, false, arguments, &folder);
    let refused = "man_in_the_middle / secret: refused 99 0\n";
    assert_eq!(stdout(&said(&["check", "dh.lev"])), refused);
    assert_eq!(
        stdout(&said(&["draw", "dh.lev"])),
        "man_in_the_middle: refused 99 0\n"
    );
    assert_eq!(stdout(&said(&["build", "dh.lev", "out"])), refused);
    assert!(!folder.join("out/graph.bin").exists());
    assert_eq!(stdout(&said(&["term", "inv(one)"])), "refused 99 0\n");
    for arguments in [
        ["rules", "dh.lev"],
        ["fmt", "dh.lev"],
        ["show", "out"],
        ["explain", "12"],
    ] {
        let output = said(&arguments);
        assert_eq!(output.status.code(), Some(0), "{arguments:?}");
        assert!(!stdout(&output).contains("attack"), "{arguments:?}");
    }
}

#[test]
#[ignore = "tests/tool builds the program that this needs"]
fn batches_with_another_core() {
    let real = root().join("tests/corpus/real");
    let all = folders()
        .into_iter()
        .filter(|folder| folder.starts_with(&real));
    let all: Vec<String> = all
        .map(|folder| folder.to_string_lossy().into_owned())
        .collect();
    assert!(all.len() > 30);
    let mut arguments = vec!["batch"];
    arguments.extend(all.iter().map(String::as_str));
    for (answer, line) in [
        (REFUSED_99, "refused 99 0"),
        (ATTACK, "attack 1 2 3"),
        (RUN, "run 1 2 3"),
    ] {
        let said = stdout(&other_core(answer, false, &arguments, &real));
        let line = format!("\"line\":\"{line}\"");
        assert_eq!(said.matches(&line).count(), all.len(), "{said}");
        assert_eq!(said.matches("\"line\":").count(), all.len(), "{said}");
    }
}

#[test]
#[ignore = "tests/tool builds the program that this needs"]
fn a_core_that_says_the_opposite() {
    let mut told = 0;
    for folder in folders() {
        let expected = std::fs::read_to_string(folder.join("expected.txt")).unwrap();
        let (answer, line) = match expected.split(' ').next().unwrap() {
            "attack" => (RUN, "run 1 2 3\n"),
            "run" => (ATTACK, "attack 1 2 3\n"),
            _ => continue,
        };
        let line_of = other_core(answer, true, &["check", ".", "--format", "line"], &folder);
        assert_eq!(stdout(&line_of), line);
        assert_eq!(line_of.status.code(), Some(70), "{folder:?}");
        let words = other_core(answer, true, &["check", "."], &folder);
        assert_eq!(stdout(&words).lines().count(), 1, "{folder:?}");
        assert_eq!(words.status.code(), Some(70));
        told += 1;
    }
    assert!(told >= 20, "{told}");
}
