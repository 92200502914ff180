//! The subcommands as a user runs them: what they print, what they write, and their exit codes.

mod common;

use common::*;
use std::path::Path;
use std::process::Command;
use tool::table::ROWS;

const DH: &str = "rule A1: [ Fr(~a) ] --> [ StA(~a), Out('g'^~a) ]
rule A2: [ StA(~a), In(gb) ] --[ KeyA(gb^~a) ]-> [ ]
lemma secret: \"All k #i. KeyA(k) @ #i ==> not (Ex #j. K(k) @ #j)\"
run honest [fill]: A1(~a) let gb = 'g'^~b fresh(~b)
run mitm [fill]: ifresh(~e) A1(~a) A2(~a, 'g'^~e) isend('g'^(~a*~e))
run bad: A1(~a)
";

fn code(arguments: &[&str], directory: &Path) -> Option<i32> {
    levtosziv(arguments, directory).status.code()
}

#[test]
fn exit_codes() {
    let folder = folder("exit-codes");
    put(
        &folder,
        &[
            ("dh.lev", DH.as_bytes()),
            ("bad.lev", b"rule"),
            ("latin.lev", b"// \xE9\n"),
        ],
    );
    assert_eq!(code(&["check", "dh.lev"], &folder), Some(0));
    let fail =
        |run: &str, on: &str| code(&["check", "dh.lev", "--run", run, "--fail-on", on], &folder);
    assert_eq!(fail("mitm", "attack"), Some(10));
    assert_eq!(fail("mitm", "refused"), Some(0));
    assert_eq!(fail("bad", "attack,refused"), Some(11));
    assert_eq!(fail("honest", "attack,refused"), Some(0));
    let both = ["check", "dh.lev", "--fail-on", "refused,attack"];
    assert_eq!(code(&both, &folder), Some(10));
    assert_eq!(code(&["check"], &folder), Some(2));
    assert_eq!(
        code(&["check", "dh.lev", "--run", "none"], &folder),
        Some(2)
    );
    assert_eq!(
        code(&["picture", "dh.lev", "x.bmp", "--run", "mitm"], &folder),
        Some(2)
    );
    assert_eq!(code(&["explain", "16"], &folder), Some(2));
    assert_eq!(code(&["build", "dh.lev", "out"], &folder), Some(2));
    assert_eq!(code(&["check", "bad.lev"], &folder), Some(3));
    assert_eq!(code(&["check", "latin.lev"], &folder), Some(3));
    assert_eq!(code(&["term", "h("], &folder), Some(3));
    assert_eq!(code(&["check", "none.lev"], &folder), Some(4));
    assert_eq!(code(&["fmt", "."], &folder), Some(4));
    let unwritable = ["picture", "dh.lev", "/proc/x.dot", "--run", "mitm"];
    assert_eq!(code(&unwritable, &folder), Some(4));
}

#[test]
fn a_recorded_variable_without_a_premise_is_named() {
    let folder = folder("recorded");
    let theory = "rule A: [ In(x) ] --[ A(x) ]-> [ ]
rule B: [ In(x) ] --[ A(h(y)) ]-> [ ]
rule C: [ ] --[ A($x) ]-> [ ]
lemma l: F
run r:
";
    put(&folder, &[("recorded.lev", theory.as_bytes())]);
    let said = stdout(&levtosziv(&["check", "recorded.lev"], &folder));
    assert!(said.contains("refused 4 2"), "{said}");
    assert!(
        said.contains("P5: y stands in an action of rule B and in no premise"),
        "{said}"
    );
}

#[test]
fn each_refusal_is_explained_by_an_example_that_is_refused_so() {
    let folder = folder("explained");
    for row in ROWS {
        let (number, cause) = (row.cause as u32, row.cause.words());
        let said = stdout(&levtosziv(&["explain", &number.to_string()], &folder));
        assert!(said.starts_with(&format!("refused {number}: {cause}\n")));
        if row.example.is_empty() {
            continue;
        }
        put(&folder, &[("t.lev", row.example.as_bytes())]);
        let output = stdout(&levtosziv(&["check", "t.lev"], &folder));
        let head = format!("error: refused {number} ");
        assert!(output.contains(&head), "{output}");
        assert!(output.contains("--> t.lev:"), "{output}");
        let json = stdout(&levtosziv(&["check", "t.lev", "--json"], &folder));
        assert!(json.contains("\"place\":{\"column\":"), "{json}");
    }
}

#[test]
fn built_files_are_shown_with_their_names() {
    let folder = folder("built-and-shown");
    put(&folder, &[("dh.lev", DH.as_bytes())]);
    assert_eq!(
        code(&["build", "dh.lev", "out", "--run", "mitm"], &folder),
        Some(0)
    );
    let shown = stdout(&levtosziv(&["show", "out"], &folder));
    assert!(
        shown.contains("rule A2:") && shown.contains("isend('g'^(~a*~e))"),
        "{shown}"
    );
    put(&folder, &[("shown.lev", shown.as_bytes())]);
    assert_eq!(code(&["build", "shown.lev", "again"], &folder), Some(0));
    for name in ["protocol.bin", "property.bin", "graph.bin", "steps.bin"] {
        let bytes = |place: &str| std::fs::read(folder.join(place).join(name)).unwrap();
        assert_eq!(bytes("out"), bytes("again"), "{name}");
    }
    let other = DH.replace("StA", "Other").replace("Out('g'^~a)", "Out(~a)");
    put(&folder, &[("other.lev", other.as_bytes())]);
    let refused = levtosziv(&["show", "again", "--names", "other.lev"], &folder);
    assert_eq!(refused.status.code(), Some(4));
    assert_eq!(
        code(&["show", "again", "--names", "dh.lev"], &folder),
        Some(0)
    );
}

/// Two people draw the same steps: one of a run, one of a graph with other edges, one of a folder's steps.bin.
#[test]
fn the_same_steps_give_the_same_file() {
    let folder = folder("same-file");
    let rules = "rule Make: [ ] --> [ L(), L() ]\nrule Take: [ L(), L() ] --> [ ]\nlemma l: F\n";
    let steps = "Make() Make() Take()";
    let mine = format!("{rules}run mine: {steps}\n");
    let yours = format!("{rules}graph yours: {steps} edges: 2.2 -> 3.2, 1.2 -> 3.1\n");
    put(
        &folder,
        &[
            ("mine.lev", mine.as_bytes()),
            ("yours.lev", yours.as_bytes()),
        ],
    );
    assert_eq!(code(&["build", "yours.lev", "built"], &folder), Some(0));
    for input in ["mine.lev", "yours.lev", "built"] {
        let drawn = format!("{input}.bin");
        assert_eq!(code(&["draw", input, "-o", &drawn], &folder), Some(0));
        let graph = std::fs::read(folder.join(&drawn)).unwrap();
        let edges = [2, 1, 1, 3, 1, 1, 2, 3, 2];
        assert_eq!(graph, [&[3, 31, 31, 32][..], &edges].concat(), "{input}");
    }
    let drawn = stdout(&levtosziv(&["draw", "yours.lev"], &folder));
    assert!(drawn.contains("1.1 -> 3.1, 1.2 -> 3.2"), "{drawn}");
    // In checking a graph keeps the edges that it has.
    let kept = std::fs::read(folder.join("built/graph.bin")).unwrap();
    assert_eq!(kept[4..], [2, 2, 2, 3, 2, 1, 2, 3, 1]);
    let line = stdout(&levtosziv(&["check", "built", "--format", "line"], &folder));
    assert_eq!(line, "attack 3 0 2\n");
}

#[test]
fn a_damaged_file_is_shown_at_the_fault() {
    let folder = folder("damaged");
    let example = root().join("examples/printed-case");
    for name in ["protocol.bin", "property.bin", "graph.bin"] {
        std::fs::copy(example.join(name), folder.join(name)).unwrap();
    }
    let mut graph = std::fs::read(folder.join("graph.bin")).unwrap();
    graph[4] = 0x7F;
    put(&folder, &[("graph.bin", &graph)]);
    let shown = levtosziv(&["show", "."], &folder);
    assert_eq!(shown.status.code(), Some(4));
    let expected = "// graph.bin, byte 4: there is no rule 127
//       0:  04 00 02 07 7F 02 07 01 02 07 02 02 07 03 01 01
//                      ^^
";
    assert!(stdout(&shown).contains(expected), "{}", stdout(&shown));
    let said = stdout(&levtosziv(&["check", "."], &folder));
    assert!(
        said.contains("graph.bin, byte 4, node 2: there is no rule 127"),
        "{said}"
    );
}

/// An action that the property asks for may be missing beside others, or be all that is wrong.
#[test]
fn a_missing_action_is_told() {
    let folder = folder("missing-action");
    let text = "rule A: [ ] --[ A() ]-> [ ]
rule B: [ ] --[ B() ]-> [ ]
lemma follows: \"All #i. A() @ #i ==> (Ex #j. B() @ #j)\"
lemma some: \"Ex #j. B() @ #j\"
run one: A()
run none:
";
    put(&folder, &[("m.lev", text.as_bytes())]);
    let missing = "\n    there is no B() @ #j as it asks for\n";
    for (run, lemma, expected) in [
        ("one", "follows", "It is false by:\n    step   1 (A): A()"),
        ("none", "some", "It is false by:"),
    ] {
        let arguments = ["check", "m.lev", "--run", run, "--lemma", lemma];
        let said = stdout(&levtosziv(&arguments, &folder));
        assert!(said.contains(&format!("{expected}{missing}")), "{said}");
    }
}

#[test]
fn large_values_go_to_text_and_back_as_bytes() {
    let folder = folder("large");
    let mut graph = vec![1, 1];
    graph.extend([6].repeat(30_000));
    graph.extend([2, 0, 0]);
    put(
        &folder,
        &[
            ("protocol.bin", &[0, 0, 0]),
            ("property.bin", &[0]),
            ("graph.bin", &graph),
        ],
    );
    let said = stdout(&levtosziv(&["check", "."], &folder));
    assert!(
        said.contains("value 1 has 30001 symbols; the most is 128"),
        "{said}"
    );
    let shown = stdout(&levtosziv(&["show", "."], &folder));
    assert!(shown.contains("[exact]") && shown.contains("irecv(0x0606"));
    put(&folder, &[("shown.lev", shown.as_bytes())]);
    assert_eq!(code(&["build", "shown.lev", "again"], &folder), Some(0));
    assert_eq!(
        std::fs::read(folder.join("again/graph.bin")).unwrap(),
        graph
    );
    assert_eq!(code(&["picture", ".", "large.svg"], &folder), Some(0));
}

#[test]
fn what_is_known_and_never_sent() {
    let folder = folder("never-sent");
    let text = "rule A: [ Fr(~k) ] --[ Secret(~k) ]-> [ Out(~k) ]
lemma secret: \"All k #i. Secret(k) @ #i ==> not (Ex #j. K(k) @ #j)\"
run heard [fill]: A(~k) know ~k
run sent [fill]: A(~k) isend(~k)
";
    put(&folder, &[("t.lev", text.as_bytes())]);
    let heard = stdout(&levtosziv(&["check", "t.lev", "--run", "heard"], &folder));
    assert!(heard.starts_with("heard / secret: run 3 1 2\n"), "{heard}");
    assert!(
        heard.contains("Hint: `K` in a property sees only what the intruder sends"),
        "{heard}"
    );
    assert!(
        heard.contains("It knows ~k (step 3) and never sends it"),
        "{heard}"
    );
    let sent = stdout(&levtosziv(&["check", "t.lev", "--run", "sent"], &folder));
    assert!(sent.starts_with("sent / secret: attack 4 2 3\n"), "{sent}");
    // Lowe's attack up to what it is for.
    let case = root().join("tests/corpus/real/nspk-lowe-not-sent");
    let heard = stdout(&levtosziv(&["check", "."], &case));
    assert!(
        heard.contains("It knows ~n124 (step 22) and never sends it"),
        "{heard}"
    );
}

#[test]
fn pictures() {
    let folder = folder("pictures");
    let name = "<a|b>{\"c\"}\\ & é";
    let text = format!("lemma l: F\nrun r: pub('{name}') isend('{name}')\n");
    put(
        &folder,
        &[("t.lev", text.as_bytes()), ("dh.lev", DH.as_bytes())],
    );
    let well_formed = |picture: &str| {
        let read = "import sys, xml.dom.minidom; xml.dom.minidom.parse(sys.argv[1])";
        let path = folder.join(picture);
        Command::new("python3")
            .args(["-c", read])
            .arg(path)
            .status()
            .unwrap()
            .success()
    };
    assert_eq!(code(&["picture", "t.lev", "t.svg"], &folder), Some(0));
    assert!(well_formed("t.svg"));
    let arguments = ["picture", "dh.lev", "dh.svg", "--run", "mitm"];
    assert_eq!(code(&arguments, &folder), Some(0));
    assert!(well_formed("dh.svg"));
    let svg = std::fs::read_to_string(folder.join("dh.svg")).unwrap();
    assert_eq!(svg.matches("id=\"node").count(), 11);
    let example = root().join("examples/printed-case");
    let dot = folder.join("printed.dot");
    levtosziv(&["picture", ".", dot.to_str().unwrap()], &example);
    let expected = include_str!("printed-case.dot");
    assert_eq!(std::fs::read_to_string(dot).unwrap(), expected);
    let json = folder.join("printed.json");
    levtosziv(&["picture", ".", json.to_str().unwrap()], &example);
    let json: serde_json::Value = serde_json::from_slice(&std::fs::read(json).unwrap()).unwrap();
    assert_eq!(json["nodes"].as_array().unwrap().len(), 4);
    assert_eq!(json["edges"][2]["to"], serde_json::json!([4, 1]));
    assert_eq!(json["answer"]["line"], "attack 4 2 3");
}

#[test]
fn pictures_of_what_cannot_be_drawn() {
    let folder = folder("pictures-undrawn");
    let text = "lemma l: F
run missing: fresh(~a) ifresh(~a) c_h(~a) isend(h(~b)) isend(h(~a))
run twice: fresh(~a) ifresh(~a) fresh(~a) isend(~a)
";
    put(&folder, &[("t.lev", text.as_bytes())]);
    for (run, refused, edges) in [("missing", 4, 2), ("twice", 3, 1)] {
        let arguments = ["picture", "t.lev", "t.dot", "--run", run];
        assert_eq!(code(&arguments, &folder), Some(0));
        let dot = std::fs::read_to_string(folder.join("t.dot")).unwrap();
        // The steps to the refused one, and what the core draws of those before it.
        assert_eq!(dot.matches("id=\"node").count(), refused, "{dot}");
        assert_eq!(dot.matches(":s -> n").count(), edges, "{dot}");
        let below = format!("  n{} -> n{refused} [style=invis];", refused - 1);
        assert!(dot.contains(&below), "{dot}");
        assert_eq!(dot.matches("penwidth=2").count(), 1, "{dot}");
    }
}

#[test]
fn fmt_keeps_tokens_and_comments() {
    let folder = folder("fmt");
    let text = "theory T begin // first\n rule  A :[ ]-->[ ] /* in */\n\n\n\n// before\nlemma l:\"F\n  |F\"run r: 1:A( )2:A()\nend";
    let expected = "theory T begin // first\nrule A: [ ] --> [ ] /* in */\n\n// before\nlemma l: \"F\n   | F\"\nrun r: 1: A() 2: A()\nend\n";
    put(&folder, &[("t.lev", text.as_bytes())]);
    assert_eq!(stdout(&levtosziv(&["fmt", "t.lev"], &folder)), expected);
    assert_eq!(code(&["fmt", "--write", "t.lev"], &folder), Some(0));
    assert_eq!(stdout(&levtosziv(&["fmt", "t.lev"], &folder)), expected);
    for text in example_texts() {
        let laid_out = stdout(&levtosziv(&["fmt", text.to_str().unwrap()], &folder));
        assert_eq!(
            laid_out,
            std::fs::read_to_string(&text).unwrap(),
            "{text:?}"
        );
    }
}

#[test]
fn completions() {
    let folder = folder("completions");
    for shell in ["bash", "zsh", "fish"] {
        let script = stdout(&levtosziv(&["completions", shell], &folder));
        assert!(
            script.contains("levtosziv") && script.contains("picture"),
            "{shell}"
        );
    }
}
