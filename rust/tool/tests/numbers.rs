//! Numbers up to the largest that a file can hold, in every place of a text and of a file, and the first that is too large.

mod common;

use common::*;
use std::path::Path;

/// Numbers of three groups and of four, with their bytes.
const NUMBERS: [(u32, &[u8]); 3] = [
    (2_097_151, &[0xFF, 0xFF, 0x7F]),
    (2_097_152, &[0x80, 0x80, 0x80, 0x01]),
    (268_435_455, &[0xFF, 0xFF, 0xFF, 0x7F]),
];
const TOO_LARGE: u32 = 268_435_456;

/// A party sends its name beside a public one; both have this number.
fn text(number: u32) -> String {
    format!(
        "names: 'g' = {number}, ~k = {number}

rule A: [ Fr(~x) ] --[ Secret(~x) ]-> [ Out(<~x, 'g'>) ]

lemma secret: \"All x #i. Secret(x) @ #i ==> not (Ex #j. K(x) @ #j)\"

run leak [fill]: A(~k) isend(~k)
"
    )
}

fn said(arguments: &[&str], folder: &Path) -> String {
    let output = levtosziv(arguments, folder);
    assert!(output.status.success(), "{arguments:?}: {output:?}");
    stdout(&output)
}

fn read(folder: &Path, name: &str) -> String {
    std::fs::read_to_string(folder.join(name)).unwrap()
}

/// How often the bytes stand there.
fn count(bytes: &[u8], wanted: &[u8]) -> usize {
    let windows = bytes.windows(wanted.len());
    windows.filter(|window| *window == wanted).count()
}

#[test]
fn names_go_from_text_to_bytes_and_back() {
    let folder = folder("numbers-names");
    for (number, bytes) in NUMBERS {
        put(&folder, &[("t.lev", text(number).as_bytes())]);
        let line = said(&["check", "t.lev", "--format", "line"], &folder);
        assert_eq!(line, "attack 5 2 4\n", "{number}");
        said(&["build", "t.lev", "built"], &folder);
        let file = |place: &str, name: &str| std::fs::read(folder.join(place).join(name)).unwrap();
        // 'g' stands once in the rule; ~k in each of the steps, twice in those that hear and take apart.
        let name = |tag: u8| [&[tag], bytes].concat();
        assert_eq!(count(&file("built", "protocol.bin"), &name(1)), 1);
        assert_eq!(count(&file("built", "graph.bin"), &name(2)), 5);
        // Without the text the names are their numbers.
        std::fs::remove_file(folder.join("built/theory.lev")).unwrap();
        let shown = said(&["show", "built"], &folder);
        assert!(shown.contains(&format!("<~x0, 'p{number}'>")), "{shown}");
        assert!(shown.contains(&format!("fresh(~n{number})")), "{shown}");
        put(&folder, &[("shown.lev", shown.as_bytes())]);
        said(&["build", "shown.lev", "again"], &folder);
        for name in ["protocol.bin", "property.bin", "steps.bin", "graph.bin"] {
            assert_eq!(file("built", name), file("again", name), "{name}");
        }
    }
}

#[test]
fn names_are_shown_wherever_a_case_is() {
    let folder = folder("numbers-shown");
    for (number, _) in NUMBERS {
        put(&folder, &[("t.lev", text(number).as_bytes())]);
        said(&["build", "t.lev", "built"], &folder);
        std::fs::remove_file(folder.join("built/theory.lev")).unwrap();
        let fact = format!("K(~n{number})");
        let holds = |said: &str| assert!(said.contains(&fact), "{said}");
        holds(&said(&["check", "built"], &folder));
        holds(&said(&["check", "built", "--json"], &folder));
        said(&["page", "built", "page.html"], &folder);
        holds(&read(&folder, "page.html"));
        for picture in ["t.json", "t.dot", "t.svg"] {
            said(&["picture", "built", picture], &folder);
            holds(&read(&folder, picture));
        }
        let drawn = said(&["draw", "built"], &folder);
        assert!(drawn.contains(&format!("isend(~n{number})")), "{drawn}");
        let term = format!("~n{number}*'p{number}'^inv('p{number}')*inv(~n{number})");
        let form = format!("'p{number}'^inv('p{number}')\n");
        assert_eq!(said(&["term", &term], &folder), form);
    }
    let product = said(&["term", "~n129*~n2097152*~n128"], &folder);
    assert_eq!(product, "~n128*~n2097152*~n129\n");
}

/// What no text of names has: variables and ends of edges.
#[test]
fn other_numbers_go_from_text_to_bytes_and_back() {
    let folder = folder("numbers-others");
    for (number, bytes) in NUMBERS {
        let text = format!(
            "lemma l: ?{number} = 'p0'\ngraph g [exact]:\n  irecv(?{number})\n  edges: {number}.1 -> 1.{number}\n"
        );
        put(&folder, &[("t.lev", text.as_bytes())]);
        said(&["build", "t.lev", "built"], &folder);
        let file = |name: &str| std::fs::read(folder.join("built").join(name)).unwrap();
        assert_eq!(file("property.bin"), [&[1, 0], bytes, &[1, 0]].concat());
        let graph = [&[1, 1, 0], bytes, &[1], bytes, &[1, 1], bytes].concat();
        assert_eq!(file("graph.bin"), graph);
        let shown = said(&["show", "built"], &folder);
        put(&folder, &[("shown.lev", shown.as_bytes())]);
        said(&["build", "shown.lev", "built"], &folder);
        assert_eq!(file("graph.bin"), graph, "{shown}");
    }
}

#[test]
fn a_number_that_is_too_large_is_told_with_its_place() {
    let folder = folder("numbers-too-large");
    let fails = |arguments: &[&str], place: &str| {
        let output = levtosziv(arguments, &folder);
        assert_eq!(output.status.code(), Some(3), "{output:?}");
        let said = stderr(&output);
        assert!(
            said.starts_with("error: a number is at most 268435455\n"),
            "{said}"
        );
        assert!(said.contains(&format!("--> {place}\n")), "{said}");
    };
    let text = |text: &str, place: &str| {
        put(&folder, &[("t.lev", text.as_bytes())]);
        for command in ["check", "draw", "fmt"] {
            fails(&[command, "t.lev"], &format!("t.lev:{place}"));
        }
    };
    text(&self::text(TOO_LARGE), "1:14");
    text(
        &format!("lemma l: F\nrun r: fresh(~n{TOO_LARGE})\n"),
        "2:14",
    );
    text(&format!("lemma l: 'p{TOO_LARGE}' = 'a'\nrun r:\n"), "1:10");
    text(
        &format!("lemma l: F\nrun r [exact]: irecv(?{TOO_LARGE})\n"),
        "2:23",
    );
    text(
        &format!("lemma l: F\ngraph g: edges: 1.{TOO_LARGE} -> 2.1\n"),
        "2:19",
    );
    fails(&["term", &format!("h(~n{TOO_LARGE})")], "term:1:3");
    // A rule's variable is no name, and a name of another form has the number that is given.
    let named = format!(
        "names: ~n{TOO_LARGE} = 7\nrule A: [ Fr(~n{TOO_LARGE}) ] --> [ ]\nlemma l: F\nrun r: fresh(~n{TOO_LARGE})\n"
    );
    put(&folder, &[("t.lev", named.as_bytes())]);
    let line = said(&["check", "t.lev", "--format", "line"], &folder);
    assert_eq!(line, "attack 1 0 0\n");
}

/// The printed case with other bytes in the place of some, by the name of the file, where, and which.
fn damaged(folder: &Path, name: &str, at: std::ops::Range<usize>, bytes: &[u8]) {
    let example = root().join("examples/printed-case");
    for name in ["protocol.bin", "property.bin", "graph.bin"] {
        std::fs::copy(example.join(name), folder.join(name)).unwrap();
    }
    let mut file = std::fs::read(folder.join(name)).unwrap();
    file.splice(at, bytes.iter().copied());
    put(folder, &[(name, &file)]);
}

#[test]
fn bytes_that_are_no_number_are_told_at_their_place() {
    let folder = folder("numbers-damaged");
    let places = [
        ("graph.bin", 3, ", node 1", 3),
        ("graph.bin", 4, ", node 2", 3),
        ("graph.bin", 17, ", edge 1", 3),
        ("property.bin", 7, "", 2),
        ("protocol.bin", 10, ", rule 1", 1),
    ];
    let faults: [(&[u8], &str); 3] = [
        (
            &[0x80, 0x80, 0x80, 0x80, 0x01],
            "a number of more than 4 groups",
        ),
        (
            &[0x80, 0x80, 0x80, 0x00],
            "a number that is not in its shortest form",
        ),
        (
            &[0xFF, 0xFF, 0xFF, 0x00],
            "a number that is not in its shortest form",
        ),
    ];
    for (name, at, part, item) in places {
        for (bytes, what) in faults {
            damaged(&folder, name, at..at + 1, bytes);
            let words = said(&["check", "."], &folder);
            let first = format!("numbers-damaged / property: refused 3 {item}\n");
            assert!(words.starts_with(&first), "{words}");
            assert!(
                words.contains(&format!("  {name}, byte {at}{part}: {what}\n")),
                "{words}"
            );
            let json = said(&["check", ".", "--json"], &folder);
            let place = format!("\"place\":{{\"byte\":{at},\"file\":\"{name}\"}}");
            assert!(json.contains(&place), "{json}");
            let shown = levtosziv(&["show", "."], &folder);
            assert_eq!(shown.status.code(), Some(4));
            let shown = stdout(&shown);
            assert!(
                shown.contains(&format!("// {name}, byte {at}: {what}\n")),
                "{shown}"
            );
        }
    }
}

/// A number that reads well and is too large for its place has the cause of that place.
#[test]
fn numbers_that_are_too_large_for_their_place() {
    let folder = folder("numbers-places");
    let largest: &[u8] = &[0xFF, 0xFF, 0xFF, 0x7F];
    let variable: &[u8] = &[0, 0xFF, 0xFF, 0xFF, 0x7F];
    let graph = [
        (
            0..1,
            largest,
            "refused 3 3",
            "byte 0: a count of nodes of 268435455; the most is 512",
        ),
        (
            2..3,
            largest,
            "refused 3 3",
            "byte 2, node 1: tag 268435455 is no declared function",
        ),
        (
            4..5,
            largest,
            "refused 6 2",
            "byte 4, node 2: there is no rule 268435455",
        ),
        (
            8..10,
            variable,
            "refused 7 3",
            "value 1 is ?268435455; it holds a variable",
        ),
        (
            14..15,
            largest,
            "refused 10 1",
            "there is no step 268435455",
        ),
        (
            17..18,
            largest,
            "refused 10 1",
            "step 2 has no premise 268435455",
        ),
    ];
    let property = [
        (
            4..5,
            largest,
            "refused 3 2",
            "byte 4: fact symbol 268435455 is not declared",
        ),
        (
            13..14,
            largest,
            "refused 5 0",
            "variable ?268435455 is in no scope",
        ),
    ];
    let protocol = [
        (
            5..6,
            largest,
            "refused 3 1",
            "byte 5, rule 1: a count of variables of 268435455; the most is 16",
        ),
        (
            6..7,
            largest,
            "refused 3 1",
            "byte 6, rule 1: a sort of 268435455; the most is 2",
        ),
        (
            9..11,
            variable,
            "refused 3 1",
            "byte 9, rule 1: a variable that the rule does not declare",
        ),
    ];
    let files = [
        ("graph.bin", &graph[..]),
        ("property.bin", &property),
        ("protocol.bin", &protocol),
    ];
    for (name, cases) in files {
        for (at, bytes, line, reason) in cases {
            damaged(&folder, name, at.clone(), bytes);
            let words = said(&["check", "."], &folder);
            assert!(
                words.contains(&format!(": {line}\n")),
                "{name} {at:?}: {words}"
            );
            assert!(words.contains(reason), "{name} {at:?}: {words}");
        }
    }
}
