//! What a terminal gets: characters that are not seen, or that would change how it writes, by their numbers. A file gets them as they are.

mod common;

use common::*;
use std::os::unix::fs::symlink;
use std::path::Path;
use std::process::{Command, Stdio};
use tool::failure::Source;
use tool::print::{visible, visible_with};
use tool::text;

/// Clears the screen, changes the title, ends the line, turns the direction; and letters from right to left.
const HOSTILE: &str = "a\u{1B}[2J\u{9B}2J\u{7}\r\u{202E}b \u{5D0}\u{5D1}";
const SHOWN: &str = "a\\u{1b}[2J\\u{9b}2J\\u{7}\\u{d}\\u{202e}b \u{5D0}\u{5D1}\u{200E}";

/// A folder with the tool and a text: an attack, a run that is refused at a step, a property that is refused.
fn hostile(name: &str) -> std::path::PathBuf {
    let folder = folder(name);
    symlink(env!("CARGO_BIN_EXE_levtosziv"), folder.join("levtosziv")).unwrap();
    let text = format!(
        "rule A: [ Fr(~k) ] --[ Sent(~k, '{HOSTILE}') ]-> [ Out(<~k, '{HOSTILE}'>) ]
lemma l: \"All x y #i. Sent(x, y) @ #i ==> not (y = '{HOSTILE}')\"
run attack [fill]: A(~'{HOSTILE}') isend('{HOSTILE}')
run refused: irecv('{HOSTILE}') A(~k)
"
    );
    put(&folder, &[("t.lev", text.as_bytes())]);
    folder
}

/// What a command writes to a terminal. Its colours begin otherwise than what the names hold.
fn terminal(arguments: &str, folder: &Path) -> String {
    let output = Command::new("script")
        .args(["-qec", &format!("./levtosziv {arguments}"), "/dev/null"])
        .current_dir(folder)
        .stdin(Stdio::null())
        .output();
    stdout(&output.unwrap()).replace("\r\n", "\n")
}

#[test]
fn names_are_made_visible_on_a_terminal() {
    let folder = hostile("terminal-names");
    let build = levtosziv(&["build", "t.lev", "built", "--run", "attack"], &folder);
    assert!(build.status.success(), "{build:?}");
    let commands = [
        "check t.lev --run attack",
        "check t.lev --run refused",
        "check built",
        "show built",
        "draw t.lev --run attack",
        "rules t.lev",
        "fmt t.lev",
        &format!("term \"'{HOSTILE}'\""),
        // An error of the text, and one of the arguments.
        &format!("term \"fst('{HOSTILE}'\""),
        &format!("check t.lev --run '{HOSTILE}'"),
    ];
    for command in commands {
        let said = terminal(command, &folder);
        assert!(said.contains(SHOWN), "{command}: {said:?}");
        for unseen in ["\u{1B}[2J", "\u{9B}", "\u{7}", "\r", "\u{202E}"] {
            assert!(!said.contains(unseen), "{command}: {unseen:?} in {said:?}");
        }
    }
}

#[test]
fn a_file_gets_names_as_they_are() {
    let folder = hostile("terminal-files");
    let said = |arguments: &[&str]| {
        let output = levtosziv(arguments, &folder);
        assert!(output.status.success(), "{output:?}");
        stdout(&output)
    };
    said(&["build", "t.lev", "built", "--run", "attack"]);
    let shown = said(&["show", "built"]);
    assert!(shown.contains(HOSTILE));
    put(&folder, &[("shown.lev", shown.as_bytes())]);
    said(&["build", "shown.lev", "again"]);
    for name in ["protocol.bin", "property.bin", "steps.bin", "graph.bin"] {
        let bytes = |place: &str| std::fs::read(folder.join(place).join(name)).unwrap();
        assert_eq!(bytes("built"), bytes("again"), "{name}");
    }
}

#[test]
fn a_caret_stands_below_what_is_visible() {
    let text = format!("// one\r\nlemma l: '{HOSTILE}' = 7\r\n");
    let error = text::parse(&text).unwrap_err();
    let name = "t\u{1B}.lev".into();
    let said = Source { name, text }.message(&error);
    // The column is that of the text; the mark has no width.
    let expected = format!(
        "error: expected a term, found `7`
  --> t\\u{{1b}}.lev:2:{}
  |
2 | lemma l: '{SHOWN}' = 7
  | {}^ expected a term

",
        "lemma l: '' = ".len() + HOSTILE.chars().count() + 1,
        " ".repeat("lemma l: '' = ".len() + SHOWN.chars().count() - 1)
    );
    assert_eq!(said, expected);
}

#[test]
fn what_is_visible_stays_as_it_is() {
    let texts = [
        "plain 'g'^~a\n\tand\r\nlines",
        HOSTILE,
        "\u{5D0}\u{200E}\u{5D1}\u{200E}\u{200E}x\u{200E}",
        "\u{627}1\u{5D0} \u{FEFF}é∀",
    ];
    for text in texts {
        let once = visible(text);
        assert_eq!(visible(&once), once, "{text:?}");
        // Each part is where what stands before it ends.
        for (at, _) in text.char_indices() {
            let (whole, part) = visible_with(text, &(at..text.len()));
            assert_eq!(whole, once);
            assert_eq!(part.end, whole.len());
            assert!(whole.is_char_boundary(part.start));
            assert_eq!(visible(&whole[part.clone()]), whole[part]);
        }
    }
    assert_eq!(visible(texts[0]), texts[0]);
    let middle = visible_with("\u{7}ab\u{7}", &(1..3));
    assert_eq!(middle, ("\\u{7}ab\\u{7}".to_string(), 5..7));
}
