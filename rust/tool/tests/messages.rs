//! Each message of the parser, with its caret: `messages.txt` has a text and what is said of it. LEVTOSZIV_WRITE=1 writes it anew.

mod common;

use common::root;
use tool::failure::Source;
use tool::text;

const BEGIN: &str = "=====\n";
const SAID: &str = "-----\n";

fn file() -> std::path::PathBuf {
    root().join("rust/tool/tests/messages.txt")
}

/// The texts of the file, each with its message.
fn blocks() -> Vec<(String, String)> {
    let all = std::fs::read_to_string(file()).unwrap();
    let blocks = all.split(BEGIN).filter(|block| !block.is_empty());
    let halves = blocks.map(|block| block.split_once(SAID).expect("a text and its message"));
    halves
        .map(|(text, said)| (text.into(), said.into()))
        .collect()
}

fn said(text: &str) -> String {
    let source = Source {
        name: "t.lev".into(),
        text: text.into(),
    };
    let error = text::parse(text).expect_err(text);
    source.message(&error)
}

#[test]
fn messages_are_as_they_were_read() {
    let blocks = blocks();
    if std::env::var_os("LEVTOSZIV_WRITE").is_some() {
        let all: Vec<String> = blocks
            .iter()
            .map(|(text, _)| format!("{BEGIN}{text}{SAID}{}", said(text)))
            .collect();
        std::fs::write(file(), all.concat()).unwrap();
    }
    for (text, expected) in blocks {
        assert_eq!(said(&text), expected);
    }
}

/// What makes a message, in the source.
const CALLS: [&str; 8] = [
    "error(",
    "too_large(",
    "Err(Error {",
    "unexpected(\"",
    ".expect(\"",
    ".word(\"",
    ".number(\"",
    ".file_number(\"",
];
/// How many of these there are. Who adds one adds a block to `messages.txt`.
const SITES: usize = 110;
const BLOCKS: usize = 113;

#[test]
fn each_message_is_there() {
    let folder = root().join("rust/tool/src/text");
    let files = std::fs::read_dir(folder).unwrap();
    let count = |text: String| {
        CALLS
            .iter()
            .map(|call| text.matches(call).count())
            .sum::<usize>()
    };
    let sites: usize = files
        .map(|file| count(std::fs::read_to_string(file.unwrap().path()).unwrap()))
        .sum();
    assert_eq!((sites, blocks().len()), (SITES, BLOCKS));
}

/// Deep nesting and large values are refused with a message, and do not end the program.
#[test]
fn nothing_is_too_deep() {
    let deep =
        |open: &str, close: &str| format!("{}'a'{}", open.repeat(50_000), close.repeat(50_000));
    let value = |term: String| format!("run r:\n  irecv({term})\n");
    let formula = |f: String| format!("lemma l: {f}\n");
    let texts = [
        value(deep("h(", ")")),
        value(deep("(", ")")),
        value(deep("<", ">")),
        value(format!("'a'{}", "^'a'".repeat(50_000))),
        value(format!("'a'{}", "*'a'".repeat(50_000))),
        value(format!("<'a'{}>", ", 'a'".repeat(50_000))),
        formula(format!("{}F", "not ".repeat(50_000))),
        formula(format!("{}F{}", "(".repeat(50_000), ")".repeat(50_000))),
        formula(format!("F{}", " & F".repeat(50_000))),
        formula(format!("F{}", " | F".repeat(50_000))),
        formula(format!("F{}", " ==> F".repeat(50_000))),
        formula(format!("{}F", "Ex #i. ".repeat(50_000))),
    ];
    for text in texts {
        let error = text::parse(&text).unwrap_err();
        assert_eq!(error.message, "nested more than 1,000 deep");
    }
    let mut doubled = String::from("run r:\n  let x = 'a'\n");
    (0..100).for_each(|_| doubled += "  let x = <x, x>\n");
    let error = text::parse(&doubled).unwrap_err();
    assert_eq!(error.message, "a value of more than 1000 symbols");
}
