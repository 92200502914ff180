//! The examples of docs/FORMATS.md. In a block marked `example` a line `NAME: BYTES` names a file, to which further lines of bytes belong; a line `CALL = ANSWER` is
//! tested; what stands behind `--` is for the reader.

use reference::calls::{
    canonical_form, check, draw, fit_protocol, ruled_steps, Outcome, WORK_AREA,
};
use reference::machine::first_failure;
use reference::notation::bytes;
use reference::number::Reader;
use reference::protocol::Protocol;
use std::collections::HashMap;

const PAGE: &str = include_str!("../../../docs/FORMATS.md");

type Files = HashMap<String, Vec<u8>>;

fn hexadecimal(bytes: &[u8]) -> String {
    let words: Vec<String> = bytes.iter().map(|byte| format!("{byte:02X}")).collect();
    words.join(" ")
}

/// The lines of the examples, without blank ones and without what is for the reader.
fn lines() -> Vec<&'static str> {
    let mut inside = false;
    let mut lines = Vec::new();
    for line in PAGE.lines() {
        if line.starts_with("```") {
            inside = line == "```example";
        } else if inside {
            lines.push(line.split("--").next().unwrap_or("").trim());
        }
    }
    lines.retain(|line| !line.is_empty());
    lines
}

/// The words of a call: a name, a number, or bytes in square brackets.
fn words(call: &str) -> Vec<String> {
    let mut words = Vec::new();
    let mut rest = call.trim();
    while !rest.is_empty() {
        let end = match rest.find(']') {
            Some(end) if rest.starts_with('[') => end + 1,
            _ => rest.find(' ').unwrap_or(rest.len()),
        };
        words.push(rest[..end].to_string());
        rest = rest[end..].trim_start();
    }
    words
}

fn file(word: &str, files: &Files) -> Vec<u8> {
    match word.strip_prefix('[') {
        Some(inner) => bytes(inner.trim_end_matches(']')),
        None => files
            .get(word)
            .unwrap_or_else(|| panic!("no file {word}"))
            .clone(),
    }
}

/// The bytes written, or the refusal.
fn shown(outcome: Outcome, output: &[u8]) -> String {
    match outcome {
        Outcome::Written(length) => hexadecimal(&output[..length as usize]),
        other => other.to_string(),
    }
}

/// The bytes of a rule in a protocol file's layout: what it adds to a protocol of no rules.
fn rule(protocol: &[u8], number: u32) -> String {
    let mut protocol = Protocol::read(protocol).expect("a protocol");
    let Some(rule) = protocol.rule(number) else {
        return "none".to_string();
    };
    protocol.rules = Vec::new();
    let start = protocol.encoded().len();
    protocol.rules = vec![rule];
    hexadecimal(&protocol.encoded()[start..])
}

fn run(protocol: &[u8], steps: &[u8]) -> String {
    let protocol = fit_protocol(protocol).expect("a fit protocol");
    let nodes = match ruled_steps(&protocol, steps) {
        Ok(nodes) => nodes,
        Err(refusal) => return format!("refused {} {}", refusal.number, refusal.item),
    };
    match first_failure(&protocol, &nodes) {
        None => "run".to_string(),
        Some(place) => format!("fails {}", place + 1),
    }
}

fn number(bytes: &[u8]) -> String {
    let mut reader = Reader::new(bytes);
    match reader.number() {
        Ok(number) if reader.finish().is_ok() => number.to_string(),
        _ => "fault".to_string(),
    }
}

/// What the call answers. `output N` and `work N` lend that many bytes; otherwise there is enough of both.
fn answer(call: &str, files: &Files) -> String {
    let mut words = words(call);
    let mut lent = |what: &str, enough: usize| match words.iter().position(|word| word == what) {
        Some(at) => {
            let length = words[at + 1].parse().expect("a length");
            words.drain(at..at + 2);
            length
        }
        None => enough,
    };
    let mut output = vec![0; lent("output", 61_440)];
    let mut work = vec![0; lent("work", WORK_AREA)];
    let arguments: Vec<&str> = words.iter().map(String::as_str).collect();
    let of = |word| file(word, files);
    match arguments[..] {
        ["number", n] => number(&of(n)),
        ["rule", p, n] => rule(&of(p), n.parse().expect("a number")),
        ["run", p, s] => run(&of(p), &of(s)),
        ["check", p, q, g] => check(&of(p), &of(q), &of(g), &mut work).to_string(),
        ["draw", p, s] => {
            let outcome = draw(&of(p), &of(s), &mut output, &mut work);
            shown(outcome, &output)
        }
        ["form", p, t] => {
            let outcome = canonical_form(&of(p), &of(t), &mut output, &mut work);
            shown(outcome, &output)
        }
        _ => panic!("no such call: {call}"),
    }
}

#[test]
fn each_example_is_true() {
    let mut files = Files::new();
    let mut named = String::new();
    let mut wrong = Vec::new();
    let mut tested = 0;
    for line in lines() {
        if let Some((call, expected)) = line.split_once(" = ") {
            tested += 1;
            let said = answer(call, &files);
            if said != expected.trim() {
                wrong.push(format!("{line}\n    answers {said}"));
            }
            continue;
        }
        let rest = match line.split_once(':') {
            Some((name, rest)) => {
                named = name.to_string();
                files.insert(named.clone(), Vec::new());
                rest
            }
            None => line,
        };
        files
            .get_mut(&named)
            .expect("a name before its bytes")
            .extend(bytes(rest));
    }
    assert!(wrong.is_empty(), "docs/FORMATS.md:\n{}", wrong.join("\n"));
    assert!(tested >= 60, "docs/FORMATS.md has only {tested} examples");
}
