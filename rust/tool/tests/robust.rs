//! No input makes the tool crash: damaged texts and damaged bytes through all that it does with them.

mod common;

use common::*;
use reference::random::Random;
use std::path::PathBuf;
use tool::answer::{answer, Answer};
use tool::case::{cases, Choice};
use tool::failure::Source;
use tool::{layout, page, picture, text};

const TEXTS: usize = 2_000;
const FILES: usize = 1_000;

/// Signs and words that mean something, to be put anywhere.
const PIECES: [&str; 40] = [
    "(", ")", "[", "]", "<", ">", ",", ":", ".", "/", "!", "~", "$", "#", "=", "&", "|", "^", "*",
    "\"", "?7", "'", "==>", "--[", "]->", "-->", "0x0B03", "All", "Ex", "not", "rule", "run",
    "graph", "lemma", "edges:", "let", "know", "2097152", "é", "//",
];

/// A text with a few pieces put in, taken out or doubled.
fn damaged(text: &str, random: &mut Random) -> String {
    let mut text = text.to_string();
    for _ in 0..1 + random.below(3) {
        let places: Vec<usize> = text.char_indices().map(|(i, _)| i).collect();
        let from = *random.choose(&places);
        let rest = places.iter().filter(|place| **place >= from);
        let to = *rest.take(1 + random.below(12)).last().unwrap();
        match random.below(3) {
            0 => text.insert_str(from, PIECES[random.below(PIECES.len())]),
            1 => text.replace_range(from..to, ""),
            _ => {
                let again = text[from..to].to_string();
                text.insert_str(from, &again);
            }
        }
    }
    text
}

/// What `fmt` must keep.
fn tokens_and_comments(text: &str) -> Vec<String> {
    let pieces = text::pieces(text).unwrap();
    let said = pieces.into_iter().map(|piece| match piece {
        text::Piece::Token(token, _) => format!("{token:?}"),
        text::Piece::Comment(span) => text[span].trim_end().to_string(),
    });
    said.collect()
}

/// All that is made of an answer.
fn used(answer: &Answer) {
    answer.words();
    answer.located();
    answer.json().to_string();
    picture::dot(answer, true);
    picture::json(answer);
    page::with_pictures(std::slice::from_ref(answer), &[Err(String::new())]);
}

#[test]
fn texts() {
    let folder = folder("robust-texts");
    let file = folder.join("t.lev");
    let read = |path: PathBuf| std::fs::read_to_string(path).unwrap();
    let mut texts: Vec<String> = example_texts().into_iter().map(read).collect();
    texts.push(read(root().join("docs/TOOL.md")));
    let mut random = Random::new(34);
    let mut parsed = 0;
    for _ in 0..TEXTS {
        let place = random.below(texts.len());
        let text = damaged(&texts[place], &mut random);
        match text::parse(&text) {
            Err(error) => {
                let name = "t.lev".into();
                Source { name, text }.message(&error);
            }
            Ok(_) => {
                parsed += 1;
                let laid_out = layout::layout(&text).unwrap();
                assert_eq!(tokens_and_comments(&laid_out), tokens_and_comments(&text));
                assert_eq!(layout::layout(&laid_out).unwrap(), laid_out);
                std::fs::write(&file, &text).unwrap();
                for case in cases(&file, &Choice::default(), None).unwrap_or_default() {
                    used(&answer(&case));
                }
            }
        }
    }
    assert!(parsed > TEXTS / 20, "{parsed}");
}

#[test]
fn files() {
    let folder = folder("robust-files");
    let mut random = Random::new(35);
    let real = std::fs::read_dir(root().join("tests/corpus/real")).unwrap();
    let mut real: Vec<_> = real
        .map(|e| e.unwrap().path())
        .filter(|p| p.join("graph.bin").exists())
        .collect();
    real.sort();
    for _ in 0..FILES {
        let from = random.choose(&real).clone();
        for name in ["protocol.bin", "property.bin", "graph.bin"] {
            let mut bytes = std::fs::read(from.join(name)).unwrap();
            if random.percent(40) {
                let at = random.below(bytes.len());
                bytes[at] = random.below(256) as u8;
            }
            std::fs::write(folder.join(name), bytes).unwrap();
        }
        let case = case_of(&folder);
        used(&answer(&case));
        through_text(&case);
        tool::show::show(&folder, None).unwrap();
    }
}
