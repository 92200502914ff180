//! Numbers for names, and names that are near a mistyped one.

use super::parser::number_too_large;
use super::{error, Parse};
use crate::model::{limits, Span};
use std::collections::{BTreeMap, HashMap};

/// 'p7' and ~n7 are number 7, `names:` fixes others, and the rest get the least free number in order of appearance.
#[derive(Default)]
pub struct Numbering {
    numbers: HashMap<String, u32>,
    pub names: BTreeMap<u32, String>,
    next: u32,
}

/// The digits of a name that has its number by its form.
fn digits(name: &str, letter: char) -> Option<&str> {
    let digits = name.strip_prefix(letter)?;
    let zeros = digits.len() > 1 && digits.starts_with('0');
    let plain = !digits.is_empty() && digits.bytes().all(|digit| digit.is_ascii_digit());
    (plain && !zeros).then_some(digits)
}

/// The number that a name has by its form, if a file can hold it.
pub fn by_form(name: &str, letter: char) -> Option<u32> {
    let number = digits(name, letter)?.parse().ok()?;
    (number <= limits::LARGEST_NUMBER).then_some(number)
}

impl Numbering {
    /// As in a theory that is read already.
    pub fn of_names(names: &BTreeMap<u32, String>) -> Self {
        Numbering {
            numbers: names.iter().map(|(n, name)| (name.clone(), *n)).collect(),
            names: names.clone(),
            next: 0,
        }
    }

    pub fn fix(&mut self, name: &str, number: u32, span: &Span) -> Parse<()> {
        if let Some(other) = self.names.get(&number).filter(|other| *other != name) {
            return error(
                span.clone(),
                format!("`{name}` and `{other}` would both be number {number}"),
                "",
            );
        }
        if let Some(other) = self.numbers.get(name).filter(|other| **other != number) {
            return error(span.clone(), format!("`{name}` is number {other}"), "");
        }
        self.names.insert(number, name.to_string());
        self.numbers.insert(name.to_string(), number);
        Ok(())
    }

    /// The number of a name, a free one where it has none. By its form, with this letter, it may have one that no file can hold.
    pub fn number(&mut self, name: &str, letter: char, span: &Span) -> Parse<u32> {
        if let Some(number) = self.numbers.get(name) {
            return Ok(*number);
        }
        if digits(name, letter).is_some() {
            let label =
                format!("`{letter}` with digits is of that number; any other name gets a free one");
            return number_too_large(span.clone(), &label);
        }
        while self.names.contains_key(&self.next) {
            self.next += 1;
        }
        self.names.insert(self.next, name.to_string());
        self.numbers.insert(name.to_string(), self.next);
        Ok(self.next)
    }
}

/// How many letters must change to make one word of the other.
fn distance(a: &str, b: &str) -> usize {
    let b: Vec<char> = b.chars().collect();
    let mut row: Vec<usize> = (0..=b.len()).collect();
    for (i, x) in a.chars().enumerate() {
        let mut before = row[0];
        row[0] = i + 1;
        for (j, y) in b.iter().enumerate() {
            let here = row[j + 1];
            row[j + 1] = (here + 1)
                .min(row[j] + 1)
                .min(before + usize::from(x != *y));
            before = here;
        }
    }
    row[b.len()]
}

/// Longer words are not compared.
const LONGEST_WORD: usize = 64;

/// A question, where one of the words is near.
pub fn near<'a>(name: &str, all: impl Iterator<Item = &'a str>) -> String {
    let lower = name.to_lowercase();
    let nearest = all
        .filter(|word| word.len() <= LONGEST_WORD && name.len() <= LONGEST_WORD)
        .map(|word| (distance(&lower, &word.to_lowercase()), word));
    match nearest.min() {
        Some((changes, word)) if changes <= 2 && changes < name.chars().count() => {
            format!("did you mean `{word}`?")
        }
        _ => String::new(),
    }
}
