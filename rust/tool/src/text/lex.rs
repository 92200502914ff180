//! Text to tokens.

use super::{error, Parse};
use crate::model::Span;
use std::fmt;

#[derive(Clone, Debug, PartialEq)]
pub enum Token {
    Word(String),
    Number(u32),
    /// `'name'`
    Quoted(String),
    /// `0x0601`: bytes of a term
    Bytes(Vec<u8>),
    Sign(&'static str),
    End,
}

impl fmt::Display for Token {
    fn fmt(&self, f: &mut fmt::Formatter) -> fmt::Result {
        match self {
            Token::Word(word) => write!(f, "`{word}`"),
            Token::Number(number) => write!(f, "`{number}`"),
            Token::Quoted(name) => write!(f, "`'{name}'`"),
            Token::Bytes(_) => write!(f, "bytes"),
            Token::Sign(sign) => write!(f, "`{sign}`"),
            Token::End => write!(f, "the end of the file"),
        }
    }
}

/// A token with its place, or a comment.
pub enum Piece {
    Token(Token, Span),
    Comment(Span),
}

/// Each before those that begin it.
const SIGNS: [&str; 32] = [
    "==>", "--[", "]->", "-->", "->", "@", "(", ")", "[", "]", "<", ">", ",", ":", ".", "/", "!",
    "~", "$", "#", "=", "&", "|", "^", "*", "\"", "?", "⊥", "∀", "∃", "¬", "-",
];

/// The tokens with the comments between them; the last is `End`.
pub fn pieces(text: &str) -> Parse<Vec<Piece>> {
    let mut pieces = Vec::new();
    let mut at = 0;
    while let Some(first) = text[at..].chars().next() {
        if first.is_whitespace() {
            at += first.len_utf8();
            continue;
        }
        let length = match comment(text, at)? {
            Some(length) => {
                pieces.push(Piece::Comment(at..at + length));
                length
            }
            None => {
                let (token, length) = token(text, at, first)?;
                pieces.push(Piece::Token(token, at..at + length));
                length
            }
        };
        at += length;
    }
    pieces.push(Piece::Token(Token::End, at..at));
    Ok(pieces)
}

/// The tokens alone.
pub fn tokens(text: &str) -> Parse<Vec<(Token, Span)>> {
    let tokens = pieces(text)?.into_iter().filter_map(|piece| match piece {
        Piece::Token(token, span) => Some((token, span)),
        Piece::Comment(_) => None,
    });
    Ok(tokens.collect())
}

/// The length of the comment that begins here, if one does.
fn comment(text: &str, at: usize) -> Parse<Option<usize>> {
    let rest = &text[at..];
    if rest.starts_with("//") {
        return Ok(Some(rest.find('\n').unwrap_or(rest.len())));
    }
    if !rest.starts_with("/*") {
        return Ok(None);
    }
    match rest[2..].find("*/") {
        Some(end) => Ok(Some(end + 4)),
        None => error(
            at..at + 2,
            "a comment without an end",
            "it begins here, and `*/` ends it",
        ),
    }
}

/// The length of the longest beginning whose characters all pass.
fn run_length(rest: &str, pass: impl Fn(char) -> bool) -> usize {
    rest.find(|c| !pass(c)).unwrap_or(rest.len())
}

fn token(text: &str, at: usize, first: char) -> Parse<(Token, usize)> {
    let rest = &text[at..];
    if let Some(digits) = rest.strip_prefix("0x") {
        return bytes(digits, at);
    }
    if first.is_ascii_digit() {
        let length = run_length(rest, |c| c.is_ascii_digit());
        return match rest[..length].parse() {
            Ok(number) => Ok((Token::Number(number), length)),
            Err(_) => error(at..at + length, "this number is too large", ""),
        };
    }
    if first.is_alphabetic() || first == '_' {
        let length = run_length(rest, |c| c.is_alphanumeric() || c == '_');
        return Ok((Token::Word(rest[..length].to_string()), length));
    }
    if first == '\'' {
        return quoted(rest, at);
    }
    match SIGNS.iter().find(|sign| rest.starts_with(**sign)) {
        Some(sign) => Ok((Token::Sign(sign), sign.len())),
        None => error(
            at..at + first.len_utf8(),
            format!("`{}` has no meaning here", first.escape_debug()),
            "",
        ),
    }
}

fn quoted(rest: &str, at: usize) -> Parse<(Token, usize)> {
    let length = run_length(&rest[1..], |c| c != '\'' && c != '\n');
    if !rest[1 + length..].starts_with('\'') {
        return error(
            at..at + 1,
            "a quoted name without its second quote",
            "it begins here",
        );
    }
    Ok((Token::Quoted(rest[1..=length].to_string()), length + 2))
}

fn bytes(digits: &str, at: usize) -> Parse<(Token, usize)> {
    let length = run_length(digits, |c| c.is_ascii_hexdigit());
    let pairs = (0..length / 2).map(|i| u8::from_str_radix(&digits[2 * i..2 * i + 2], 16));
    match pairs.collect::<Result<Vec<u8>, _>>() {
        Ok(bytes) if length > 0 && length % 2 == 0 => Ok((Token::Bytes(bytes), length + 2)),
        _ => error(
            at..at + length + 2,
            "bytes are pairs of hexadecimal digits after `0x`",
            "",
        ),
    }
}
