//! `fmt`: one layout for blanks, indentation and empty lines. Tokens, comments and the author's line breaks stay.

use crate::text::{pieces, Parse, Piece, Token, SECTIONS};

/// The text laid out; an error where it has no tokens.
pub fn layout(text: &str) -> Parse<String> {
    let pieces = pieces(text)?;
    let mut writer = Writer::default();
    let mut end = 0;
    for i in 0..pieces.len() {
        let span = match &pieces[i] {
            Piece::Token(_, span) | Piece::Comment(span) => span.clone(),
        };
        let breaks = text[end..span.start].matches('\n').count();
        end = span.end;
        let next = following(&pieces[i + 1..]);
        match &pieces[i] {
            Piece::Comment(_) => {
                let before_item = match next[0] {
                    Token::Word(word) => writer.begins_item(word, next[1]),
                    other => *other == Token::End,
                };
                writer.comment(&text[span], breaks, before_item);
            }
            Piece::Token(Token::End, _) => {}
            Piece::Token(token, _) => writer.token(token, next[0], &text[span], breaks),
        }
    }
    Ok(writer.finished())
}

/// The next two tokens.
fn following(pieces: &[Piece]) -> [&Token; 2] {
    let mut tokens = pieces.iter().filter_map(|piece| match piece {
        Piece::Token(token, _) => Some(token),
        Piece::Comment(_) => None,
    });
    [(); 2].map(|()| tokens.next().unwrap_or(&Token::End))
}

#[derive(Default)]
struct Writer {
    out: String,
    /// The tokens before, of which the last ones matter.
    before: Vec<Token>,
    /// What the item begins with.
    item: String,
    /// In the item's head, before its first colon.
    head: bool,
    depth: usize,
    quoted: bool,
    /// A line that a comment has ended.
    ended: bool,
}

fn is(token: Option<&Token>, signs: &[&str]) -> bool {
    matches!(token, Some(Token::Sign(sign)) if signs.contains(sign))
}

/// Whether a term may end with this token.
fn ends_term(token: Option<&Token>) -> bool {
    match token {
        Some(Token::Sign(sign)) => [")", ">"].contains(sign),
        Some(Token::Word(word)) => !["not", "All", "Ex"].contains(&word.as_str()),
        Some(_) => true,
        None => false,
    }
}

impl Writer {
    fn last(&self) -> Option<&Token> {
        self.before.last()
    }

    fn begins_item(&self, word: &str, next: &Token) -> bool {
        let named = ["rule", "lemma", "run", "graph", "theory"];
        let is_name =
            matches!(self.last(), Some(Token::Word(w)) if named.contains(&w.as_str()) && self.head);
        let section = SECTIONS.contains(&word) || word == "theory";
        let declared = *next == Token::Sign("/");
        self.depth == 0 && section && !is_name && !declared
    }

    fn token(&mut self, token: &Token, next: &Token, text: &str, breaks: usize) {
        match token {
            Token::Word(word) if self.begins_item(word, next) => self.begin_item(word, breaks),
            Token::Word(word) if word == "begin" && self.item == "theory" => {
                self.out.push(if breaks > 0 { '\n' } else { ' ' });
            }
            _ if self.last().is_none() => {}
            _ if (breaks > 0 && !self.head) || self.ended => self.new_line(),
            _ if self.blank_before(token) => self.out.push(' '),
            _ => {}
        }
        self.ended = false;
        self.out += &match (token, next) {
            // As the printer writes a step's number.
            (Token::Number(_), Token::Sign(":")) if self.at_line_start() => format!("{text:>3}"),
            _ => text.to_string(),
        };
        match token {
            Token::Sign("(" | "[" | "--[") => self.depth += 1,
            Token::Sign(")" | "]" | "]->") => self.depth = self.depth.saturating_sub(1),
            Token::Sign("\"") => self.quoted = !self.quoted,
            Token::Sign(":") if self.depth == 0 => self.head = false,
            Token::Word(word) if word == "begin" && self.item == "theory" => self.head = false,
            _ => {}
        }
        self.before.push(token.clone());
    }

    fn at_line_start(&self) -> bool {
        self.out.trim_end_matches(' ').ends_with('\n')
    }

    fn begin_item(&mut self, word: &str, breaks: usize) {
        if !self.out.is_empty() && !self.ended {
            self.end_line(breaks);
        } else if breaks > 1 && !self.out.is_empty() {
            self.out.push('\n');
        }
        self.item = word.to_string();
        self.head = true;
        self.quoted = false;
    }

    /// Ends the line, and leaves an empty one where the author has.
    fn end_line(&mut self, breaks: usize) {
        self.out.truncate(self.out.trim_end().len());
        self.out += if breaks > 1 { "\n\n" } else { "\n" };
    }

    fn new_line(&mut self) {
        self.out.truncate(self.out.trim_end_matches(' ').len());
        if !self.out.ends_with('\n') {
            self.out.push('\n');
        }
        self.out += match (self.quoted, self.depth) {
            (true, _) => "   ",
            (false, 0) => "  ",
            (false, _) => "    ",
        };
    }

    /// A comment stays on its line, or has lines of its own: those of an item, or before the next one.
    fn comment(&mut self, text: &str, breaks: usize, before_item: bool) {
        match (breaks > 0 || self.ended, self.out.is_empty()) {
            (_, true) => {}
            (true, _) if before_item => {
                if !self.ended || breaks > 1 {
                    self.end_line(breaks);
                }
            }
            (true, _) => self.new_line(),
            (false, _) => self.out.push(' '),
        }
        self.out += text;
        self.out.push('\n');
        self.ended = true;
    }

    fn blank_before(&self, token: &Token) -> bool {
        let last = self.last();
        let formula = self.item == "lemma" && !self.head;
        let tight = match token {
            Token::Sign(")" | "," | ":" | "^" | "*" | "/" | ">" | "-" | ".") => true,
            Token::Sign("\"") => self.quoted,
            Token::Sign("(") => {
                let called = matches!(last, Some(Token::Word(word)) if word != "not");
                called || is(last, &["("])
            }
            Token::Sign("]") => self.head,
            Token::Sign("[") => false,
            Token::Sign("<") => !ends_term(last) && is(last, &["(", "^", "*", "<"]),
            Token::Sign("=") => self.depth > 0 && !formula,
            _ => false,
        };
        !tight && !self.tight_after(formula)
    }

    /// Whether the last token wants no blank behind it.
    fn tight_after(&self, formula: bool) -> bool {
        let last = self.last();
        let before_last = self.before.len().checked_sub(2).map(|i| &self.before[i]);
        match last {
            Some(Token::Sign("(" | "~" | "$" | "#" | "!" | "?" | "^" | "*" | "/" | "-" | "¬")) => {
                true
            }
            Some(Token::Sign("\"")) => self.quoted,
            Some(Token::Sign("[")) => self.head,
            // It compares in a formula alone; elsewhere it begins a tuple.
            Some(Token::Sign("<")) => !(formula && ends_term(before_last)),
            Some(Token::Sign("=")) => self.depth > 0 && !formula,
            Some(Token::Sign(".")) => self.item == "graph",
            _ => false,
        }
    }

    fn finished(self) -> String {
        format!("{}\n", self.out.trim_end())
    }
}
