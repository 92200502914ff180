//! Why the tool ends without doing what it was asked, and with which exit code.

use crate::model::Span;
use crate::print::{visible, visible_with};
use crate::text;
use codespan_reporting::diagnostic::{Diagnostic, Label};
use codespan_reporting::files::{self, Files, SimpleFile};
use codespan_reporting::term::termcolor::{Buffer, ColorChoice, StandardStream, WriteColor};
use codespan_reporting::term::{self, Chars, Config};
use std::fmt::Display;
use std::io::IsTerminal;
use std::path::Path;

pub const DONE: i32 = 0;
pub const WRONG_ARGUMENTS: i32 = 2;
pub const NO_TEXT: i32 = 3;
pub const NO_FILE: i32 = 4;
pub const ATTACK: i32 = 10;
pub const REFUSED: i32 = 11;
pub const DISAGREEMENT: i32 = 70;

/// A text with the name that messages give it.
#[derive(Clone, Debug)]
pub struct Source {
    pub name: String,
    pub text: String,
}

impl Source {
    /// Line and column of a byte, from 1.
    pub fn line_and_column(&self, at: usize) -> (usize, usize) {
        let before = &self.text[..at.min(self.text.len())];
        let line = before.matches('\n').count() + 1;
        let start = before.rfind('\n').map_or(0, |i| i + 1);
        (line, before[start..].chars().count() + 1)
    }

    /// A message with file, line, column, the line itself and a caret.
    pub fn message(&self, error: &text::Error) -> String {
        let mut buffer = Buffer::no_color();
        self.emit(error, &mut buffer);
        String::from_utf8_lossy(buffer.as_slice()).into_owned()
    }

    /// The same to standard error, in colours on a terminal.
    pub fn complain(&self, error: &text::Error) {
        let colours = match std::io::stderr().is_terminal() {
            true => ColorChoice::Auto,
            false => ColorChoice::Never,
        };
        self.emit(error, &mut StandardStream::stderr(colours));
    }

    fn emit(&self, error: &text::Error, writer: &mut dyn WriteColor) {
        let (text, span) = visible_with(&self.text, &error.span);
        let file = Shown {
            file: SimpleFile::new(visible(&self.name), text),
            column: self.line_and_column(error.span.start).1,
        };
        let label = Label::primary((), span).with_message(visible(&error.label));
        let notes = error.notes.iter().map(|note| visible(note)).collect();
        let diagnostic = Diagnostic::error()
            .with_message(visible(&error.message))
            .with_labels(vec![label])
            .with_notes(notes);
        let config = Config {
            chars: Chars::ascii(),
            ..Config::default()
        };
        // Where standard error is closed there is no one to tell.
        let _ = term::emit(writer, &config, &file, &diagnostic);
    }
}

/// A text made visible, with the column that the place of an error has in the text itself.
struct Shown {
    file: SimpleFile<String, String>,
    column: usize,
}

impl<'a> Files<'a> for Shown {
    type FileId = ();
    type Name = &'a str;
    type Source = &'a str;

    fn name(&'a self, (): ()) -> Result<&'a str, files::Error> {
        Ok(self.file.name())
    }

    fn source(&'a self, (): ()) -> Result<&'a str, files::Error> {
        Ok(self.file.source())
    }

    fn line_index(&'a self, (): (), at: usize) -> Result<usize, files::Error> {
        self.file.line_index((), at)
    }

    fn line_range(&'a self, (): (), line: usize) -> Result<Span, files::Error> {
        self.file.line_range((), line)
    }

    fn column_number(&'a self, (): (), _: usize, _: usize) -> Result<usize, files::Error> {
        Ok(self.column)
    }
}

#[derive(Debug)]
pub enum Failure {
    Arguments(String),
    Text(Box<(Source, text::Error)>),
    File(String),
    Disagreement(String),
}

impl Failure {
    /// A file that cannot be read or written.
    pub fn file(path: &Path, error: impl Display) -> Failure {
        Failure::File(format!("{}: {error}", path.display()))
    }

    /// What happened, in one line.
    pub fn line(&self) -> String {
        match self {
            Failure::Text(both) => {
                let (source, error) = &**both;
                let (line, column) = source.line_and_column(error.span.start);
                format!("{}:{line}:{column}: {}", source.name, error.message)
            }
            Failure::Arguments(message)
            | Failure::File(message)
            | Failure::Disagreement(message) => message.clone(),
        }
    }

    /// Says what happened on standard error, and gives the exit code.
    pub fn report(&self) -> i32 {
        match self {
            Failure::Text(both) => {
                let (source, error) = &**both;
                source.complain(error);
                NO_TEXT
            }
            Failure::Arguments(message) => said(message, WRONG_ARGUMENTS),
            Failure::File(message) => said(message, NO_FILE),
            Failure::Disagreement(message) => said(message, DISAGREEMENT),
        }
    }
}

fn said(message: &str, code: i32) -> i32 {
    tell(&format!("error: {message}"));
    code
}

/// To standard error.
pub fn tell(text: &str) {
    eprintln!("{}", visible(text));
}
