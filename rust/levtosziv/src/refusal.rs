//! The refusal table.

use std::error::Error;
use std::fmt;

/// Document 01's refusal: its number and its item.
#[derive(Clone, Copy, Debug, PartialEq, Eq)]
pub struct Refusal {
    /// The number of the refusal table.
    pub number: u32,
    /// Where it is: a file, rule, node or edge, or how many bytes are needed; [`Cause`] says which.
    pub item: u32,
}

/// The causes of the refusal table, by their numbers.
#[derive(Clone, Copy, Debug, PartialEq, Eq)]
#[non_exhaustive]
pub enum Cause {
    /// The work area is short; the item is 0.
    WorkAreaShort = 1,
    /// A file is over its byte limit; the item is the file: 1 protocol, 2 property, 3 graph, 4 term, 5 steps.
    FileTooLong = 2,
    /// A file is not laid out as one of its kind; the item is the file.
    Layout = 3,
    /// A rule breaks one of the conditions P1 to P5; the item is the rule, from 1.
    ConditionsBroken = 4,
    /// A variable of the property is out of scope, of the wrong sort, or new and not in its guard; the item is 0.
    Variable = 5,
    /// There is no such rule; the item is the node, from 1.
    NoSuchRule = 6,
    /// A value is not canonical, holds a variable, has the wrong sort, or is too large; the item is the node.
    Value = 7,
    /// A filled-in term is too large; the item is the node, or 0 for a term.
    TermTooLarge = 8,
    /// A fresh name is made twice; the item is the later node.
    NameMadeTwice = 9,
    /// An edge's end is missing, or its source is not earlier; the item is the edge, from 1.
    EdgeEnd = 10,
    /// The two facts of an edge differ; the item is the edge.
    FactsDiffer = 11,
    /// A premise has not exactly one edge; the item is the node.
    PremiseEdges = 12,
    /// A linear conclusion is used twice; the item is its node.
    UsedTwice = 13,
    /// A premise is not in the state; the item is the first such node.
    NotInState = 14,
    /// The output is short; the item is the bytes that are needed.
    OutputShort = 15,
}

impl Cause {
    /// All causes, in the order of their numbers.
    pub const ALL: [Cause; 15] = [
        Cause::WorkAreaShort,
        Cause::FileTooLong,
        Cause::Layout,
        Cause::ConditionsBroken,
        Cause::Variable,
        Cause::NoSuchRule,
        Cause::Value,
        Cause::TermTooLarge,
        Cause::NameMadeTwice,
        Cause::EdgeEnd,
        Cause::FactsDiffer,
        Cause::PremiseEdges,
        Cause::UsedTwice,
        Cause::NotInState,
        Cause::OutputShort,
    ];

    /// The cause in words.
    pub fn words(self) -> &'static str {
        match self {
            Cause::WorkAreaShort => "the work area is short",
            Cause::FileTooLong => "a file is over its byte limit",
            Cause::Layout => "a file is not laid out as one of its kind",
            Cause::ConditionsBroken => "a rule breaks one of the conditions P1 to P5",
            Cause::Variable => "a variable of the property is out of scope, of the wrong sort, or new and not in its guard",
            Cause::NoSuchRule => "there is no such rule",
            Cause::Value => "a value is not canonical, holds a variable, has the wrong sort, or is too large",
            Cause::TermTooLarge => "a filled-in term is too large",
            Cause::NameMadeTwice => "a fresh name is made twice",
            Cause::EdgeEnd => "an edge's end is missing, or its source is not earlier",
            Cause::FactsDiffer => "the two facts of an edge differ",
            Cause::PremiseEdges => "a premise has not exactly one edge",
            Cause::UsedTwice => "a linear conclusion is used twice",
            Cause::NotInState => "a premise is not in the state",
            Cause::OutputShort => "the output is short",
        }
    }
}

impl Refusal {
    /// The cause of this number; none where the table has no such number, which no proved call answers.
    ///
    /// ```
    /// use levtosziv::{Cause, Refusal};
    ///
    /// let refusal = Refusal { number: 12, item: 4 };
    /// assert_eq!(refusal.cause(), Some(Cause::PremiseEdges));
    /// assert_eq!(Cause::PremiseEdges as u32, refusal.number);
    /// assert_eq!(refusal.to_string(), "refused 12 4: a premise has not exactly one edge (node 4)");
    /// ```
    pub fn cause(&self) -> Option<Cause> {
        let is = |cause: &Cause| *cause as u32 == self.number;
        Cause::ALL.into_iter().find(is)
    }
}

/// Where the item of a cause is, in words; empty where it has none.
fn place(cause: Cause, item: u32) -> String {
    let files = [
        "the protocol",
        "the property",
        "the graph",
        "the term",
        "the steps",
    ];
    match cause {
        Cause::FileTooLong | Cause::Layout => {
            let file = (item as usize).checked_sub(1).and_then(|i| files.get(i));
            file.map_or(String::new(), |file| format!(" ({file})"))
        }
        Cause::ConditionsBroken => format!(" (rule {item})"),
        Cause::EdgeEnd | Cause::FactsDiffer => format!(" (edge {item})"),
        Cause::OutputShort => format!(" ({item} bytes are needed)"),
        Cause::WorkAreaShort | Cause::Variable => String::new(),
        _ if item == 0 => String::new(),
        _ => format!(" (node {item})"),
    }
}

impl fmt::Display for Refusal {
    fn fmt(&self, f: &mut fmt::Formatter) -> fmt::Result {
        write!(f, "refused {} {}", self.number, self.item)?;
        match self.cause() {
            Some(cause) => write!(f, ": {}{}", cause.words(), place(cause, self.item)),
            None => Ok(()),
        }
    }
}

impl Error for Refusal {}

#[cfg(test)]
mod tests {
    use super::*;

    /// The C header has the same numbers and words.
    #[test]
    fn the_header_says_the_same() {
        let header = include_str!("../../../include/levtosziv.h");
        for (i, cause) in Cause::ALL.into_iter().enumerate() {
            assert_eq!(cause as usize, i + 1);
            assert!(
                header.contains(&format!("return \"{}\";", cause.words())),
                "{cause:?}"
            );
        }
    }

    #[test]
    fn each_refusal_has_its_words() {
        let said = |number, item| Refusal { number, item }.to_string();
        assert_eq!(
            said(2, 5),
            "refused 2 5: a file is over its byte limit (the steps)"
        );
        assert_eq!(
            said(15, 26),
            "refused 15 26: the output is short (26 bytes are needed)"
        );
        assert_eq!(said(8, 0), "refused 8 0: a filled-in term is too large");
        assert_eq!(said(99, 0), "refused 99 0");
    }
}
