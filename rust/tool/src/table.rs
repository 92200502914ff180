//! The refusal table in words.

use crate::model::{apply_rule, limits, AENC, FIRST_RULE, ONE, TRUE};
use crate::print::grouped;
use levtosziv::{Cause, WORK_BYTES};

/// A row of the table.
pub struct Row {
    pub cause: Cause,
    /// What the item is.
    pub item: &'static str,
    /// What to look at.
    pub advice: fn() -> String,
    /// A text that is refused so; empty where a text cannot be.
    pub example: &'static str,
}

const FILE: &str = "the file: 1 protocol, 2 property, 3 graph, 4 term, 5 steps";

pub const ROWS: [Row; 15] = [
    Row {
        cause: Cause::WorkAreaShort,
        item: "0",
        advice: || format!("Lend {} bytes. The tool always does.", grouped(WORK_BYTES)),
        example: "",
    },
    Row {
        cause: Cause::FileTooLong,
        item: FILE,
        advice: || {
            format!(
                "A protocol has at most {} bytes, a property {}, steps {}, a graph {}, a term {}.",
                grouped(limits::PROTOCOL_BYTES),
                grouped(limits::PROPERTY_BYTES),
                grouped(limits::STEPS_BYTES),
                grouped(limits::GRAPH_BYTES),
                grouped(limits::TERM_BYTES)
            )
        },
        example: "",
    },
    Row {
        cause: Cause::Layout,
        item: FILE,
        advice: || {
            format!(
                "A count over its limit, a number over {} or not in its shortest form, an undeclared symbol or rule variable, a function in a property, bytes missing or left over.",
                grouped(limits::LARGEST_NUMBER)
            )
        },
        example: "rule A: [ In(a), In(b), In(c), In(d), In(e), In(f), In(g), In(i), In(j) ] --> [ ]\nlemma l: F\nrun r:\n",
    },
    Row {
        cause: Cause::ConditionsBroken,
        item: "the rule, from 1",
        advice: || "P1: no fresh name in a rule. P2: no K or Out among premises. P3: no K, In or Fr among conclusions. \
            P4: each variable of a conclusion is in a premise or is of sort public. \
            P5: so is each variable of an action.".into(),
        example: "rule A: [ ] --> [ Out(x) ]\nlemma l: F\nrun r:\n",
    },
    Row {
        cause: Cause::Variable,
        item: "0",
        advice: || "Each new variable of a quantifier stands in the action behind it, or is that action's time.".into(),
        example: "rule A: [ ] --[ A($x) ]-> [ ]\nlemma l: All x y #i. A(x) @ #i ==> x = y\nrun r:\n",
    },
    Row {
        cause: Cause::NoSuchRule,
        item: "the node, from 1",
        advice: || {
            format!(
                "Rules are numbered 0 to 4, {} up for each function, {FIRST_RULE} up for the protocol's own, {} to {} for the functions of public keys and signatures. \
                In a text a rule has a name, so only bytes can be refused so.",
                apply_rule(ONE),
                apply_rule(AENC),
                apply_rule(TRUE)
            )
        },
        example: "",
    },
    Row {
        cause: Cause::Value,
        item: "the node, from 1",
        advice: || {
            format!(
                "`levtosziv term` gives the canonical form; a run that is not marked [exact] gets it by itself. A value has at most {} symbols.",
                limits::VALUE_SYMBOLS
            )
        },
        example: "lemma l: F\nrun r [exact]:\n  irecv(fst(<'a', 'b'>))\n",
    },
    Row {
        cause: Cause::TermTooLarge,
        item: "the node, from 1 (0 for a term)",
        advice: || {
            format!(
                "A term of a rule has at most {} symbols once the values are in place of its variables, before it is brought to canonical form.",
                limits::FILLED_IN_SYMBOLS
            )
        },
        example: "rule A: [ In(x) ] --> [ Out(<x, x, x, x, x, x, x, x, x, x, x, x, x, x, x, x, x>) ]\nlemma l: F\n\
            run r:\n  A(<'a', 'a', 'a', 'a', 'a', 'a', 'a', 'a'>)\n",
    },
    Row {
        cause: Cause::NameMadeTwice,
        item: "the later node, from 1",
        advice: || "Each name is made by one `fresh` step at most.".into(),
        example: "lemma l: F\nrun r:\n  fresh(~a)\n  fresh(~a)\n",
    },
    Row {
        cause: Cause::EdgeEnd,
        item: "the edge, from 1",
        advice: || "An edge goes from a conclusion of one node to a premise of a later one; all are counted from 1.".into(),
        example: "lemma l: F\ngraph g:\n  fresh(~a)\n  ifresh(~a)\n  edges: 1.2 -> 2.1\n",
    },
    Row {
        cause: Cause::FactsDiffer,
        item: "the edge, from 1",
        advice: || "The conclusion must equal the premise, by the equations.".into(),
        example: "lemma l: F\ngraph g:\n  fresh(~a)\n  fresh(~b)\n  ifresh(~b)\n  edges: 1.1 -> 3.1\n",
    },
    Row {
        cause: Cause::PremiseEdges,
        item: "the node, from 1",
        advice: || "Just one edge goes into each premise. An edge listed twice is two edges.".into(),
        example: "lemma l: F\ngraph g:\n  fresh(~a)\n  ifresh(~a)\n  edges:\n",
    },
    Row {
        cause: Cause::UsedTwice,
        item: "its node, from 1",
        advice: || "A linear fact goes to one premise at most; K and other persistent facts to any number.".into(),
        example: "lemma l: F\ngraph g:\n  fresh(~a)\n  ifresh(~a)\n  ifresh(~a)\n  edges: 1.1 -> 2.1, 1.1 -> 3.1\n",
    },
    Row {
        cause: Cause::NotInState,
        item: "the first such node, from 1",
        advice: || "A step needs its premises: made before, and if linear not used up since. A run marked [fill] gets the intruder's steps by itself.".into(),
        example: "lemma l: F\nrun r:\n  ifresh(~a)\n",
    },
    Row {
        cause: Cause::OutputShort,
        item: "the bytes that are needed",
        advice: || {
            format!(
                "An output of {} bytes is long enough for every graph, {} for every term. The tool lends these.",
                grouped(limits::GRAPH_BYTES),
                grouped(limits::TERM_BYTES)
            )
        },
        example: "",
    },
];

pub fn row(number: u32) -> Option<&'static Row> {
    ROWS.iter().find(|row| row.cause as u32 == number)
}
