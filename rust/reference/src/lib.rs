//! Document 01, with document 02's Changes 1 to 5, once more, written for reading and not for speed: trees, vectors and maps.
//!
//! It is the other implementation beside which the proved one is tested, and shares no code with it.
//! A comment in quotation marks gives the first words of the sentence of document 01 that the code
//! stands for.

// Messages.

/// How many groups a number may have, a term file's limit, and the arities of aenc to true.
pub mod figures;

/// Numbers in groups of seven bits, and a reader over a file's bytes.
pub mod number;

/// Terms: tags, arities, reading and encoding.
pub mod term;

/// Canonical forms under the twelve equations.
pub mod canonical;

// Files and their meaning.

/// The refusal table's rows and items.
pub mod refusal;

/// The protocol file, its conditions (cause 4), and rules by number.
pub mod protocol;

/// Nodes: rules, values, facts; causes 3 and 6 to 9.
pub mod steps;

/// The multiset rewriting.
pub mod machine;

/// Edges; causes 10 to 13.
pub mod graph;

/// The writer's choice of sources; cause 14.
pub mod writer;

/// That choice once more, by its words alone.
pub mod earliest;

/// The property file; causes 3 and 5.
pub mod property;

/// The meaning of a property over a trace.
pub mod judge;

/// That meaning once more, by its words alone.
pub mod by_words;

/// The exported calls.
pub mod calls;

// For tests.

/// Terms in words, and bytes with such terms among them.
pub mod notation;

/// The cases of the test programs and their expected text.
pub mod cases;

/// The cases of tests/corpus.
pub mod corpus;

/// Random inputs: mostly good, some damaged.
pub mod generate;

/// What judging takes at most.
pub mod cost;

/// Random numbers from a fixed seed.
pub mod random;
