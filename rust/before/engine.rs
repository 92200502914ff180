// The reference's own text, for a package that has a `figures` of its own.

#[path = "../reference/src/number.rs"]
pub mod number;

#[path = "../reference/src/term.rs"]
pub mod term;

#[path = "../reference/src/canonical.rs"]
pub mod canonical;

#[path = "../reference/src/refusal.rs"]
pub mod refusal;

#[path = "../reference/src/protocol.rs"]
pub mod protocol;

#[path = "../reference/src/steps.rs"]
pub mod steps;

#[path = "../reference/src/machine.rs"]
pub mod machine;

#[path = "../reference/src/graph.rs"]
pub mod graph;

#[path = "../reference/src/writer.rs"]
pub mod writer;

#[path = "../reference/src/property.rs"]
pub mod property;

#[path = "../reference/src/judge.rs"]
pub mod judge;

#[path = "../reference/src/calls.rs"]
pub mod calls;
