//! Bytes to trees and back. A fault has its place, so that a damaged file can be shown; only the core refuses.

mod read;
mod write;

pub use read::{graph, property, protocol, steps, term, Fault, Part};
pub use write::{encode_graph, encode_property, encode_protocol, encode_steps, encode_term};
