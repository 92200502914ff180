//! The tool for people: text to bytes to ruling to words, bytes to text, pictures, and pages for a browser. Every ruling, every drawn edge and every
//! canonical form is the core's; the tool encodes, decodes, names, explains and shows.

pub mod answer;
pub mod arguments;
pub mod batch;
pub mod bytes;
pub mod case;
pub mod commands;
pub mod diagnose;
pub mod failure;
pub mod fill;
pub mod hint;
pub mod kernel;
pub mod layout;
pub mod man;
pub mod model;
pub mod page;
pub mod picture;
pub mod print;
pub mod render;
pub mod show;
pub mod table;
pub mod text;
pub mod watch;
pub mod witness;
