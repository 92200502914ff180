//! Writes the inputs that need most stack to standard output, with what the reference answers, in the layout of tests/corpus/cases.bin.

use differential::deepest::deepest;
use std::io::Write;

fn main() {
    std::io::stdout().write_all(&deepest()).unwrap();
}
