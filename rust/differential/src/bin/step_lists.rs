//! Writes one case for the test programs over step lists to standard output: `step_lists KIND NODES`. The kinds are what the values of the
//! nodes are: names, hashes, products, powers. tools/instructions counts what the programs need for them.

use differential::step_lists::{step_list, value};
use reference::cases::{data, Kind};
use std::io::Write;

fn main() {
    let words: Vec<String> = std::env::args().collect();
    let (kind, nodes) = (&words[1], words[2].parse().expect("a number of nodes"));
    let values: Vec<Vec<u8>> = (0..nodes).map(|node| value(kind, node)).collect();
    let case = step_list(Kind::Steps, &values);
    std::io::stdout().write_all(&data(&[case])).unwrap();
}
