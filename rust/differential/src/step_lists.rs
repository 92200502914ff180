//! Step lists of one kind of value each, under the empty protocol.

use reference::cases::{Case, Kind};

/// Fresh names; h twenty times over a name; products of twelve names; powers of a public name with eight factors.
pub const KINDS: [&str; 4] = ["names", "hashes", "products", "powers"];

/// No free function, no own fact symbol, no rule.
pub const PROTOCOL: [u8; 3] = [0, 0, 0];

/// "2: K(y) to In(y) with action K(y)."
pub const INJECT: u8 = 2;

const PUBLIC: u8 = 1;
const FRESH: u8 = 2;
const H: u8 = 6;
const EXP: u8 = 10;
const MUL: u8 = 12;

/// "80 01 is 128": a number of two groups or one.
fn number(n: usize) -> Vec<u8> {
    if n < 128 {
        vec![n as u8]
    } else {
        vec![(n % 128) as u8 + 128, (n / 128) as u8]
    }
}

fn fresh(n: usize) -> Vec<u8> {
    [vec![FRESH], number(n)].concat()
}

/// The canonical product of n names, ascending by their bytes.
fn product(first: usize, n: usize) -> Vec<u8> {
    let mut names: Vec<Vec<u8>> = (first..first + n).map(fresh).collect();
    names.sort();
    let last = names.pop().unwrap();
    let firsts = names.into_iter().flat_map(|x| [vec![MUL], x].concat());
    firsts.chain(last).collect()
}

/// Values of a kind, another one for each number.
pub fn value(kind: &str, number: usize) -> Vec<u8> {
    match kind {
        "names" => fresh(number),
        "hashes" => [vec![H; 20], fresh(number)].concat(),
        "products" => product(number, 12),
        "powers" => [vec![EXP, PUBLIC, 0], product(number, 8)].concat(),
        _ => panic!("one of {KINDS:?}"),
    }
}

/// A node of rule 2 for each value.
pub fn step_list(kind: Kind, values: &[Vec<u8>]) -> Case {
    let nodes = values
        .iter()
        .flat_map(|value| [&[INJECT], &value[..]].concat());
    Case {
        kind,
        label: String::new(),
        under: PROTOCOL.to_vec(),
        bytes: number(values.len()).into_iter().chain(nodes).collect(),
    }
}
