//! A random input through the call that it is for.

use reference::calls::{check, draw, Outcome};
use reference::generate::graphs::{check_input, draw_input};
use reference::random::Random;

/// Checks a graph or draws steps; the protocol, the nodes and the outcome.
pub fn ruled(random: &mut Random, checking: bool) -> ([Vec<u8>; 2], Outcome) {
    if checking {
        let input = check_input(random);
        let mut work = vec![0; input.work];
        let outcome = check(&input.protocol, &input.property, &input.graph, &mut work);
        return ([input.protocol, input.graph], outcome);
    }
    let input = draw_input(random);
    let (mut output, mut work) = (vec![0; input.output], vec![0; input.work]);
    let outcome = draw(&input.protocol, &input.steps, &mut output, &mut work);
    ([input.protocol, input.steps], outcome)
}
