//! A hint where people err: a property about K sees only what the intruder sends (rule 2).

use crate::bytes;
use crate::case::Case;
use crate::kernel::{Kernel, Ruled, Ruling};
use crate::model::*;
use crate::print::Style;

/// More messages than this are not tried.
const MOST_TRIED: usize = 64;

/// Of a run whose property names K: what the intruder knows at its end and never sends.
pub fn never_sent(case: &Case, ruling: &Ruled) -> Option<String> {
    let (Some(graph), Some(formula), Ok(Ruling::Run(_))) = (&case.graph, &case.formula, ruling)
    else {
        return None;
    };
    if !formula.names(K) {
        return None;
    }
    let mut kernel = case.kernel();
    let unsent = unsent(graph, &case.protocol, &mut kernel);
    if unsent.is_empty() {
        return None;
    }
    let rule = "`K` in a property sees only what the intruder sends (isend)";
    let style = Style::of(&case.names);
    let tried = unsent.iter().take(MOST_TRIED);
    let telling: Vec<String> = tried
        .filter(|(message, _)| attacks_if_sent(case, graph, message, &mut kernel))
        .map(|(message, step)| format!("{} (step {step})", style.term(message)))
        .collect();
    Some(match telling.is_empty() {
        true => format!(
            "{rule}; at the end it knows {} messages that it has not sent.",
            unsent.len()
        ),
        false => format!(
            "Hint: {rule}. It knows {} and never sends it; with one step more that sends it, `isend(..)`, the ruling is an attack.",
            telling.join(", ")
        ),
    })
}

/// Known messages without an `isend`, each with the step that made it known.
fn unsent(graph: &Graph, protocol: &Protocol, kernel: &mut Kernel) -> Vec<(Term, usize)> {
    let mut known: Vec<(Term, usize)> = Vec::new();
    let mut sent = Vec::new();
    for (i, node) in graph.nodes.iter().enumerate() {
        let facts = kernel.facts(node, protocol);
        if node.rule == ISEND {
            sent.extend(facts.actions.into_iter().flat_map(|fact| fact.terms));
        }
        for message in facts.conclusions.into_iter().filter(|f| f.symbol == K) {
            let message = message.terms[0].clone();
            if known.iter().all(|(before, _)| *before != message) {
                known.push((message, i + 1));
            }
        }
    }
    known.retain(|(message, _)| !sent.contains(message));
    // What was made known last is most often what matters.
    known.reverse();
    known
}

/// What the core says of the same steps and one that sends the message.
fn attacks_if_sent(case: &Case, graph: &Graph, message: &Term, kernel: &mut Kernel) -> bool {
    let mut nodes = graph.nodes.clone();
    nodes.push(Node {
        rule: ISEND,
        values: vec![message.clone()],
    });
    let drawn = kernel.draw(&bytes::encode_steps(&nodes));
    let ruling = drawn.and_then(|graph| kernel.check(&case.property_bytes, &graph));
    matches!(ruling, Ok(Ruling::Attack(_)))
}
