//! Inputs of the calls check and draw.

use super::damage::{damage_file, overfill};
use super::judging::some_property;
use super::properties::Maker;
use super::runs::{encoded, run, some_edges, Run, Step};
use super::{crowded, exchanges, faults, numbers, protocols};
use crate::calls::WORK_AREA;
use crate::cases::trace;
use crate::graph::{write_edges, Edge};
use crate::property::Formula;
use crate::protocol::Protocol;
use crate::random::Random;
use crate::refusal::File;
use crate::writer;

/// What checking is given: three files, and the length of the work area.
#[derive(Clone, Debug, PartialEq, Eq)]
pub struct CheckInput {
    pub protocol: Vec<u8>,
    pub property: Vec<u8>,
    pub graph: Vec<u8>,
    pub work: usize,
}

/// What drawing is given: two files, and the lengths of the lent slices; and a property for what is drawn.
#[derive(Clone, Debug, PartialEq, Eq)]
pub struct DrawInput {
    pub protocol: Vec<u8>,
    pub steps: Vec<u8>,
    pub property: Vec<u8>,
    pub output: usize,
    pub work: usize,
}

/// The files as trees and lists.
struct Parts {
    protocol: Protocol,
    property: Formula,
    steps: Vec<Step>,
    edges: Vec<Edge>,
}

pub fn check_input(random: &mut Random) -> CheckInput {
    let parts = good(random);
    checked(random, parts)
}

/// Sessions of a key exchange with reveals: edges drawn or any, some of them rewired, a property that the trace matters to.
pub fn session_input(random: &mut Random) -> CheckInput {
    let mut parts = sessions(random);
    for _ in 0..*random.choose(&[0, 0, 0, 1, 2]) {
        faults::exchange_sources(random, &mut parts.edges);
    }
    checked(random, parts)
}

/// Graphs with many equal facts: edges drawn or any.
pub fn crowded_input(random: &mut Random) -> CheckInput {
    let parts = equal_facts(random);
    checked(random, parts)
}

/// The three files, perhaps with faults.
fn checked(random: &mut Random, mut parts: Parts) -> CheckInput {
    let faults = some_faults(random);
    for fault in &faults {
        spoil_checked(random, &mut parts, *fault);
    }
    let mut graph = encoded(&parts.steps);
    write_edges(&parts.edges, &mut graph);
    let mut input = CheckInput {
        protocol: parts.protocol.encoded(),
        property: parts.property.encoded(),
        graph,
        work: long_enough(random),
    };
    for fault in faults {
        match fault {
            80..82 => input.work = short(random),
            82..84 => overfill(random, &mut input.protocol, File::Protocol.limit()),
            84..86 => overfill(random, &mut input.property, File::Property.limit()),
            86..88 => overfill(random, &mut input.graph, File::Graph.limit()),
            88..90 => {
                let numbers = numbers::of_protocol(&parts.protocol);
                damage_file(random, &mut input.protocol, &numbers);
            }
            90..93 => {
                let numbers = numbers::of_property(&parts.property);
                damage_file(random, &mut input.property, &numbers);
            }
            93 if random.percent(30) => input.property = vec![*random.choose(&[13, 14, 127])],
            93 => input.property = faults::function(random, parts.property.clone()),
            94.. => {
                let numbers = numbers::of_graph(&parts.steps, &parts.edges);
                damage_file(random, &mut input.graph, &numbers);
            }
            _ => {}
        }
    }
    input
}

pub fn draw_input(random: &mut Random) -> DrawInput {
    let parts = good(random);
    drawn(random, parts)
}

/// Sessions of a key exchange, to be drawn.
pub fn session_steps(random: &mut Random) -> DrawInput {
    let parts = sessions(random);
    drawn(random, parts)
}

/// Steps with many equal facts, to be drawn.
pub fn crowded_steps(random: &mut Random) -> DrawInput {
    let parts = equal_facts(random);
    drawn(random, parts)
}

/// The two files, perhaps with faults.
fn drawn(random: &mut Random, mut parts: Parts) -> DrawInput {
    let faults = some_faults(random);
    for fault in &faults {
        spoil_drawn(random, &mut parts, *fault);
    }
    let steps = encoded(&parts.steps);
    let mut edges = Vec::new();
    write_edges(&parts.edges, &mut edges);
    // Right for a run without fault and near it for others.
    let need = steps.len() + edges.len();
    let mut input = DrawInput {
        protocol: parts.protocol.encoded(),
        steps,
        property: parts.property.encoded(),
        output: need + *random.choose(&[0, 0, 1, 9, 2_000]),
        work: long_enough(random),
    };
    for fault in faults {
        match fault {
            75..82 => input.output = *random.choose(&[0, need / 2, need - 1]),
            82..84 => input.work = short(random),
            84..87 => overfill(random, &mut input.protocol, File::Protocol.limit()),
            87..90 => overfill(random, &mut input.steps, File::Steps.limit()),
            90..93 => {
                let numbers = numbers::of_protocol(&parts.protocol);
                damage_file(random, &mut input.protocol, &numbers);
            }
            93.. => {
                let numbers = numbers::of_steps(&parts.steps);
                damage_file(random, &mut input.steps, &numbers);
            }
            _ => {}
        }
    }
    input
}

/// A fit protocol, a run of it with edges, and a fit property.
fn good(random: &mut Random) -> Parts {
    let length = match random.below(100) {
        0..12 => 105 + random.below(60),
        12..40 => 20 + random.below(50),
        _ => random.below(20),
    };
    let protocol = protocols::fit(random);
    let (steps, edges) = {
        let run = run(random, &protocol, length);
        let edges = some_edges(random, &protocol, &run.nodes);
        (run.steps, edges)
    };
    let most_quantifiers = if steps.len() > 60 { 2 } else { 3 };
    let property = Maker::new(&protocol, most_quantifiers).property(random);
    Parts {
        protocol,
        property,
        steps,
        edges,
    }
}

/// A key exchange, a run of it with edges, and a fit property.
fn sessions(random: &mut Random) -> Parts {
    let protocol = exchanges::exchange(random);
    let most = *random.choose(&[40, 80, 150]);
    let length = 5 + random.below(most);
    let run = run(random, &protocol, length);
    with_edges(random, &protocol, &run)
}

/// A protocol of few facts, a run of it with edges, and a fit property.
fn equal_facts(random: &mut Random) -> Parts {
    let few = crowded::protocol(random);
    let length = match random.below(100) {
        0..10 => 130 + random.below(60),
        _ => random.below(50),
    };
    let run = crowded::run(random, &few, length);
    with_edges(random, &few.protocol, &run)
}

/// A run with edges, drawn or any, and a property that its trace matters to.
fn with_edges(random: &mut Random, protocol: &Protocol, run: &Run) -> Parts {
    let mut edges = some_edges(random, protocol, &run.nodes);
    if random.percent(50) {
        edges = writer::edges(protocol, &run.nodes).expect("a run");
    }
    let most_quantifiers = if run.steps.len() > 60 { 2 } else { 3 };
    let maker = Maker::new(protocol, most_quantifiers);
    Parts {
        protocol: protocol.clone(),
        property: some_property(random, &maker, &trace(&run.nodes)),
        steps: run.steps.clone(),
        edges,
    }
}

/// Numbers of faults, each below 100; none in about half of the inputs.
fn some_faults(random: &mut Random) -> Vec<usize> {
    let count = *random.choose(&[0, 0, 0, 0, 1, 1, 1, 1, 2]);
    (0..count).map(|_| random.below(100)).collect()
}

fn long_enough(random: &mut Random) -> usize {
    WORK_AREA + *random.choose(&[0, 0, 0, 1, 5_000])
}

fn short(random: &mut Random) -> usize {
    *random.choose(&[0, 1, 1_024, WORK_AREA - 1])
}

/// The faults that are made before the files are written.
fn spoil_checked(random: &mut Random, parts: &mut Parts, fault: usize) {
    match fault {
        0..4 => protocols::break_condition(random, &mut parts.protocol),
        4..10 => protocols::stretch(random, &mut parts.protocol),
        10..14 => faults::rule_number(random, &parts.protocol, &mut parts.steps),
        14..24 => faults::value(random, &mut parts.steps),
        24..30 => faults::large_node(random, &mut parts.steps),
        30..36 => faults::name_again(random, &mut parts.steps),
        36..44 => faults::edge_end(random, &mut parts.edges),
        44..54 => faults::other_source(random, &mut parts.edges),
        54..60 => faults::edge_count(random, &mut parts.edges),
        60..72 => faults::source_twice(random, &mut parts.steps, &mut parts.edges),
        72..76 => parts.property = faults::scope(random, parts.property.clone()),
        76..80 => limits(random, parts),
        _ => {}
    }
}

/// One of the counts brought to its limit or one above it.
fn limits(random: &mut Random, parts: &mut Parts) {
    match random.below(5) {
        0 => parts.property = faults::nesting(random),
        1 => parts.property = faults::variables_in_scope(random),
        2 => parts.property = faults::new_variables(random),
        3 => faults::node_limit(random, &mut parts.steps),
        _ => faults::edge_limit(random, &mut parts.edges),
    }
}

fn spoil_drawn(random: &mut Random, parts: &mut Parts, fault: usize) {
    match fault {
        0..6 => protocols::break_condition(random, &mut parts.protocol),
        6..15 => protocols::stretch(random, &mut parts.protocol),
        15..23 => faults::rule_number(random, &parts.protocol, &mut parts.steps),
        23..38 => faults::value(random, &mut parts.steps),
        38..46 => faults::large_node(random, &mut parts.steps),
        46..54 => faults::name_again(random, &mut parts.steps),
        54..66 => faults::order(random, &mut parts.steps),
        66..73 => faults::twin(random, &mut parts.steps),
        73..75 => faults::node_limit(random, &mut parts.steps),
        _ => {}
    }
}
