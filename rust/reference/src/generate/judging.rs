//! Inputs of a verdict: a protocol, a property, and a step list, which need be no run.

use super::damage::damage;
use super::properties::{negated, Maker};
use super::runs::{encoded, run, Step};
use super::{faults, protocols};
use crate::cases::trace;
use crate::cost;
use crate::judge::{holds, Trace};
use crate::property::Formula;
use crate::random::Random;

#[derive(Clone, Debug, PartialEq, Eq)]
pub struct JudgeInput {
    pub protocol: Vec<u8>,
    pub property: Vec<u8>,
    pub steps: Vec<u8>,
}

pub fn judge_input(random: &mut Random) -> JudgeInput {
    let protocol = protocols::fit(random);
    let length = match random.below(100) {
        0..4 => 105 + random.below(60),
        4..20 => 20 + random.below(50),
        _ => 2 + random.below(18),
    };
    let run = run(random, &protocol, length);
    let most_quantifiers = if run.steps.len() > 60 { 2 } else { 3 };
    let maker = Maker::new(&protocol, most_quantifiers);
    let mut property = some_property(random, &maker, &trace(&run.nodes));
    let mut steps = run.steps;
    repeat(random, &mut steps);
    let fault = random.below(100);
    spoil(random, &mut property, &mut steps, fault);
    let mut input = JudgeInput {
        protocol: protocol.encoded(),
        property: Vec::new(),
        steps: encoded(&steps),
    };
    property.encode(&mut input.property);
    match fault {
        12..16 => damage(random, &mut input.property),
        16 => damage(random, &mut input.steps),
        17 => damage(random, &mut input.protocol),
        _ => {}
    }
    input
}

/// The first of some properties that the trace makes true or false otherwise than no nodes do, or the last of
/// them; it or its negation. One that takes long is not judged.
pub fn some_property(random: &mut Random, maker: &Maker, trace: &Trace) -> Formula {
    let mut property = maker.property(random);
    for _ in 0..3 {
        let quick = cost::of_trace(trace, &property) <= cost::A_SECOND;
        if quick && holds(trace, &[], &property) == holds(&[], &[], &property) {
            property = maker.property(random);
        }
    }
    if random.percent(50) {
        return negated(property);
    }
    property
}

/// Some nodes again, at any place. A name is made once.
fn repeat(random: &mut Random, steps: &mut Vec<Step>) {
    let others = steps.iter().filter(|step| step.rule != 0);
    let others: Vec<Step> = others.cloned().collect();
    for step in others {
        if random.percent(20) {
            steps.insert(random.below(steps.len() + 1), step);
        }
    }
}

/// The faults that are made before the files are written.
fn spoil(random: &mut Random, property: &mut Formula, steps: &mut Vec<Step>, fault: usize) {
    match fault {
        0..4 => *property = faults::scope(random, property.clone()),
        4 => *property = faults::nesting(random),
        5 => *property = faults::variables_in_scope(random),
        6 => *property = faults::new_variables(random),
        7 => faults::value(random, steps),
        8 => faults::large_node(random, steps),
        9 => faults::name_again(random, steps),
        10 => faults::node_limit(random, steps),
        _ => {}
    }
}
