//! Faults in the nodes, the edges or the property, each meant for one cause of refusal.

use super::numbers::wide;
use super::properties::wrap;
use super::protocols::{fact_of, nested};
use super::runs::Step;
use crate::graph::{Edge, MOST_EDGES};
use crate::number::LARGEST;
use crate::property::{Formula, Quantifier, Sort, MOST_NESTING, MOST_NEW};
use crate::protocol::{number_of, numbered, Numbered, Protocol, K, MOST_RULES};
use crate::random::Random;
use crate::steps::{MOST_NODES, MOST_VALUE_SYMBOLS};
use crate::term::*;

/// A rule number that no rule has: cause 6. Behind the free functions; behind the protocol's rules, up to the apply-rules of aenc to true;
/// behind these; or of as many groups as there may be.
pub fn rule_number(random: &mut Random, protocol: &Protocol, steps: &mut [Step]) {
    if steps.is_empty() {
        return;
    }
    let place = random.below(steps.len());
    let applies = |tag: u32| number_of(Numbered::Apply(tag));
    let behind_functions = applies(FREE) + protocol.signature.free.len() as u32;
    let behind_rules = number_of(Numbered::Own(0)) + protocol.rules.len() as u32;
    let between = behind_rules + random.below(MOST_RULES as usize) as u32;
    let behind_all = applies(TRUE) + 1;
    let wide = wide(random, steps[place].rule);
    let numbers = [
        behind_functions,
        applies(AENC - 1),
        behind_rules,
        between,
        applies(AENC) - 1,
        behind_all,
        behind_all + random.below(27) as u32,
        wide,
        wide,
    ];
    let none = numbers
        .into_iter()
        .filter(|number| protocol.rule(*number).is_none());
    steps[place].rule = *random.choose(&none.collect::<Vec<u32>>());
}

/// A value that is not right: cause 7.
pub fn value(random: &mut Random, steps: &mut [Step]) {
    let values: Vec<&mut Term> = steps.iter_mut().flat_map(|step| &mut step.values).collect();
    if values.is_empty() {
        return;
    }
    let place = random.below(values.len());
    let value = values.into_iter().nth(place).expect("within");
    let old = value.clone();
    let key = || Term::Public(Public(0));
    let public_key = |key| Term::apply(PK, [key]);
    *value = match random.below(10) {
        0 => Term::apply(INV, [Term::apply(INV, [old])]),
        1 => Term::apply(MUL, [old, Term::one()]),
        2 => Term::apply(FST, [Term::apply(PAIR, [old, Term::one()])]),
        3 => {
            let number = random.below(3) as u32;
            let wide = wide(random, number);
            Term::Variable(*random.choose(&[number, wide]))
        }
        4 => nested(MOST_VALUE_SYMBOLS + random.below(2)),
        5 => Term::apply(H, [old]),
        7 => {
            // Right where the keys differ.
            let cipher = Term::apply(AENC, [old, public_key(key())]);
            Term::apply(ADEC, [cipher, random.choose(&[key(), Term::one()]).clone()])
        }
        8 => {
            let signature = Term::apply(SIGN, [old.clone(), key()]);
            let shown = public_key(random.choose(&[key(), Term::one()]).clone());
            Term::apply(VERIFY, [signature, old, shown])
        }
        // Right where no sort is asked.
        9 => Term::apply(TRUE, []),
        _ => match old {
            Term::Fresh(Fresh(number)) => Term::Public(Public(number)),
            Term::Public(Public(number)) => Term::Fresh(Fresh(number)),
            other => Term::apply(EXP, [other, Term::one()]),
        },
    };
}

/// A node that applies a function of arity 2 to two values of 128 symbols, or verify to three, or to three that are one symbol too large:
/// cause 8; or to values that are just not too large, which is no fault.
pub fn large_node(random: &mut Random, steps: &mut Vec<Step>) {
    const MOST: usize = MOST_VALUE_SYMBOLS;
    let fewer = usize::from(random.percent(20));
    let place = random.below(steps.len() + 1);
    let tag = *random.choose(&[ENC, ENC, AENC, SIGN, VERIFY, VERIFY]);
    let sizes = match (tag, random.below(3)) {
        (VERIFY, 0) => vec![MOST; 3],
        (VERIFY, 1) => vec![MOST, MOST - 1 - fewer, 1],
        (VERIFY, _) => vec![MOST / 2, MOST / 2, MOST - fewer],
        _ => vec![MOST - fewer, MOST],
    };
    let step = Step {
        rule: number_of(Numbered::Apply(tag)),
        values: sizes.into_iter().map(nested).collect(),
    };
    steps.insert(place, step);
}

/// Whether a node is of the protocol's rules.
fn is_own(step: &Step) -> bool {
    matches!(numbered(step.rule), Some(Numbered::Own(_)))
}

/// A name made again at the end: cause 9.
pub fn name_again(random: &mut Random, steps: &mut Vec<Step>) {
    let makers: Vec<Step> = steps
        .iter()
        .filter(|step| step.rule == 0)
        .cloned()
        .collect();
    if makers.is_empty() {
        let name = Term::Fresh(Fresh(0));
        let step = Step {
            rule: 0,
            values: vec![name],
        };
        steps.extend([step.clone(), step]);
    } else {
        steps.push(random.choose(&makers).clone());
    }
}

/// A node taken away, doubled or moved: cause 14 where it matters.
pub fn order(random: &mut Random, steps: &mut Vec<Step>) {
    if steps.is_empty() {
        return;
    }
    let place = random.below(steps.len());
    match random.below(3) {
        0 => drop(steps.remove(place)),
        1 => {
            let step = steps[place].clone();
            steps.push(step);
        }
        _ => {
            let step = steps.remove(place);
            steps.insert(0, step);
        }
    }
}

/// One of two nodes that inject the same message taken away, before a node of the protocol that perhaps takes both: cause 14 then. Where
/// there are none, any other fault of order.
pub fn twin(random: &mut Random, steps: &mut Vec<Step>) {
    let is_twin = |place: &usize| {
        let (step, next) = (&steps[*place], &steps[place + 1]);
        let before = &steps[..*place];
        let again = |other: &Step| other.rule == 2 && other.values == step.values;
        step.rule == 2 && is_own(next) && before.iter().any(again)
    };
    let twins: Vec<usize> = (0..steps.len().saturating_sub(1)).filter(is_twin).collect();
    if twins.is_empty() {
        return order(random, steps);
    }
    steps.remove(*random.choose(&twins));
}

/// A field of an edge changed: cause 10, and sometimes 11 or 12.
pub fn edge_end(random: &mut Random, edges: &mut [Edge]) {
    if edges.is_empty() {
        return;
    }
    let place = random.below(edges.len());
    let edge = &mut edges[place];
    match random.below(8) {
        0 => edge.source = 0,
        1 => edge.conclusion = 0,
        2 => edge.premise += 1 + random.below(2),
        3 => edge.conclusion += 1 + random.below(2),
        4 => {
            let fields = [
                &mut edge.source,
                &mut edge.conclusion,
                &mut edge.target,
                &mut edge.premise,
            ];
            let field = fields.into_iter().nth(random.below(4)).expect("four");
            *field = wide(random, *field as u32) as usize;
        }
        5 => edge.source = edge.target,
        6 => std::mem::swap(&mut edge.source, &mut edge.target),
        _ => edge.target += 1,
    }
}

/// An edge from some earlier node: cause 11, if the facts differ.
pub fn other_source(random: &mut Random, edges: &mut [Edge]) {
    if edges.is_empty() {
        return;
    }
    let other = *random.choose(edges);
    let later: Vec<usize> = (0..edges.len())
        .filter(|place| edges[*place].target > other.source)
        .collect();
    if later.is_empty() {
        return;
    }
    let place = *random.choose(&later);
    edges[place].source = other.source;
    edges[place].conclusion = other.conclusion;
}

/// Two edges exchange their sources: cause 11 where the facts differ, no fault where they are equal. Sources stay
/// earlier.
pub fn exchange_sources(random: &mut Random, edges: &mut [Edge]) {
    if edges.is_empty() {
        return;
    }
    let [first, second] = [(); 2].map(|()| random.below(edges.len()));
    let (one, other) = (edges[first], edges[second]);
    if one.source >= other.target || other.source >= one.target {
        return;
    }
    (edges[first].source, edges[first].conclusion) = (other.source, other.conclusion);
    (edges[second].source, edges[second].conclusion) = (one.source, one.conclusion);
}

/// An edge too few or too many: cause 12.
pub fn edge_count(random: &mut Random, edges: &mut Vec<Edge>) {
    if edges.is_empty() {
        return;
    }
    let place = random.below(edges.len());
    if random.percent(50) {
        edges.remove(place);
    } else {
        let edge = edges[place];
        edges.insert(random.below(edges.len() + 1), edge);
    }
}

/// A node doubled, and the edges into it: cause 13, if one of its premises is linear.
pub fn source_twice(random: &mut Random, steps: &mut Vec<Step>, edges: &mut Vec<Edge>) {
    // Rules 1 and 4 take a linear fact, protocol rules mostly do.
    let takes_linear = |step: &Step| matches!(step.rule, 1 | 4) || is_own(step);
    let numbered = (1..).zip(&*steps);
    let targets: Vec<usize> = numbered
        .filter(|(_, step)| takes_linear(step))
        .map(|(target, _)| target)
        .collect();
    if targets.is_empty() {
        return;
    }
    let target = *random.choose(&targets);
    steps.push(steps[target - 1].clone());
    let into = edges.iter().filter(|edge| edge.target == target);
    let again = into.map(|edge| Edge {
        target: steps.len(),
        ..*edge
    });
    let again: Vec<Edge> = again.collect();
    edges.extend(again);
}

/// A variable out of scope, of the wrong sort, or not in its guard: cause 5.
pub fn scope(random: &mut Random, property: Formula) -> Formula {
    let [first, second] = [0, 1].map(Term::Variable);
    let over = |new: &[Sort], term: &Term, time: u32, body: Formula| {
        Formula::Exists(Quantifier {
            new: new.to_vec(),
            guard: fact_of(K, term.clone()),
            time,
            body: Box::new(body),
        })
    };
    let both = [Sort::Message, Sort::Time];
    let name = Term::Public(Public(0));
    let wide = [0, 1].map(|number| wide(random, number));
    let unfit = match random.below(12) {
        0 => Formula::Equal(name, first),
        1 => Formula::Before(0, 0),
        2 => over(&both, &first, 1, Formula::Unequal(first.clone(), second)),
        3 => over(&both, &first, 1, Formula::SameTime(0, 1)),
        4 => over(&both, &first, 1, Formula::NotBefore(1, 2)),
        5 => over(&both, &name, 1, Formula::False),
        6 => over(&both, &second, 1, Formula::False),
        7 => over(&[Sort::Message], &first, 0, Formula::False),
        8 => Formula::Equal(name, Term::Variable(wide[0])),
        9 => over(&both, &first, 1, Formula::SameTime(1, wide[1])),
        10 => over(&both, &Term::Variable(wide[0]), wide[1], Formula::False),
        _ => over(&[Sort::Time, Sort::Time], &name, 0, Formula::False),
    };
    match random.below(3) {
        0 => unfit,
        1 => Formula::And(Box::new(unfit), Box::new(property)),
        _ => Formula::Or(Box::new(property), Box::new(unfit)),
    }
}

/// One of aenc to true, or a tag that no function has, stands for a term, all its arguments there; or is a formula's tag: cause 3.
pub fn function(random: &mut Random, property: Formula) -> Vec<u8> {
    let tag = AENC + random.below((TRUE + 2 - AENC) as usize) as u32;
    let arity = Signature::default().arity(tag).unwrap_or(0);
    let name = || Term::Public(Public(0));
    let term = Term::apply(tag, (0..arity).map(|_| name()));
    let formula = match random.below(5) {
        0 => Formula::Equal(term.clone(), term),
        1 => Formula::Unequal(name(), term),
        2 => Formula::Exists(Quantifier {
            new: vec![Sort::Time],
            guard: fact_of(K, term),
            time: 0,
            body: Box::new(property),
        }),
        3 => Formula::Exists(Quantifier {
            new: vec![Sort::Time],
            guard: fact_of(K, name()),
            time: 0,
            body: Box::new(Formula::NoAction(fact_of(K, term), 0)),
        }),
        _ => return vec![tag as u8],
    };
    match random.percent(50) {
        true => formula.encoded(),
        false => Formula::Or(Box::new(Formula::False), Box::new(formula)).encoded(),
    }
}

/// As many levels as are allowed, or one more: cause 3.
pub fn nesting(random: &mut Random) -> Formula {
    let levels = MOST_NESTING - 1 + random.below(2);
    wrap(random, Formula::False, levels)
}

/// As many variables in scope as are allowed, or one more: cause 3. The outermost guard has no match.
pub fn variables_in_scope(random: &mut Random) -> Formula {
    let last = 1 + random.below(2);
    let mut counts = vec![2; 7];
    counts.push(last);
    let mut in_scope = 15 + last as u32;
    let mut formula = Formula::False;
    for new in counts.into_iter().rev() {
        in_scope -= new as u32;
        let message = Term::Variable(in_scope);
        formula = Formula::ForAll(Quantifier {
            new: [Sort::Message, Sort::Time][..new].to_vec(),
            guard: fact_of(K, message),
            time: if new == 2 { in_scope + 1 } else { 0 },
            body: Box::new(formula),
        });
    }
    let formula = Formula::ForAll(Quantifier {
        new: vec![Sort::Time],
        guard: fact_of(K, Term::Public(Public(LARGEST))),
        time: 0,
        body: Box::new(formula),
    });
    // A sibling's variables do not count.
    match random.below(2) {
        0 => formula,
        _ => Formula::And(Box::new(formula.clone()), Box::new(formula)),
    }
}

/// As many new variables as are allowed, which is cause 5 here, or one more: cause 3.
pub fn new_variables(random: &mut Random) -> Formula {
    let new = MOST_NEW as usize + random.below(2);
    Formula::Exists(Quantifier {
        new: vec![Sort::Message; new],
        guard: fact_of(K, Term::Variable(0)),
        time: 1,
        body: Box::new(Formula::False),
    })
}

/// As many nodes as are allowed, by further nodes of rule 3, or one more: cause 3.
pub fn node_limit(random: &mut Random, steps: &mut Vec<Step>) {
    let public = Step {
        rule: 3,
        values: vec![Term::Public(Public(0))],
    };
    steps.resize(MOST_NODES as usize + random.below(2), public);
}

/// As many edges as are allowed, which is cause 12, or one more: cause 3.
pub fn edge_limit(random: &mut Random, edges: &mut Vec<Edge>) {
    if let Some(edge) = edges.first().copied() {
        edges.resize(MOST_EDGES as usize + random.below(2), edge);
    }
}
