//! What judging takes at most, so that an input which would hold up a run is known before it is run.

use crate::calls::{fit_property, fit_protocol};
use crate::cases;
use crate::judge::Trace;
use crate::number::Reader;
use crate::property::{Formula, Quantifier};
use crate::protocol::{Fact, MOST_FACTS};
use crate::refusal::{File, Judged};
use crate::steps::{nodes, read_steps};
use crate::term::Term;

/// As many actions as the reference looks at in about a second.
pub const A_SECOND: f64 = 5e6;

/// How many actions are looked at, at most, when a property is judged over a trace: by an engine too that goes on when the truth is known, and
/// that looks for an action among those of all nodes.
pub fn of_trace(trace: &Trace, property: &Formula) -> f64 {
    let actions: Vec<&Fact> = trace.iter().flat_map(|actions| *actions).collect();
    let matches = |guard: &Fact| {
        actions
            .iter()
            .filter(|action| can_be(guard, action))
            .count()
    };
    let cost = Cost {
        all: actions.len(),
        matches: &matches,
    };
    cost.looked_at(property, 0)
}

/// The same for the files of checking; none where they are refused before anything is judged.
pub fn of_files(protocol: &[u8], property: &[u8], graph: &[u8]) -> f64 {
    cost(protocol, property, graph).unwrap_or(0.0)
}

/// The rules alone say enough about most graphs; only others are filled in.
fn cost(protocol: &[u8], property: &[u8], graph: &[u8]) -> Judged<f64> {
    let protocol = fit_protocol(protocol)?;
    let property = fit_property(property, &protocol)?;
    let steps = read_steps(File::Graph, &mut Reader::new(graph), &protocol)?;
    let symbols: Vec<u32> = steps.iter().flat_map(|step| step.recorded()).collect();
    let matches = |guard: &Fact| symbols.iter().filter(|own| **own == guard.symbol).count();
    let cost = Cost {
        all: symbols.len(),
        matches: &matches,
    };
    let by_rules = cost.looked_at(&property, 0);
    if by_rules <= A_SECOND {
        return Ok(by_rules);
    }
    Ok(of_trace(&cases::trace(&nodes(&steps)?), &property))
}

/// How many actions there are, and how many of them a guard can be.
struct Cost<'a> {
    all: usize,
    matches: &'a dyn Fn(&Fact) -> usize,
}

impl Cost<'_> {
    /// How many are looked at, at most, where so many variables are in scope.
    fn looked_at(&self, formula: &Formula, in_scope: usize) -> f64 {
        match formula {
            Formula::And(left, right) | Formula::Or(left, right) => {
                self.looked_at(left, in_scope) + self.looked_at(right, in_scope)
            }
            Formula::Exists(quantifier) | Formula::ForAll(quantifier) => {
                let inner = in_scope + quantifier.new.len();
                let body = self.looked_at(&quantifier.body, inner);
                self.all as f64 + self.values(quantifier, in_scope) * body
            }
            Formula::Action(..) | Formula::NoAction(..) => self.all as f64,
            _ => 1.0,
        }
    }

    /// How often the body is judged; at a time that is known already, for the actions of one node.
    fn values(&self, quantifier: &Quantifier, in_scope: usize) -> f64 {
        let matches = (self.matches)(&quantifier.guard);
        let known = (quantifier.time as usize) < in_scope;
        let most = if known { MOST_FACTS as usize } else { matches };
        matches.min(most) as f64
    }
}

/// Whether a guard is this action under some values of its variables, each taken alone.
fn can_be(guard: &Fact, action: &Fact) -> bool {
    let mut terms = guard.terms.iter().zip(&action.terms);
    let agrees = |(term, part): (&Term, &Term)| matches!(term, Term::Variable(_)) || term == part;
    guard.symbol == action.symbol && terms.all(agrees)
}
