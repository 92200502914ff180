//! Nodes: a rule number and a value for each of the rule's variables. Causes 3 and 6 to 9.

use crate::canonical::canonical_form;
use crate::number::Reader;
use crate::protocol::{Fact, Protocol, Rule, Sort};
use crate::refusal::{refuse, refuse_first, File, Judged};
use crate::term::{Fresh, Prefix, Term};
use std::collections::HashSet;

pub const MOST_NODES: u32 = 512;
/// "value not canonical, holds a variable, wrong sort, or over 128 symbols"
pub const MOST_VALUE_SYMBOLS: usize = 128;
/// "filled-in term over 256 symbols before normalising"
pub const MOST_FILLED_IN_SYMBOLS: usize = 256;

/// A node as it lies in the file.
#[derive(Clone, Debug)]
pub struct Step {
    number: u32,
    rule: Rule,
    values: Vec<Prefix>,
}

/// A node with its facts: "its rule's, with the node's values in place of the variables". Facts are held
/// in canonical form, so that equal facts are the same.
#[derive(Clone, Debug)]
pub struct Node {
    pub premises: Vec<Fact>,
    pub actions: Vec<Fact>,
    pub conclusions: Vec<Fact>,
    /// The name that a node of rule 0 makes.
    pub makes: Option<Fresh>,
}

/// Reads the count of nodes and each node, front to back, for causes 3 and 6.
pub fn read_steps(file: File, reader: &mut Reader, protocol: &Protocol) -> Judged<Vec<Step>> {
    let count = file.layout(reader.at_most(MOST_NODES))?;
    let nodes = 1..=count as usize;
    nodes
        .map(|node| read_step(node, file, reader, protocol))
        .collect()
}

fn read_step(node: usize, file: File, reader: &mut Reader, protocol: &Protocol) -> Judged<Step> {
    let number = file.layout(reader.number())?;
    let Some(rule) = protocol.rule(number) else {
        return refuse(6, node);
    };
    let value = |_: &Sort| file.layout(Prefix::read(reader, &protocol.signature));
    let values = rule.variables.iter().map(value).collect::<Judged<_>>()?;
    Ok(Step {
        number,
        rule,
        values,
    })
}

/// The nodes of a well-formed step list: causes 7 and 8, each over the whole list.
pub fn nodes(steps: &[Step]) -> Judged<Vec<Node>> {
    refuse_first(7, steps, |step| !step.has_right_values())?;
    refuse_first(8, steps, |step| !step.fits())?;
    Ok(steps.iter().map(Step::node).collect())
}

/// "no name made twice": cause 9.
pub fn names_made_once(nodes: &[Node]) -> Judged<()> {
    let mut made = HashSet::new();
    refuse_first(9, nodes, |node| {
        node.makes.is_some_and(|name| !made.insert(name))
    })
}

impl Step {
    /// The symbols of its actions.
    pub fn recorded(&self) -> impl Iterator<Item = u32> + '_ {
        self.rule.actions.iter().map(|fact| fact.symbol)
    }

    fn has_right_values(&self) -> bool {
        let mut pairs = self.values.iter().zip(&self.rule.variables);
        pairs.all(|(value, sort)| is_right(value, *sort))
    }

    /// The values as trees, where they are right.
    fn trees(&self) -> Vec<Term> {
        self.values.iter().map(Prefix::tree).collect()
    }

    fn fits(&self) -> bool {
        let values = self.trees();
        let mut terms = self.rule.facts().flat_map(|fact| &fact.terms);
        terms.all(|term| term.fill_in(&values).symbols() <= MOST_FILLED_IN_SYMBOLS)
    }

    fn node(&self) -> Node {
        Node::new(self.number, &self.rule, &self.trees())
    }
}

impl Node {
    pub fn new(number: u32, rule: &Rule, values: &[Term]) -> Node {
        let facts = |facts: &[Fact]| facts.iter().map(|fact| instance(fact, values)).collect();
        Node {
            premises: facts(&rule.premises),
            actions: facts(&rule.actions),
            conclusions: facts(&rule.conclusions),
            makes: match (number, values) {
                (0, [Term::Fresh(name)]) => Some(*name),
                _ => None,
            },
        }
    }
}

fn is_right(value: &Prefix, sort: Sort) -> bool {
    if value.has_variable() || value.symbols() > MOST_VALUE_SYMBOLS {
        return false;
    }
    let value = value.tree();
    sort.takes(&value) && canonical_form(&value) == value
}

/// A rule's fact with values in place of the variables, in canonical form.
pub fn instance(fact: &Fact, values: &[Term]) -> Fact {
    let filled_in = fact.terms.iter().map(|term| term.fill_in(values));
    Fact {
        symbol: fact.symbol,
        terms: filled_in.map(|term| canonical_form(&term)).collect(),
    }
}
