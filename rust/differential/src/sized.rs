//! Graphs, terms and properties of a given size, whose cost is measured.

use reference::generate::protocols::fact_of;
use reference::generate::runs::{encoded, run_from, some_edges, Step};
use reference::graph::{write_edges, Edge};
use reference::property::{Formula, Quantifier, Sort as PropertySort};
use reference::protocol::{Fact, FactSymbol, Protocol, Rule, Sort, IN, K};
use reference::random::Random;
use reference::term::{Fresh, Public, Signature, Term, EXP, INV, MUL, PAIR};

/// The three files of a check.
pub struct Files {
    pub protocol: Vec<u8>,
    pub property: Vec<u8>,
    pub graph: Vec<u8>,
    /// The graph's nodes alone.
    pub steps: Vec<u8>,
}

/// Facts that a node of a chain takes and gives, eight of each.
const WIDTH: usize = 8;

/// Node 1 is of this rule, the others of the next one.
const FIRST_RULE: u32 = 31;

/// What the facts of a chain are made of.
pub const CHAINS: [&str; 7] = [
    "facts without arguments",
    "one fact eight times",
    "one name each",
    "one product of four names each",
    "eight products of four names each",
    "four products of 120 names each",
    "four products of 120 names as they stand",
];

/// n nodes in a row: each but the first takes the eight facts that the one before gives, equal ones, in the last kind as they stand, otherwise with
/// other terms.
pub fn chain(kind: &str, nodes: usize) -> Files {
    let [no_arguments, equal, names, products, many, large, standing] = CHAINS;
    let variable = |number: usize| Term::Variable(number as u32);
    let public = |number: usize| Term::Public(Public(number as u32));
    // The variables 0 to 7 hold what differs, variable 8 what all facts share.
    let times = |factor: Term, rest: Term| Term::apply(MUL, [factor, rest]);
    let taken = |place: usize| times(variable(place % WIDTH), variable(WIDTH));
    let given = |place: usize| times(variable(WIDTH), variable(place % WIDTH));
    let start = |place: usize| {
        let factors = [WIDTH, place % WIDTH, 1 + place % WIDTH, 9];
        factors
            .map(variable)
            .into_iter()
            .reduce(times)
            .expect("four")
    };
    let product = |place: usize| times(public(place), times(public(place + 1), public(9)));
    let values = || (0..WIDTH).map(product).chain([public(WIDTH)]).collect();
    let linked = |symbols, arity, values, terms| linked(nodes, [symbols, arity], values, terms);
    match kind {
        _ if kind == no_arguments => linked(WIDTH, 0, vec![], [&variable; 3]),
        _ if kind == equal => linked(1, 1, vec![public(0)], [&|_| variable(0); 3]),
        _ if kind == names => linked(WIDTH, 1, (0..WIDTH).map(public).collect(), [&variable; 3]),
        _ if kind == products => linked(WIDTH, 1, values(), [&start, &taken, &given]),
        _ if kind == many => linked(WIDTH, WIDTH, values(), [&start, &taken, &given]),
        _ if kind == large || kind == standing => {
            let given: Terms = match kind == large {
                true => &cancelled_behind,
                false => &cancelled,
            };
            let terms: [Terms; 3] = [&|_| large_product(), &cancelled, given];
            linked(WIDTH, 4, vec![large_product()], terms)
        }
        _ => panic!("one of {CHAINS:?}"),
    }
}

/// The canonical product of 24 names.
fn large_product() -> Term {
    let names = (0..24).rev().map(|name| Term::Public(Public(name)));
    let product = names.reduce(|rest, name| Term::apply(MUL, [name, rest]));
    product.expect("a name")
}

/// Variable 0, its inverse, and so on: five of them, equal to it.
fn cancelled(_: usize) -> Term {
    multiplied([one(), multiplied([one(), Term::Variable(0)])])
}

/// The same with the variable first.
fn cancelled_behind(_: usize) -> Term {
    multiplied([Term::Variable(0), multiplied([one(), one()])])
}

fn multiplied(factors: [Term; 2]) -> Term {
    Term::apply(MUL, factors)
}

/// Variable 0 and its inverse.
fn one() -> Term {
    let variable = || Term::Variable(0);
    multiplied([variable(), Term::apply(INV, [variable()])])
}

/// The terms of a fact by its number.
type Terms<'a> = &'a dyn Fn(usize) -> Term;

/// A chain whose facts have so many symbols in turn and `arity` terms each: those that node 1 gives, those that the others take and give.
fn linked(
    nodes: usize,
    [symbols, arity]: [usize; 2],
    values: Vec<Term>,
    terms: [Terms; 3],
) -> Files {
    let facts = |term: Terms| -> Vec<Fact> {
        let fact = |place: usize| Fact {
            symbol: (4 + place % symbols) as u32,
            terms: (place..place + arity).map(term).collect(),
        };
        (0..WIDTH).map(fact).collect()
    };
    let [start, taken, given] = terms;
    let rule = |variables, premises, conclusions| Rule {
        variables,
        premises,
        actions: vec![],
        conclusions,
    };
    let names = 10;
    let symbol = FactSymbol {
        arity,
        persistent: false,
    };
    let protocol = Protocol {
        signature: Signature::default(),
        own: vec![symbol; WIDTH],
        rules: vec![
            rule(vec![Sort::Public; names], vec![], facts(start)),
            rule(
                vec![Sort::Message; values.len()],
                facts(taken),
                facts(given),
            ),
        ],
    };
    let first = Step {
        rule: FIRST_RULE,
        values: (0..names)
            .map(|name| Term::Public(Public(name as u32)))
            .collect(),
    };
    let other = Step {
        rule: FIRST_RULE + 1,
        values,
    };
    let mut steps = vec![first];
    steps.resize(nodes, other);
    let edge = |place: usize| Edge {
        source: place / WIDTH + 1,
        conclusion: place % WIDTH + 1,
        target: place / WIDTH + 2,
        premise: place % WIDTH + 1,
    };
    let edges: Vec<Edge> = (0..(nodes - 1) * WIDTH).map(edge).collect();
    files(&protocol, &Formula::False, &steps, &edges)
}

fn files(protocol: &Protocol, property: &Formula, steps: &[Step], edges: &[Edge]) -> Files {
    let steps = encoded(steps);
    let mut files = Files {
        protocol: protocol.encoded(),
        property: vec![],
        graph: steps.clone(),
        steps,
    };
    property.encode(&mut files.property);
    write_edges(edges, &mut files.graph);
    files
}

/// A random run of so many nodes, by the adversary alone: products, powers, functions of known messages.
pub fn deductions(nodes: usize) -> Files {
    let mut random = Random::new(1);
    let protocol = Protocol {
        signature: Signature { free: vec![2] },
        own: vec![],
        rules: vec![],
    };
    let first_name = 64 * random.below(3) as u32;
    let run = run_from(&mut random, &protocol, first_name, nodes);
    let edges = some_edges(&mut random, &protocol, &run.nodes);
    files(&protocol, &Formula::False, &run.steps, &edges)
}

/// Nodes of eight actions, each of eight messages that no other action has.
pub fn actions(nodes: usize) -> Files {
    let public = |number: usize| Term::Public(Public(number as u32));
    let message = |place: usize| Term::apply(PAIR, [Term::Variable(0), public(place)]);
    let action = |place: usize| Fact {
        symbol: 4,
        terms: (0..WIDTH)
            .map(|term| message(WIDTH * place + term))
            .collect(),
    };
    let protocol = Protocol {
        signature: Signature::default(),
        own: vec![FactSymbol {
            arity: WIDTH,
            persistent: false,
        }],
        rules: vec![Rule {
            variables: vec![Sort::Public],
            premises: vec![],
            actions: (0..WIDTH).map(action).collect(),
            conclusions: vec![],
        }],
    };
    let step = |node| Step {
        rule: FIRST_RULE,
        values: vec![public(node)],
    };
    let steps: Vec<Step> = (0..nodes).map(step).collect();
    files(&protocol, &Formula::False, &steps, &[])
}

/// No nodes under an empty protocol.
pub fn nothing() -> Files {
    let protocol = Protocol {
        signature: Signature::default(),
        own: vec![],
        rules: vec![],
    };
    files(&protocol, &Formula::False, &[], &[])
}

/// What the innermost guard of a property meets.
pub const GUARDS: [&str; 3] = ["binds", "differs in its argument", "differs in its symbol"];

/// So many actions, each of another message, and as many "for all" in one another as `levels` says, each over all of them: the innermost guard is
/// compared actions^levels times.
pub fn nested(guard: &str, actions: usize, levels: usize) -> Files {
    let protocol = Protocol {
        signature: Signature::default(),
        own: vec![],
        rules: vec![],
    };
    let public = |number: usize| Term::Public(Public(number as u32));
    let step = |rule, number| Step {
        rule,
        values: vec![public(number)],
    };
    let steps: Vec<Step> = (0..actions)
        .flat_map(|number| [step(3, number), step(2, number)])
        .collect();
    let edges: Vec<Edge> = (0..actions)
        .map(|number| Edge {
            source: 2 * number + 1,
            conclusion: 1,
            target: 2 * number + 2,
            premise: 1,
        })
        .collect();
    files(&protocol, &every(guard, levels), &steps, &edges)
}

/// True of every trace: the bodies say that a time is itself.
fn every(guard: &str, levels: usize) -> Formula {
    let over = |new: &[PropertySort], symbol, message: Term, time, body| {
        Formula::ForAll(Quantifier {
            new: new.to_vec(),
            guard: fact_of(symbol, message),
            time,
            body: Box::new(body),
        })
    };
    let [_, argument, symbol] = GUARDS;
    let (message, time) = (2 * levels as u32 - 2, 2 * levels as u32 - 1);
    let both = [PropertySort::Message, PropertySort::Time];
    let stranger = Term::Public(Public(1 << 20));
    let innermost = match guard {
        _ if guard == argument => over(&both[1..], K, stranger, message, Formula::False),
        _ if guard == symbol => over(&both, IN, Term::Variable(message), time, Formula::False),
        _ => over(
            &both,
            K,
            Term::Variable(message),
            time,
            Formula::SameTime(time, time),
        ),
    };
    (0..levels as u32 - 1).rev().fold(innermost, |body, level| {
        over(&both, K, Term::Variable(2 * level), 2 * level + 1, body)
    })
}

/// Terms of n names: how their functions nest, and in which order the names stand.
pub const TERMS: [&str; 9] = [
    "product, left, ascending",
    "product, left, descending",
    "product, right, ascending",
    "product, right, descending",
    "exps, left, ascending",
    "exps, left, descending",
    "exps, right, ascending",
    "exps, right, descending",
    "exps, left, cancelling",
];

pub fn term(shape: &str, names: usize) -> Vec<u8> {
    let name = |number: usize| Term::Fresh(Fresh(number as u32));
    let (tag, nesting, order) = match shape.split(", ").collect::<Vec<&str>>()[..] {
        ["product", nesting, order] => (MUL, nesting, order),
        ["exps", nesting, order] => (EXP, nesting, order),
        _ => panic!("one of {TERMS:?}"),
    };
    let parts: Vec<Term> = match order {
        "ascending" => (0..names).map(name).collect(),
        "descending" => (0..names).rev().map(name).collect(),
        _ => cancelling(names),
    };
    let term = match nesting {
        "left" => parts
            .into_iter()
            .reduce(|all, next| Term::apply(tag, [all, next])),
        _ => parts
            .into_iter()
            .rev()
            .reduce(|all, next| Term::apply(tag, [next, all])),
    };
    term.expect("a name").encoded()
}

/// A base, and exponents of which each second one is the inverse of the one before. An inverse has two symbols, so that fewer fit.
fn cancelling(names: usize) -> Vec<Term> {
    let name = |number: usize| Term::Fresh(Fresh(number as u32));
    let exponent = |number: usize| match number % 2 {
        0 => name(number),
        _ => Term::apply(INV, [name(number - 1)]),
    };
    let exponents = (0..names * 3 / 4).map(exponent);
    [name(names)].into_iter().chain(exponents).collect()
}
