//! The proved calls beside the independent implementation: the same outcome and the same lent bytes.

/// Inputs that need most stack.
pub mod deepest;

/// Inputs of all calls, and whether the two implementations agree on them.
pub mod input;

/// The smallest input on which they do not.
pub mod reduce;

/// Graphs, terms and properties whose cost is measured.
pub mod sized;

/// Step lists whose cost is measured.
pub mod step_lists;

use levtosziv::{Refusal, Ruling};
use reference::calls::{fit_protocol, Counts, Outcome};
use reference::cases::{data, expected, facts, Case};
use reference::earliest::{fit_sources, premises};
use reference::number::Reader;
use reference::protocol::Protocol;
use reference::refusal::File;
use reference::steps::{read_steps, Node};
use reference::term::{Term, EXP, INV, MUL};
use reference::writer;
use std::cell::RefCell;
use std::collections::BTreeMap;
use std::io::Write;
use std::panic::resume_unwind;
use std::path::Path;
use std::process::{Command, Stdio};
use std::sync::OnceLock;

/// Bytes around a lent slice that a call must not touch.
const GUARD: usize = 64;
const GUARD_BYTE: u8 = 0xA5;

/// Bytes without a pattern, from which lent slices are filled.
fn junk() -> &'static [u8] {
    static JUNK: OnceLock<Vec<u8>> = OnceLock::new();
    JUNK.get_or_init(|| {
        let mut state = 0x9E37_79B9_7F4A_7C15u64;
        let mut next = || {
            state ^= state << 13;
            state ^= state >> 7;
            state ^= state << 17;
            state as u8
        };
        (0..200_000).map(|_| next()).collect()
    })
}

thread_local! {
    /// The vectors of slices that are no longer lent: making large ones anew takes longer than most calls.
    static SPARE: RefCell<Vec<Vec<u8>>> = const { RefCell::new(Vec::new()) };
}

/// A slice between guard bytes, filled with junk that depends on a seed.
pub struct Lent {
    bytes: Vec<u8>,
}

impl Drop for Lent {
    fn drop(&mut self) {
        SPARE.with_borrow_mut(|spare| spare.push(std::mem::take(&mut self.bytes)));
    }
}

impl Lent {
    pub fn new(length: usize, seed: u64) -> Lent {
        let mut bytes = SPARE.with_borrow_mut(Vec::pop).unwrap_or_default();
        let start = seed as usize % 4_096;
        bytes.clear();
        bytes.extend_from_slice(&[GUARD_BYTE; GUARD]);
        bytes.extend_from_slice(&junk()[start..start + length]);
        bytes.extend_from_slice(&[GUARD_BYTE; GUARD]);
        Lent { bytes }
    }

    pub fn slice(&mut self) -> &mut [u8] {
        let end = self.bytes.len() - GUARD;
        &mut self.bytes[GUARD..end]
    }

    pub fn guards_hold(&self) -> bool {
        let end = self.bytes.len() - GUARD;
        self.bytes[..GUARD]
            .iter()
            .chain(&self.bytes[end..])
            .all(|byte| *byte == GUARD_BYTE)
    }
}

fn refused(Refusal { number, item }: Refusal) -> Outcome {
    Outcome::Refused(reference::refusal::Refusal { number, item })
}

/// The proved call's answer in the reference's words.
pub fn outcome(written: Result<usize, Refusal>) -> Outcome {
    match written {
        Ok(length) => Outcome::Written(length as u32),
        Err(refusal) => refused(refusal),
    }
}

/// The answer of checking.
pub fn ruled(ruling: Result<Ruling, Refusal>) -> Outcome {
    let counts = |counts: levtosziv::Counts| Counts {
        nodes: counts.nodes,
        with_action: counts.with_action,
        edges: counts.edges,
    };
    match ruling {
        Ok(Ruling::Attack(found)) => Outcome::Attack(counts(found)),
        Ok(Ruling::Run(found)) => Outcome::Run(counts(found)),
        Err(refusal) => refused(refusal),
    }
}

/// The two implementations on one input of checking; the reference's outcome.
pub fn check_agrees(
    protocol: &[u8],
    property: &[u8],
    graph: &[u8],
    work: usize,
    seed: u64,
) -> Outcome {
    let (mut our_work, mut their_work) = (Lent::new(work, seed), Lent::new(work, seed));
    let ours = ruled(levtosziv::check(
        protocol,
        property,
        graph,
        our_work.slice(),
    ));
    let theirs = reference::calls::check(protocol, property, graph, their_work.slice());
    let input = || {
        format!("protocol {protocol:02X?} property {property:02X?} graph {graph:02X?} work {work}")
    };
    assert_eq!(ours, theirs, "{}", input());
    assert!(
        our_work.slice() == their_work.slice(),
        "work area: {}",
        input()
    );
    assert!(our_work.guards_hold(), "guards: {}", input());
    theirs
}

/// The two implementations on one input of drawing; the reference's outcome, and what is written.
pub fn draw_agrees(
    protocol: &[u8],
    steps: &[u8],
    output: usize,
    work: usize,
    seed: u64,
) -> (Outcome, Vec<u8>) {
    let (mut our_output, mut our_work) = (Lent::new(output, seed), Lent::new(work, seed + 1));
    let (mut their_output, mut their_work) = (Lent::new(output, seed), Lent::new(work, seed + 1));
    let ours = outcome(levtosziv::draw(
        protocol,
        steps,
        our_output.slice(),
        our_work.slice(),
    ));
    let theirs = reference::calls::draw(protocol, steps, their_output.slice(), their_work.slice());
    let input =
        || format!("protocol {protocol:02X?} steps {steps:02X?} output {output} work {work}");
    assert_eq!(ours, theirs, "{}", input());
    assert!(
        our_output.slice() == their_output.slice(),
        "output: {}",
        input()
    );
    assert!(
        our_work.slice() == their_work.slice(),
        "work area: {}",
        input()
    );
    assert!(
        our_output.guards_hold() && our_work.guards_hold(),
        "guards: {}",
        input()
    );
    let written = match theirs {
        Outcome::Written(length) => our_output.slice()[..length as usize].to_vec(),
        _ => vec![],
    };
    (theirs, written)
}

/// The two implementations on one input of canonical form; the reference's outcome.
pub fn canonical_form_agrees(
    protocol: &[u8],
    term: &[u8],
    output: usize,
    work: usize,
    seed: u64,
) -> Outcome {
    let (mut our_output, mut our_work) = (Lent::new(output, seed), Lent::new(work, seed + 1));
    let (mut their_output, mut their_work) = (Lent::new(output, seed), Lent::new(work, seed + 1));
    let ours = outcome(levtosziv::canonical_form(
        protocol,
        term,
        our_output.slice(),
        our_work.slice(),
    ));
    let theirs =
        reference::calls::canonical_form(protocol, term, their_output.slice(), their_work.slice());
    let input = || format!("protocol {protocol:02X?} term {term:02X?} output {output} work {work}");
    assert_eq!(ours, theirs, "{}", input());
    assert!(
        our_output.slice() == their_output.slice(),
        "output: {}",
        input()
    );
    assert!(
        our_work.slice() == their_work.slice(),
        "work area: {}",
        input()
    );
    assert!(
        our_output.guards_hold() && our_work.guards_hold(),
        "guards: {}",
        input()
    );
    theirs
}

/// The halves of a test's random inputs side by side, each from a seed of its own.
pub fn side_by_side<T: Send>(seeds: [u64; 2], half: impl Fn(u64) -> T + Sync) -> [T; 2] {
    let half = &half;
    std::thread::scope(|scope| {
        let halves = seeds.map(|seed| scope.spawn(move || half(seed)));
        halves.map(|half| half.join().unwrap_or_else(|panic| resume_unwind(panic)))
    })
}

/// What a test program reads at most.
pub const MOST_INPUT: usize = 65_536;

/// What a test program writes for an input.
pub fn program(name: &str, input: &[u8]) -> String {
    let folder = Path::new(env!("CARGO_MANIFEST_DIR")).join("../../target/bin");
    let mut child = Command::new(folder.join(name))
        .stdin(Stdio::piped())
        .stdout(Stdio::piped())
        .spawn()
        .unwrap_or_else(|error| {
            panic!("target/bin/{name}: {error}. `tools/program {name}`, in the repository's folder, proves and makes it.")
        });
    // It reads all of its input before it writes.
    let mut stdin = child.stdin.take().expect("its input");
    stdin.write_all(input).expect("its input is read");
    drop(stdin);
    let output = child.wait_with_output().expect("its output");
    String::from_utf8(output.stdout).expect("a text")
}

/// As many cases as fill a program's input.
pub fn fill_input(mut make: impl FnMut() -> Case) -> Vec<Case> {
    let (mut cases, mut length) = (Vec::new(), 0);
    loop {
        let case = make();
        length += case.data().len();
        if length > MOST_INPUT {
            return cases;
        }
        cases.push(case);
    }
}

/// A test program beside the reference: the same line for each case.
pub fn program_agrees(name: &str, cases: &[Case]) {
    let (ours, theirs) = (program(name, &data(cases)), expected(cases));
    for (case, (our, their)) in cases.iter().zip(ours.lines().zip(theirs.lines())) {
        assert_eq!(
            our, their,
            "{name}: {:02X?} {:02X?}",
            case.under, case.bytes
        );
    }
    assert_eq!(ours.lines().count(), cases.len(), "{name}");
}

/// The facts of one good input in so many are looked into.
const LOOKED_INTO: usize = 8;

/// How often each kind of outcome came, and what the nodes of the good inputs are.
#[derive(Default)]
pub struct Shares {
    counts: BTreeMap<String, usize>,
    all: usize,
    /// Good inputs, and those among them of more than 100 nodes.
    good: usize,
    long: usize,
    /// Some good inputs, and those among them that leave the writer a choice.
    looked_into: usize,
    choices: usize,
    /// The facts of these inputs, and those among them that hold a product, an inverse or a power.
    facts: usize,
    products: usize,
    /// Their linear premises, and those among them with more than one fit source.
    linear: usize,
    several: usize,
}

impl Shares {
    /// The outcome without the figures that differ from input to input.
    pub fn add(&mut self, outcome: Outcome) {
        let kind = match outcome {
            Outcome::Refused(refusal) if matches!(refusal.number, 2 | 3) => {
                format!("refused {} file {}", refusal.number, refusal.item)
            }
            Outcome::Refused(refusal) => format!("refused {}", refusal.number),
            Outcome::Attack(_) => "attack".to_string(),
            Outcome::Run(_) => "run".to_string(),
            Outcome::Written(_) => "written".to_string(),
        };
        self.count(kind);
    }

    pub fn count(&mut self, kind: String) {
        *self.counts.entry(kind).or_default() += 1;
        self.all += 1;
    }

    /// The nodes of a good input: of a graph or of a step list.
    pub fn add_nodes(&mut self, file: File, protocol: &[u8], nodes: &[u8]) {
        let count = Reader::new(nodes).number().expect("a count");
        self.long += usize::from(count > 100);
        if self.good.is_multiple_of(LOOKED_INTO) {
            let protocol = fit_protocol(protocol).expect("a fit protocol");
            let steps = read_steps(file, &mut Reader::new(nodes), &protocol).expect("nodes");
            let nodes = reference::steps::nodes(&steps).expect("right values");
            self.add_facts(&nodes);
            self.add_choices(&protocol, &nodes);
        }
        self.good += 1;
    }

    fn add_facts(&mut self, nodes: &[Node]) {
        let product = |term: &Term| matches!(term, Term::Apply(EXP | INV | MUL, _));
        for fact in facts(nodes) {
            self.facts += 1;
            self.products += usize::from(fact.any(&product));
        }
    }

    /// Which premises have more than one fit source, where those before took the lowest.
    fn add_choices(&mut self, protocol: &Protocol, nodes: &[Node]) {
        let edges = writer::edges(protocol, nodes).expect("a run");
        let mut any = false;
        for (place, (target, _, fact)) in premises(nodes).into_iter().enumerate() {
            let several = fit_sources(protocol, nodes, &edges[..place], target, fact).len() > 1;
            let linear = !protocol.persistent(fact);
            self.linear += usize::from(linear);
            self.several += usize::from(linear && several);
            any |= several;
        }
        self.looked_into += 1;
        self.choices += usize::from(any);
    }

    /// Adds what was counted elsewhere.
    pub fn merge(&mut self, other: Shares) {
        for (kind, count) in other.counts {
            *self.counts.entry(kind).or_default() += count;
        }
        self.all += other.all;
        self.good += other.good;
        self.long += other.long;
        self.looked_into += other.looked_into;
        self.choices += other.choices;
        self.facts += other.facts;
        self.products += other.products;
        self.linear += other.linear;
        self.several += other.several;
    }

    /// The table, under a title.
    pub fn print(&self, title: &str) {
        let percent = |count: usize, all: usize| 100.0 * count as f64 / all.max(1) as f64;
        let row =
            |kind: &str, count, all| format!("{kind:20} {count:9} {:6.2} %\n", percent(count, all));
        let kinds = self.counts.iter();
        let mut table: String = kinds
            .map(|(kind, count)| row(kind, *count, self.all))
            .collect();
        if self.facts > 0 {
            table += &row("over 100 nodes", self.long, self.all);
            table += &row("facts with products", self.products, self.facts);
            table += &row("a choice of source", self.choices, self.looked_into);
            table += &row("of linear premises", self.several, self.linear);
        }
        println!("{title}: {} inputs\n{table}", self.all);
    }

    /// The share of these kinds together, in hundredths of a percent.
    fn share(&self, kinds: &[&str]) -> usize {
        let count = |kind: &&str| self.counts.get(*kind).copied().unwrap_or(0);
        10_000 * kinds.iter().map(count).sum::<usize>() / self.all
    }

    pub fn at_least(&self, least: usize, kinds: &[&str]) {
        for kind in kinds {
            let share = self.share(&[kind]);
            assert!(share >= least, "{kind}: {share} of 10,000");
        }
    }

    pub fn together_at_least(&self, least: usize, kinds: &[&str]) {
        let share = self.share(kinds);
        assert!(share >= least, "{kinds:?}: {share} of 10,000");
    }

    /// A twentieth of all inputs are good and have over 100 nodes; half of the facts hold products.
    pub fn long_with_products(&self) {
        assert!(20 * self.long >= self.all, "{} over 100 nodes", self.long);
        assert!(
            2 * self.products >= self.facts,
            "{} products",
            self.products
        );
    }

    /// Half of the good inputs leave the writer a choice, and so does a third of the linear premises.
    pub fn with_choices(&self) {
        let (choices, several) = (self.choices, self.several);
        assert!(2 * choices >= self.looked_into, "{choices} with a choice");
        assert!(3 * several >= self.linear, "{several} linear premises");
    }
}
