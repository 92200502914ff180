//! Drawing beside the reference, over the cases by hand and over random inputs from a fixed seed, mostly good ones, some damaged: length,
//! need and every byte. What is drawn is checked, and what is no run has no graph.

use differential::{check_agrees, draw_agrees, side_by_side, Shares};
use reference::calls::{fit_protocol, ruled_graph, Outcome, WORK_AREA};
use reference::cases::draws_cases;
use reference::earliest::{conclusions_equal, is_earliest, premises};
use reference::generate::graphs::{crowded_steps, draw_input, DrawInput};
use reference::graph::{write_edges, Edge};
use reference::machine::first_failure;
use reference::number::Reader;
use reference::protocol::Protocol;
use reference::random::Random;
use reference::refusal::{File, Refusal};
use reference::steps::{nodes, read_steps, Node};

/// Inputs of one half; the halves run side by side.
const INPUTS: usize = 100_000;

/// One of so many inputs has many equal facts.
const CROWDED: usize = 5;

/// One of so many inputs is drawn again with other outputs, and its graph or graphs like it are checked.
const FOLLOWED: usize = 32;

fn half(seed: u64) -> (Shares, Followed) {
    let mut random = Random::new(seed);
    let mut shares = Shares::default();
    let mut followed = Followed::default();
    for number in 0..INPUTS {
        let input = match number % CROWDED {
            0 => crowded_steps(&mut random),
            _ => draw_input(&mut random),
        };
        let (outcome, graph) = draw_agrees(
            &input.protocol,
            &input.steps,
            input.output,
            input.work,
            number as u64,
        );
        if let Outcome::Written(_) = outcome {
            shares.add_nodes(File::Steps, &input.protocol, &input.steps);
        }
        if number % FOLLOWED == 0 {
            followed.follow(&mut random, &input, outcome, &graph);
        }
        shares.add(outcome);
    }
    (shares, followed)
}

#[test]
fn drawing_beside_the_reference() {
    let [(mut shares, mut followed), (other, also_followed)] = side_by_side([14, 15], half);
    shares.merge(other);
    followed.merge(also_followed);
    shares.print("drawing");
    followed.print();
    shares.at_least(2_500, &["written"]);
    let causes = [7, 8, 9, 14, 15].map(|number| format!("refused {number}"));
    shares.at_least(100, &causes.each_ref().map(String::as_str));
    let files = [1, 5].map(|item| [2, 3].map(|number| format!("refused {number} file {item}")));
    let files: Vec<&str> = files.as_flattened().iter().map(String::as_str).collect();
    shares.at_least(50, &files);
    shares.at_least(50, &["refused 1", "refused 4", "refused 6"]);
    shares.long_with_products();
    shares.with_choices();
    followed.often_enough();
}

/// How often a graph that was drawn is an attack or a run, and a list is none.
#[derive(Default)]
struct Followed {
    attacks: usize,
    runs: usize,
    none: usize,
}

impl Followed {
    fn follow(&mut self, random: &mut Random, input: &DrawInput, outcome: Outcome, graph: &[u8]) {
        match outcome {
            Outcome::Written(_) => self.drawn(input, graph),
            Outcome::Refused(Refusal { number: 9 | 14, .. }) => self.no_run(random, input),
            _ => {}
        }
    }

    /// The edges are the earliest by their words, the plain machine takes all nodes, and the very bytes are accepted in checking.
    fn drawn(&mut self, input: &DrawInput, graph: &[u8]) {
        assert!(graph.starts_with(&input.steps));
        let protocol = fit_protocol(&input.protocol).expect("a fit protocol");
        let (nodes, edges) = ruled_graph(&protocol, graph).expect("an accepted graph");
        assert!(is_earliest(&protocol, &nodes, &edges), "{graph:02X?}");
        assert_eq!(first_failure(&protocol, &nodes), None);
        into_every_output(&input.protocol, &input.steps, graph);
        match check_agrees(&input.protocol, &input.property, graph, WORK_AREA, 0) {
            Outcome::Attack(_) => self.attacks += 1,
            Outcome::Run(_) => self.runs += 1,
            other => panic!("{other}: {:02X?} {graph:02X?}", input.protocol),
        }
    }

    /// The plain machine fails too, and no graph of these nodes is accepted, however its edges are chosen.
    fn no_run(&mut self, random: &mut Random, input: &DrawInput) {
        let (protocol, nodes) = well_formed(input);
        assert!(first_failure(&protocol, &nodes).is_some());
        for _ in 0..3 {
            let mut graph = input.steps.clone();
            write_edges(&any_edges(random, &nodes), &mut graph);
            let outcome = check_agrees(&input.protocol, &[0], &graph, WORK_AREA, 0);
            assert!(
                matches!(outcome, Outcome::Refused(_)),
                "{outcome}: {:02X?} {graph:02X?}",
                input.protocol
            );
        }
        self.none += 1;
    }

    fn merge(&mut self, other: Followed) {
        self.attacks += other.attacks;
        self.runs += other.runs;
        self.none += other.none;
    }

    fn print(&self) {
        println!(
            "drawn and checked: {} attacks, {} runs; no run and no graph: {}\n",
            self.attacks, self.runs, self.none
        );
    }

    fn often_enough(&self) {
        let all = 2 * INPUTS / FOLLOWED;
        assert!(10 * self.attacks >= all && 10 * self.runs >= all && 50 * self.none >= all);
    }
}

/// "Two people draw the same steps and want the same file": every output of the graph's length or more gets its bytes, and every shorter
/// one is refused with that length.
fn into_every_output(protocol: &[u8], steps: &[u8], graph: &[u8]) {
    let need = graph.len();
    for output in [0, need - 1, need, need + 1, File::Graph.limit()] {
        let (outcome, again) = draw_agrees(protocol, steps, output, WORK_AREA, output as u64);
        if output >= need {
            assert_eq!(outcome, Outcome::Written(need as u32));
            assert_eq!(again, graph);
        } else {
            let item = need as u32;
            assert_eq!(outcome, Outcome::Refused(Refusal { number: 15, item }));
        }
    }
}

/// The outcome of each case is its label's (reference/tests/cases.rs); the archive has it too.
#[test]
fn the_cases_by_hand() {
    let (mut drawn, mut refused) = (0, 0);
    for case in draws_cases(include_str!("../../../tests/cases/draws.txt")) {
        match case.drawn() {
            Ok(graph) => {
                into_every_output(&case.under, &case.bytes, &graph);
                drawn += 1;
            }
            Err(refusal) => {
                let (outcome, _) = draw_agrees(&case.under, &case.bytes, 0, WORK_AREA, 0);
                assert_eq!(outcome, Outcome::Refused(refusal));
                refused += 1;
            }
        }
    }
    println!("by hand: {drawn} drawn, {refused} refused");
    assert!(drawn > 40 && refused > 5);
}

/// A fit protocol and the nodes of well-formed steps.
fn well_formed(input: &DrawInput) -> (Protocol, Vec<Node>) {
    let protocol = fit_protocol(&input.protocol).expect("a fit protocol");
    let steps = read_steps(File::Steps, &mut Reader::new(&input.steps), &protocol);
    let nodes = nodes(&steps.expect("a step list")).expect("right values");
    (protocol, nodes)
}

/// An edge into each premise: from an equal conclusion before it, used or not, where there is one; else from any node before.
fn any_edges(random: &mut Random, nodes: &[Node]) -> Vec<Edge> {
    let edge = |(target, premise, fact)| {
        let equal = conclusions_equal(&nodes[..target - 1], fact);
        let (source, conclusion) = match equal[..] {
            [] => (1 + random.below(target), 1),
            _ => *random.choose(&equal),
        };
        Edge {
            source,
            conclusion,
            target,
            premise,
        }
    };
    premises(nodes).into_iter().map(edge).collect()
}
