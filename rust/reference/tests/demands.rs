//! The parts of the reference against one another: the machine, accepted graphs, the writer and the judge.

use reference::by_words;
use reference::calls::{check, draw, fit_protocol, ruled_graph, Outcome};
use reference::earliest::{is_earliest, premises, Source};
use reference::generate::crowded;
use reference::generate::graphs::{
    check_input, crowded_steps, draw_input, session_steps, DrawInput,
};
use reference::generate::properties::{negated, Maker};
use reference::generate::protocols;
use reference::generate::runs::{edges_by, latest, run, shuffle};
use reference::graph::{accept, Edge};
use reference::judge;
use reference::machine::first_failure;
use reference::number::Reader;
use reference::protocol::{Fact, Protocol};
use reference::random::Random;
use reference::refusal::{File, Refusal};
use reference::steps::{nodes, read_steps, Node};
use reference::writer;

/// The nodes at the start of a step list or graph.
fn nodes_of(file: File, protocol: &Protocol, bytes: &[u8]) -> Vec<Node> {
    let steps = read_steps(file, &mut Reader::new(bytes), protocol).unwrap();
    nodes(&steps).unwrap()
}

/// "if the graph is accepted, then its nodes in file order are a run"
#[test]
fn the_nodes_of_an_accepted_graph_are_a_run() {
    let mut random = Random::new(6);
    let mut accepted = 0;
    for _ in 0..1_500 {
        let input = check_input(&mut random);
        let mut work = vec![0; input.work];
        let outcome = check(&input.protocol, &input.property, &input.graph, &mut work);
        if !matches!(outcome, Outcome::Refused(_)) {
            let protocol = Protocol::read(&input.protocol).unwrap();
            let nodes = nodes_of(File::Graph, &protocol, &input.graph);
            assert_eq!(first_failure(&protocol, &nodes), None);
            accepted += 1;
        }
    }
    assert!(accepted > 500);
}

/// "draws a graph exactly when the whole list is such a run. That graph has just these steps in their
/// order and is accepted"
#[test]
fn a_drawn_graph_is_accepted() {
    let mut random = Random::new(7);
    let mut drawn = 0;
    for _ in 0..1_500 {
        let input = draw_input(&mut random);
        let (mut output, mut work) = (vec![0; input.output], vec![0; input.work]);
        let outcome = draw(&input.protocol, &input.steps, &mut output, &mut work);
        if let Outcome::Written(length) = outcome {
            let graph = &output[..length as usize];
            assert!(graph.starts_with(&input.steps));
            let ruling = check(&input.protocol, &[0], graph, &mut work);
            assert!(matches!(ruling, Outcome::Attack(_)), "{ruling}");
            drawn += 1;
        }
    }
    assert!(drawn > 500);
}

/// "If the list is no run, then the writer refuses it", and no graph of these steps is accepted.
#[test]
fn steps_that_are_no_run_have_no_graph() {
    let mut random = Random::new(8);
    let (mut runs, mut others) = (0, 0);
    for _ in 0..1_500 {
        let input = draw_input(&mut random);
        let (mut output, mut work) = (vec![0; 61_440], vec![0; 65_536]);
        let outcome = draw(&input.protocol, &input.steps, &mut output, &mut work);
        let no_run = match outcome {
            Outcome::Written(_) => false,
            Outcome::Refused(Refusal { number: 14, .. }) => true,
            _ => continue,
        };
        let protocol = Protocol::read(&input.protocol).unwrap();
        let nodes = nodes_of(File::Steps, &protocol, &input.steps);
        let edges = edges_by(&protocol, &nodes, latest);
        assert_eq!(edges.is_none(), no_run);
        if let Some(edges) = edges {
            assert_eq!(accept(&protocol, &nodes, &edges), Ok(()));
        }
        runs += usize::from(!no_run);
        others += usize::from(no_run);
    }
    assert!(runs > 500 && others > 50, "{runs} {others}");
}

/// What drawing writes of an input: protocol, nodes, edges; nothing where it is refused.
fn drawn(input: &DrawInput) -> Option<(Protocol, Vec<Node>, Vec<Edge>)> {
    let (mut output, mut work) = (vec![0; input.output], vec![0; input.work]);
    let outcome = draw(&input.protocol, &input.steps, &mut output, &mut work);
    let Outcome::Written(length) = outcome else {
        return None;
    };
    let protocol = fit_protocol(&input.protocol).unwrap();
    let (nodes, edges) = ruled_graph(&protocol, &output[..length as usize]).unwrap();
    Some((protocol, nodes, edges))
}

/// "The writer's edges .. are from now on a defined outcome too": what is drawn has the earliest sources, and of the accepted graphs of the
/// same nodes no other has, whether its edges stand in another order or come from other sources.
#[test]
fn the_drawn_edges_and_no_others_are_the_earliest() {
    let mut random = Random::new(12);
    let (mut orders, mut sources) = (0, 0);
    for number in 0..1_800 {
        let make = [draw_input, session_steps, crowded_steps][number % 3];
        let Some((protocol, nodes, edges)) = drawn(&make(&mut random)) else {
            continue;
        };
        assert!(is_earliest(&protocol, &nodes, &edges), "{edges:?}");
        let mut shuffled = edges.clone();
        shuffle(&mut random, &mut shuffled);
        let some = edges_by(&protocol, &nodes, |fit| *random.choose(fit)).expect("a run");
        let late = edges_by(&protocol, &nodes, latest).expect("a run");
        orders += usize::from(shuffled != edges);
        sources += usize::from(some != edges) + usize::from(late != edges);
        for others in [shuffled, some, late] {
            assert_eq!(accept(&protocol, &nodes, &others), Ok(()));
            assert_eq!(is_earliest(&protocol, &nodes, &others), others == edges);
        }
    }
    assert!(orders > 500 && sources > 700, "{orders} {sources}");
}

/// Every way to feed each premise from a conclusion, whichever and of whichever node.
fn all_edges(nodes: &[Node]) -> Vec<Vec<Edge>> {
    let places = |node: &Node| 1..=node.conclusions.len();
    let numbered = (1..).zip(nodes);
    let conclusions: Vec<Source> = numbered
        .flat_map(|(source, node)| places(node).map(move |conclusion| (source, conclusion)))
        .collect();
    let mut all = vec![vec![]];
    for (target, premise, _) in premises(nodes) {
        let mut longer = Vec::new();
        for edges in &all {
            for (source, conclusion) in conclusions.iter().copied() {
                let edge = Edge {
                    source,
                    conclusion,
                    target,
                    premise,
                };
                longer.push([&edges[..], &[edge]].concat());
            }
        }
        all = longer;
    }
    all
}

/// Of all accepted graphs with edges in the order of premises, the drawn one has the least sources, compared one after another; so a choice
/// by greed loses no graph ("Steps that could be drawn before can still be drawn").
#[test]
fn no_accepted_graph_has_lower_sources() {
    let mut random = Random::new(13);
    let (mut chosen, mut most) = (0, 0);
    for _ in 0..4_000 {
        let few = crowded::protocol(&mut random);
        let length = 1 + random.below(6);
        let run = crowded::run(&mut random, &few, length);
        let conclusions: usize = run.nodes.iter().map(|node| node.conclusions.len()).sum();
        let premises = premises(&run.nodes).len() as u32;
        if premises == 0 || conclusions.saturating_pow(premises) > 5_000 {
            continue;
        }
        let mut accepted = all_edges(&run.nodes);
        accepted.retain(|edges| accept(&few.protocol, &run.nodes, edges).is_ok());
        let sources = |edges: &Vec<Edge>| -> Vec<Source> {
            edges
                .iter()
                .map(|edge| (edge.source, edge.conclusion))
                .collect()
        };
        let least = accepted.iter().min_by_key(|edges| sources(edges));
        let edges = writer::edges(&few.protocol, &run.nodes).expect("a run");
        assert_eq!(least, Some(&edges));
        let earliest = accepted
            .iter()
            .filter(|edges| is_earliest(&few.protocol, &run.nodes, edges));
        assert_eq!(earliest.count(), 1);
        chosen += usize::from(accepted.len() > 1);
        most = most.max(accepted.len());
    }
    assert!(chosen > 300 && most > 20, "{chosen} {most}");
}

#[test]
fn the_trace_alone_decides_a_property() {
    let mut random = Random::new(9);
    let (mut truths, mut falsehoods) = (0, 0);
    for _ in 0..6_000 {
        let protocol = protocols::fit(&mut random);
        let length = random.below(12);
        let run = run(&mut random, &protocol, length);
        let trace: Vec<&[Fact]> = run.nodes.iter().map(|node| &node.actions[..]).collect();
        let formula = Maker::new(&protocol, 3).property(&mut random);
        if by_words::cost(&trace, &formula) > 20_000.0 || trace.iter().all(|node| node.is_empty()) {
            continue;
        }
        let truth = judge::holds(&trace, &[], &formula);
        assert_eq!(truth, by_words::holds(&trace, &formula), "{formula:?}");
        assert_eq!(!truth, judge::holds(&trace, &[], &negated(formula)));
        truths += usize::from(truth);
        falsehoods += usize::from(!truth);
    }
    assert!(truths > 200 && falsehoods > 200, "{truths} {falsehoods}");
}
