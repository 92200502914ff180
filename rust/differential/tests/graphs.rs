//! Graphs beside the reference: the test program over random inputs from a fixed seed, mostly good ones, some
//! damaged, and over the graphs with the most edges.

use differential::{fill_input, program_agrees, Shares};
use reference::calls::Outcome;
use reference::cases::{Case, Kind};
use reference::generate::graphs::check_input;
use reference::graph::{write_edges, Edge, MOST_EDGES};
use reference::notation;
use reference::number::write;
use reference::random::Random;
use reference::refusal::File;
use reference::steps::MOST_NODES;

const ROUNDS: usize = 40;
/// A graph of more nodes is a long one.
const LONG: usize = 100;

fn graph(label: &str, protocol: Vec<u8>, bytes: Vec<u8>) -> Case {
    Case {
        kind: Kind::Graph,
        label: label.to_string(),
        under: protocol,
        bytes,
    }
}

/// A protocol and a graph within their files' byte limits.
fn random_graph(random: &mut Random) -> Case {
    loop {
        let input = check_input(random);
        let within = input.protocol.len() <= File::Protocol.limit()
            && input.graph.len() <= File::Graph.limit();
        if within {
            return graph("", input.protocol, input.graph);
        }
    }
}

#[test]
fn graphs_beside_the_reference() {
    let mut random = Random::new(30);
    let mut shares = Shares::default();
    let (mut all, mut long) = (0, 0);
    for _ in 0..ROUNDS {
        let cases = fill_input(|| random_graph(&mut random));
        for case in &cases {
            match case.graph() {
                Ok((nodes, _)) => {
                    shares.count("good".to_string());
                    long += usize::from(nodes.len() > LONG);
                }
                Err(refusal) => shares.add(Outcome::Refused(refusal)),
            }
        }
        program_agrees("cases_graphs", &cases);
        all += cases.len();
    }
    shares.print("graphs");
    println!("good, over {LONG} nodes {long:6} of {all}");
    shares.at_least(2_500, &["good"]);
    let refusals = [7, 8, 9, 10, 11, 12, 13].map(|number| format!("refused {number}"));
    shares.at_least(100, &refusals.each_ref().map(|kind| kind.as_str()));
    shares.at_least(50, &["refused 3 file 1", "refused 3 file 3"]);
    shares.at_least(50, &["refused 4", "refused 6"]);
    assert!(20 * long >= all);
}

/// Rule 31 makes two facts, rule 32 takes the first one eight times, rule 33 once.
fn protocol(persistent: bool) -> Vec<u8> {
    let flag = if persistent { "01" } else { "00" };
    notation::bytes(&format!(
        "00 02 00 {flag} 00 {flag} 03 00 00 00 02 04 05 00 08 8*( 04 ) 00 00 00 01 04 00 00"
    ))
}

/// A node of rule 31, and behind it nodes of rules 32 and 33.
fn nodes(eight_times: usize, once: usize) -> Vec<u8> {
    let mut bytes = Vec::new();
    write((1 + eight_times + once) as u32, &mut bytes);
    bytes.push(31);
    bytes.resize(bytes.len() + eight_times, 32);
    bytes.resize(bytes.len() + once, 33);
    bytes
}

/// An edge from the first conclusion into each premise of these nodes.
fn edges(eight_times: usize, once: usize) -> Vec<Edge> {
    let edge = |target, premise| Edge {
        source: 1,
        conclusion: 1,
        target,
        premise,
    };
    let eight = (2..2 + eight_times).flat_map(|node| (1..=8).map(move |k| edge(node, k)));
    let one = (2 + eight_times..2 + eight_times + once).map(|node| edge(node, 1));
    eight.chain(one).collect()
}

fn with_edges(mut nodes: Vec<u8>, edges: &[Edge]) -> Vec<u8> {
    write_edges(edges, &mut nodes);
    nodes
}

/// As many nodes as are allowed, with as many premises as they can have.
fn largest(label: &str, persistent: bool, change: impl Fn(&mut Vec<Edge>)) -> Case {
    let behind_the_first = MOST_NODES as usize - 1;
    let mut edges = edges(behind_the_first, 0);
    change(&mut edges);
    let bytes = with_edges(nodes(behind_the_first, 0), &edges);
    graph(label, protocol(persistent), bytes)
}

/// A linear conclusion that is used so often.
fn used(label: &str, eight_times: usize, once: usize) -> Case {
    let bytes = with_edges(nodes(eight_times, once), &edges(eight_times, once));
    graph(label, protocol(false), bytes)
}

fn last(edges: &mut [Edge]) -> &mut Edge {
    edges.last_mut().expect("an edge")
}

/// The first edge again, until there are as many as are allowed.
fn fill_up(edges: &mut Vec<Edge>) {
    edges.resize(MOST_EDGES as usize, edges[0]);
}

/// The label is the outcome by document 01.
#[test]
fn the_most_edges_beside_the_reference() {
    let cases = [
        largest("good 512 4088", true, |_| {}),
        largest("good 512 4088", true, |edges| edges.reverse()),
        largest("refused 13 1", false, |_| {}),
        largest("refused 10 4088", true, |edges| last(edges).premise = 9),
        largest("refused 11 4088", true, |edges| last(edges).conclusion = 2),
        largest("refused 12 512", true, |edges| {
            edges.truncate(edges.len() - 1)
        }),
        largest("refused 12 512", true, |edges| {
            let again = *last(edges);
            edges.push(again);
        }),
        largest("refused 12 2", true, fill_up),
        largest("refused 11 4096", true, |edges| {
            fill_up(edges);
            last(edges).conclusion = 2;
        }),
        largest("refused 3 3", true, |edges| {
            fill_up(edges);
            edges.push(edges[0]);
        }),
        used("good 2 1", 0, 1),
        used("refused 13 1", 1, 0),
        used("refused 13 1", 31, 7),
        used("refused 13 1", 32, 0),
        used("refused 13 1", 32, 1),
    ];
    for case in cases {
        assert_eq!(case.outcome(), case.label);
        program_agrees("cases_graphs", &[case]);
    }
}
