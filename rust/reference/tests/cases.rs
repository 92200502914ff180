//! The case files say what their labels say.

use reference::by_words;
use reference::calls::{fit_protocol, ruled_graph};
use reference::cases::{
    bytes_cases, checks_cases, data, draws_cases, facts, facts_cases, graphs_cases, message_cases,
    properties_cases, steps_cases, terms_cases, trace, Case, Kind,
};
use reference::earliest::is_earliest;
use reference::generate::runs::{edges_by, latest};
use reference::notation::parse;
use reference::number::{Reader, LARGEST};
use reference::protocol::Protocol;
use reference::refusal::File;
use reference::term::{Prefix, Term};

const BYTES: &str = include_str!("../../../tests/cases/bytes.txt");
const MESSAGES: &str = include_str!("../../../tests/cases/messages.txt");
const STEPS: &str = include_str!("../../../tests/cases/steps.txt");
const FACTS: &str = include_str!("../../../tests/cases/facts.txt");
const GRAPHS: &str = include_str!("../../../tests/cases/graphs.txt");
const DRAWS: &str = include_str!("../../../tests/cases/draws.txt");
const CHECKS: &str = include_str!("../../../tests/cases/checks.txt");
const TERMS: &str = include_str!("../../../tests/cases/terms.txt");
const PROPERTIES: &str = include_str!("../../../tests/cases/properties.txt");

#[test]
fn a_message_is_its_label() {
    let cases = message_cases(MESSAGES);
    assert!(cases.len() > 100);
    for case in &cases {
        let mut reader = Reader::new(&case.bytes);
        let prefix = Prefix::read(&mut reader, &case.signature()).expect(&case.label);
        reader.finish().expect(&case.label);
        assert!(!prefix.has_variable(), "{}", case.label);
        if case.label.starts_with(':') {
            assert_eq!(prefix.symbols(), 256, "{}", case.label);
        } else {
            assert_eq!(prefix.tree(), parse(&case.label));
        }
    }
}

#[test]
fn a_number_is_its_label() {
    let mut numbers = 0;
    for case in bytes_cases(BYTES) {
        let label = case.label.parse::<u32>();
        if let (Kind::Number, Ok(number)) = (case.kind, label) {
            let outcome = format!("value {number} next {}", case.bytes.len());
            assert_eq!(case.outcome(), outcome);
            assert!(number <= LARGEST);
            numbers += 1;
        }
    }
    assert_eq!(numbers, 21);
}

#[test]
fn a_term_that_is_said_to_be_cut_off_is_a_fault() {
    let cases = bytes_cases(BYTES);
    let cut_off = cases.iter().filter(|case| case.label.contains("cut off"));
    let outcomes: Vec<String> = cut_off.map(|case| case.outcome()).collect();
    assert!(outcomes.len() > 20);
    assert!(outcomes.iter().all(|outcome| outcome == "fault"));
}

/// The label of a step list, a graph, a drawn graph, a term file, a property or a check is its outcome by document 01, a colon, and words.
#[test]
fn nodes_and_properties_have_the_outcomes_of_their_labels() {
    let all = [
        (300, steps_cases(STEPS)),
        (300, graphs_cases(GRAPHS)),
        (50, draws_cases(DRAWS)),
        (70, terms_cases(TERMS)),
        (35, checks_cases(CHECKS)),
        (300, properties_cases(PROPERTIES)),
    ];
    for (least, cases) in all {
        assert!(cases.len() > least);
        for case in &cases {
            let (outcome, _) = case.label.split_once(": ").expect(&case.label);
            assert_eq!(case.outcome(), outcome, "{}", case.label);
        }
    }
}

/// The edges of a drawn case are the earliest by their words; in most there is another fit source.
#[test]
fn drawn_cases_have_the_earliest_sources() {
    let mut choices = 0;
    for case in draws_cases(DRAWS) {
        let Ok(graph) = case.drawn() else {
            continue;
        };
        let protocol = fit_protocol(&case.under).expect(&case.label);
        let (nodes, edges) = ruled_graph(&protocol, &graph).expect(&case.label);
        assert!(is_earliest(&protocol, &nodes, &edges), "{}", case.label);
        choices += usize::from(edges_by(&protocol, &nodes, latest) != Some(edges));
    }
    assert!(choices > 30, "{choices}");
}

/// Good graphs, and each cause that a graph under a fit protocol can have.
#[test]
fn graphs_have_each_outcome_several_times() {
    let outcomes: Vec<String> = graphs_cases(GRAPHS).iter().map(Case::outcome).collect();
    let refused = [3, 6, 7, 8, 9, 10, 11, 12, 13].map(|number| format!("refused {number} "));
    for kind in ["good ".to_string()].iter().chain(&refused) {
        let of_kind = outcomes.iter().filter(|outcome| outcome.starts_with(kind));
        assert!(of_kind.count() >= 5, "{kind}");
    }
}

/// Both truths, and each cause that a property or a step list can have.
#[test]
fn properties_have_each_outcome() {
    let outcomes: Vec<String> = properties_cases(PROPERTIES)
        .iter()
        .map(Case::outcome)
        .collect();
    let often = ["true ", "false ", "refused 3 2", "refused 5 0"].map(|kind| (kind, 50));
    let once = [
        "refused 3 1",
        "refused 4",
        "refused 3 5",
        "refused 6",
        "refused 7",
        "refused 8",
        "refused 9",
    ];
    for (kind, least) in often.into_iter().chain(once.map(|kind| (kind, 1))) {
        let of_kind = outcomes.iter().filter(|outcome| outcome.starts_with(kind));
        assert!(of_kind.count() >= least, "{kind}");
    }
}

/// The judge, which compares guards with actions, says what the words of a property say.
#[test]
fn the_words_of_a_property_say_its_outcome() {
    let mut judged = 0;
    for case in properties_cases(PROPERTIES) {
        if let Ok((property, nodes)) = case.property() {
            let truth = by_words::holds(&trace(&nodes), &property);
            let word = format!("{truth} ");
            assert!(case.outcome().starts_with(&word), "{}", case.label);
            judged += 1;
        }
    }
    assert!(judged > 200);
}

/// The label of facts is their outcome by document 01, or the first of its lists, with a slash for each bar;
/// a colon, and words.
#[test]
fn facts_are_the_same_where_their_label_says_so() {
    let cases = facts_cases(FACTS);
    assert!(cases.len() > 100);
    for case in &cases {
        let (said, _) = case.label.split_once(':').expect(&case.label);
        let said: Vec<&str> = said.split('/').map(str::trim).collect();
        let outcome = case.outcome();
        let lists: Vec<&str> = outcome.split('|').map(str::trim).collect();
        assert!(lists.starts_with(&said), "{}\n{outcome}", case.label);
    }
}

#[test]
fn facts_and_arguments_fit_their_program() {
    for case in &facts_cases(FACTS) {
        let nodes = case.nodes().unwrap_or_default();
        let facts = facts(&nodes);
        assert!(facts.len() <= 64, "{}", case.label);
        let arguments = facts.iter().map(|fact| fact.terms.len());
        assert!(arguments.sum::<usize>() <= 256, "{}", case.label);
    }
}

#[test]
fn nodes_have_as_many_symbols_as_their_labels_say() {
    let mut counted = 0;
    let cases = [steps_cases(STEPS), facts_cases(FACTS), graphs_cases(GRAPHS)];
    for case in cases.iter().flatten() {
        if let Some(count) = count_of_symbols(&case.label) {
            assert!(largest(case).contains(&count), "{}", case.label);
            counted += 1;
        }
    }
    assert!(counted > 50);
}

/// The number before the first word `symbols`.
fn count_of_symbols(label: &str) -> Option<usize> {
    let label = label.replace(',', "");
    let (before, _) = label.split_once(" symbols")?;
    before.split_whitespace().last()?.parse().ok()
}

/// The symbols of the largest value and of the largest filled-in term.
fn largest(case: &Case) -> [usize; 2] {
    let protocol = Protocol::read(&case.under).expect(&case.label);
    let mut reader = Reader::new(&case.bytes);
    let mut largest = [0, 0];
    for _ in 0..reader.number().expect(&case.label) {
        let number = reader.number().expect(&case.label);
        let rule = protocol.rule(number).expect(&case.label);
        let mut value = || Prefix::read(&mut reader, &protocol.signature).expect(&case.label);
        let sizes: Vec<usize> = rule.variables.iter().map(|_| value().symbols()).collect();
        let terms = rule.facts().flat_map(|fact| &fact.terms);
        let filled_in = terms.map(|term| filled_in(term, &sizes));
        largest[0] = sizes.iter().copied().fold(largest[0], usize::max);
        largest[1] = filled_in.fold(largest[1], usize::max);
    }
    largest
}

/// The symbols of a term with values of these sizes in place of its variables.
fn filled_in(term: &Term, sizes: &[usize]) -> usize {
    if let Term::Variable(number) = term {
        return sizes[*number as usize];
    }
    let parts = term.arguments().iter().map(|part| filled_in(part, sizes));
    1 + parts.sum::<usize>()
}

/// A test program reads 65,536 bytes at most, and cause 2 is not its matter.
#[test]
fn the_cases_fit_their_programs() {
    let nodes = [
        (File::Steps, steps_cases(STEPS)),
        (File::Steps, facts_cases(FACTS)),
        (File::Graph, graphs_cases(GRAPHS)),
    ];
    for cases in [bytes_cases(BYTES), message_cases(MESSAGES)] {
        assert!(data(&cases).len() <= 65_536);
    }
    for (file, cases) in &nodes {
        assert!(data(cases).len() <= 65_536);
        for case in cases {
            assert_eq!(File::Protocol.within_limit(&case.under), Ok(()));
            assert_eq!(file.within_limit(&case.bytes), Ok(()));
        }
    }
}

#[test]
fn the_properties_fit_their_program() {
    let cases = properties_cases(PROPERTIES);
    assert!(data(&cases).len() <= 65_536);
    let mut longest = 0;
    for case in &cases {
        let (property, steps) = case.property_and_nodes();
        assert_eq!(File::Protocol.within_limit(&case.under), Ok(()));
        assert_eq!(File::Property.within_limit(property), Ok(()));
        assert_eq!(File::Steps.within_limit(steps), Ok(()));
        longest = longest.max(property.len());
    }
    assert_eq!(longest, File::Property.limit());
}
