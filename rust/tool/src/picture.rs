//! DOT, as Tamarin draws: a box of premises, rule with actions, conclusions; edges from conclusion to premise.

use crate::answer::Answer;
use crate::case::Case;
use crate::diagnose::Place;
use crate::model::*;
use crate::print::{cut, visible, Style};
use std::collections::{HashMap, HashSet};

/// One colour for each own rule, in turn.
const OWN_COLOURS: [&str; 8] = [
    "#cfe3f7", "#d8efd3", "#eadcf4", "#fbe6d0", "#d3efee", "#f4dce6", "#e9ecc9", "#dcdff7",
];
const MAKING_COLOUR: &str = "#f4f4f4";
const INTRUDER_COLOUR: &str = "#ffffff";
const WITNESS_COLOUR: &str = "#ffd27f";
const REFUSED_COLOUR: &str = "#f4b6b6";

/// The text of a fact and the name of a rule are cut there.
const MOST_CHARACTERS: usize = 200;

const HEAD: &str = "digraph G {
  graph [fontname=\"Helvetica\", nodesep=0.3, ranksep=0.35];
  node [fontname=\"Helvetica\", fontsize=9, shape=record, height=0.2, margin=\"0.06,0.03\"];
  edge [fontname=\"Helvetica\", fontsize=9, arrowsize=0.6];
";

/// The graph of an answered case; `simplify` leaves out the steps that make names.
pub fn dot(answer: &Answer, simplify: bool) -> String {
    let picture = Picture::new(answer, simplify, None);
    format!("{HEAD}{}{}}}\n", picture.caption(), picture.body())
}

/// The same for a page of many: ids begin with the case's, and each node leads to its step.
pub fn dot_on_page(answer: &Answer, id: &str) -> String {
    let picture = Picture::new(answer, false, Some(id));
    let head = format!("  id=\"{id}graph\"; bgcolor=transparent;\n");
    format!("{HEAD}{head}{}}}\n", picture.body())
}

struct Picture<'a> {
    answer: &'a Answer<'a>,
    case: &'a Case,
    style: Style<'a>,
    facts: Vec<Filled>,
    edges: Vec<Edge>,
    short: Short,
    /// Nodes whose actions make the property false.
    witness: HashSet<usize>,
    refused: Place,
    simplify: bool,
    /// The case's id on a page.
    id: Option<&'a str>,
}

impl<'a> Picture<'a> {
    fn new(answer: &'a Answer<'a>, simplify: bool, id: Option<&'a str>) -> Self {
        let case = answer.case;
        let mut kernel = case.kernel();
        let fill = |node| kernel.facts(node, &case.protocol);
        let facts: Vec<Filled> = case.nodes.iter().map(fill).collect();
        let matches = answer.witness().map(|witness| &witness.matches);
        let diagnosis = answer.diagnosis.as_ref();
        Picture {
            short: Short::new(&facts, &case.names),
            witness: matches.into_iter().flatten().map(|m| m.node).collect(),
            refused: diagnosis.map_or(Place::Nowhere, |d| d.place.clone()),
            style: Style::of(&case.names),
            edges: case.shown_edges(),
            facts,
            answer,
            case,
            simplify,
            id,
        }
    }

    fn body(&self) -> String {
        let mut out = String::new();
        for n in 1..=self.facts.len() {
            if !self.hidden(n) {
                out += &self.node(n);
            }
        }
        for (i, edge) in self.edges.iter().enumerate() {
            out += &self.edge(i + 1, edge);
        }
        out + &self.below() + &self.legend()
    }

    /// A step that was not drawn stands below the one before it.
    fn below(&self) -> String {
        let refused = self.case.refused_step();
        let before = refused.and_then(|n| (1..n).rev().find(|m| !self.hidden(*m)));
        match (before, refused) {
            (Some(before), Some(n)) => format!("  n{before} -> n{n} [style=invis];\n"),
            _ => String::new(),
        }
    }

    fn caption(&self) -> String {
        let case = self.case;
        let text = format!("{} / {}: {}", case.title, case.lemma, self.answer.line());
        format!("  label=\"{}\"; labelloc=t; fontsize=12;\n", escape(&text))
    }

    /// Steps that make names, where that is asked for; steps behind one that was not drawn.
    fn hidden(&self, n: usize) -> bool {
        let rule = self.case.nodes[n - 1].rule;
        let undrawn = self.case.refused_step().is_some_and(|refused| n > refused);
        undrawn || self.simplify && rule == FRESH && self.refused != Place::Node(n)
    }

    fn fact(&self, fact: &Fact) -> String {
        let terms: Vec<Term> = fact
            .terms
            .iter()
            .map(|t| self.short.shorten(t, false))
            .collect();
        let symbol = fact.symbol;
        let names = self.short.names(self.style.names);
        let text = Style::of(&names).fact(&Fact { symbol, terms }, &self.case.protocol);
        cut(&text, MOST_CHARACTERS)
    }

    fn ports(&self, facts: &[Fact], letter: char) -> Option<String> {
        let cell = |(i, fact)| format!("<{letter}{}> {}", i + 1, escape(&self.fact(fact)));
        let cells: Vec<String> = facts.iter().enumerate().map(cell).collect();
        (!cells.is_empty()).then(|| format!("{{{}}}", cells.join("|")))
    }

    fn node(&self, n: usize) -> String {
        let facts = &self.facts[n - 1];
        let rule = self.case.names.rule(self.case.nodes[n - 1].rule);
        let rule = escape(&cut(&rule, MOST_CHARACTERS));
        let actions: Vec<String> = facts.actions.iter().map(|f| self.fact(f)).collect();
        let actions = match actions.is_empty() {
            true => String::new(),
            false => format!("[{}]", escape(&actions.join(", "))),
        };
        let middle = Some(format!("{{#{n} : {rule}{actions}}}"));
        let parts = [
            self.ports(&facts.premises, 'p'),
            middle,
            self.ports(&facts.conclusions, 'c'),
        ];
        let parts: Vec<String> = parts.into_iter().flatten().collect();
        let (fill, line) = self.look(n);
        format!(
            "  n{n} [{}, style=filled, fillcolor=\"{fill}\"{line}, label=\"{{{}}}\"];\n",
            self.node_id(n),
            parts.join("|")
        )
    }

    fn node_id(&self, n: usize) -> String {
        match self.id {
            None => format!("id=\"node{n}\""),
            Some(id) => {
                format!("id=\"{id}node{n}\", URL=\"#{id}step{n}\", tooltip=\"step {n}\"")
            }
        }
    }

    /// The ids that Graphviz gives edges are those of one picture alone.
    fn edge_id(&self, number: usize) -> String {
        self.id
            .map_or(String::new(), |id| format!(", id=\"{id}edge{number}\""))
    }

    /// The colour of a node, and how its line is drawn.
    fn look(&self, n: usize) -> (&'static str, &'static str) {
        let rule = self.case.nodes[n - 1].rule;
        let blamed = ", penwidth=2, color=\"#b00000\"";
        let grey = ", color=\"#888888\"";
        if self.refused == Place::Node(n) {
            return (REFUSED_COLOUR, blamed);
        }
        if self.witness.contains(&n) {
            return (WITNESS_COLOUR, blamed);
        }
        match own_rule(rule) {
            Some(own) => (OWN_COLOURS[own % OWN_COLOURS.len()], ""),
            None if rule == FRESH => (MAKING_COLOUR, grey),
            None => (INTRUDER_COLOUR, grey),
        }
    }

    /// An edge between nodes that are there; one that ends nowhere is left out.
    fn edge(&self, number: usize, edge: &Edge) -> String {
        let [source, conclusion, target, premise] = edge.map(|n| n as usize);
        let there = |n: usize| (1..=self.facts.len()).contains(&n) && !self.hidden(n);
        if !there(source) || !there(target) {
            return String::new();
        }
        let conclusions = &self.facts[source - 1].conclusions;
        let fact = conclusion.checked_sub(1).and_then(|i| conclusions.get(i));
        let look = match fact.map(|fact| fact.symbol) {
            Some(K) => "color=\"#d04020\"",
            Some(IN | OUT) => "color=\"#d04020\", style=bold",
            Some(FR) => "color=\"#999999\"",
            Some(own) if !self.case.protocol.linear(own) => "color=\"#666666\", style=dashed",
            _ => "color=\"#203060\", style=bold",
        };
        let refused = match self.refused == Place::Edge(number) {
            true => ", penwidth=4, color=\"#d00000\", label=\"refused\", fontcolor=\"#d00000\"",
            false => "",
        };
        let id = self.edge_id(number);
        format!("  n{source}:c{conclusion}:s -> n{target}:p{premise}:n [{look}{refused}{id}];\n")
    }

    fn legend(&self) -> String {
        if self.short.terms.is_empty() {
            return String::new();
        }
        let names = self.short.names(self.style.names);
        let style = Style::of(&names);
        let row = |(i, term): (usize, &Term)| {
            let whole = cut(
                &style.term(&self.short.shorten(term, true)),
                MOST_CHARACTERS,
            );
            format!("{} = {}\\l", self.short.letters[i], escape(&whole))
        };
        let rows: Vec<String> = self.short.terms.iter().enumerate().map(row).collect();
        format!(
            "  legend [id=\"{}legend\", shape=note, style=filled, fillcolor=\"#fffff0\", color=\"#888888\", label=\"{}\"];\n",
            self.id.unwrap_or_default(),
            rows.concat()
        )
    }
}

/// Letters for large terms that stand often, so that boxes stay small.
struct Short {
    /// The smaller first, so that the larger are said with them.
    terms: Vec<Term>,
    /// Those of the alphabet that name no function and no fact.
    letters: Vec<String>,
}

const LEAST_SYMBOLS: usize = 4;
const LEAST_OFTEN: usize = 3;
impl Short {
    fn new(facts: &[Filled], names: &Names) -> Short {
        let given = GIVEN_FACTS.map(String::from);
        let taken = [&names.functions[..], &names.facts, &given].concat();
        let letters = ('A'..='Z').map(String::from);
        let letters: Vec<String> = letters.filter(|letter| !taken.contains(letter)).collect();
        let mut count: HashMap<&Term, usize> = HashMap::new();
        for term in facts
            .iter()
            .flat_map(Filled::facts)
            .flat_map(|fact| &fact.terms)
        {
            term.each(&mut |part| *count.entry(part).or_default() += 1);
        }
        let often = count.into_iter().filter(|(_, often)| *often >= LEAST_OFTEN);
        let mut often: Vec<(usize, &Term, usize)> = often
            .map(|(term, often)| (term.symbols(), term, often))
            .filter(|(symbols, ..)| *symbols >= LEAST_SYMBOLS)
            .collect();
        often.sort_by_key(|(symbols, term, often)| (std::cmp::Reverse(symbols * often), *term));
        often.truncate(letters.len());
        often.sort_by_key(|(symbols, term, _)| (*symbols, *term));
        Short {
            terms: often.into_iter().map(|(_, term, _)| term.clone()).collect(),
            letters,
        }
    }

    /// The term with letters in it; `whole` leaves it, and only its parts have letters.
    fn shorten(&self, term: &Term, whole: bool) -> Term {
        match self.terms.iter().position(|short| short == term) {
            Some(i) if !whole => Term::Apply(FIRST_LETTER + i as u32, Vec::new()),
            _ => match term {
                Term::Apply(tag, arguments) => {
                    let parts = arguments.iter().map(|part| self.shorten(part, false));
                    Term::Apply(*tag, parts.collect())
                }
                other => other.clone(),
            },
        }
    }

    fn names(&self, names: &Names) -> Names {
        Names {
            letters: self.letters.clone(),
            ..names.clone()
        }
    }
}

/// Text in a record's label, where Graphviz reads entities too.
fn escape(text: &str) -> String {
    let mut out = String::new();
    for c in visible(text).chars() {
        if "{}|<>\"\\".contains(c) {
            out.push('\\');
        }
        out.push(c);
        if c == '&' {
            out += "amp;";
        }
    }
    out
}

/// The graph for other programs, with all facts filled in.
pub fn json(answer: &Answer) -> String {
    let case = answer.case;
    let mut kernel = case.kernel();
    let style = Style::of(&case.names);
    let said = |facts: &[Fact]| -> Vec<String> {
        facts
            .iter()
            .map(|fact| style.fact(fact, &case.protocol))
            .collect()
    };
    let node = |(i, node): (usize, &Node)| {
        let facts = kernel.facts(node, &case.protocol);
        let values: Vec<String> = node.values.iter().map(|value| style.term(value)).collect();
        serde_json::json!({
            "node": i + 1,
            "rule": node.rule,
            "name": case.names.rule(node.rule),
            "values": values,
            "premises": said(&facts.premises),
            "actions": said(&facts.actions),
            "conclusions": said(&facts.conclusions),
        })
    };
    let nodes: Vec<serde_json::Value> = case.nodes.iter().enumerate().map(node).collect();
    let edge = |e: &Edge| serde_json::json!({ "from": [e[0], e[1]], "to": [e[2], e[3]] });
    let edges: Vec<serde_json::Value> = case.edges().iter().map(edge).collect();
    let all = serde_json::json!({ "answer": answer.json(), "nodes": nodes, "edges": edges });
    format!("{all}\n")
}
