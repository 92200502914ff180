//! The table of a case's steps.

use super::escape;
use crate::answer::Answer;
use crate::diagnose::Place;
use crate::model::*;
use crate::print::{cut, Style};

/// A longer fact, and the name of a rule, are cut there.
const MOST_OF_FACT: usize = 4_000;
const MOST_OF_NAME: usize = 200;

/// A link to a step's row.
pub fn link(case: &str, step: usize, text: &str) -> String {
    format!("<a href=\"#{case}step{step}\">{text}</a>")
}

/// The name of a step's rule.
pub fn rule(names: &Names, node: &Node) -> String {
    escape(&cut(&names.rule(node.rule), MOST_OF_NAME))
}

/// A row for each step: its rule and facts, and where each premise comes from. The first steps, as many as are `in_picture`, lead there.
pub fn table(answer: &Answer, id: &str, in_picture: usize) -> String {
    let table = Table {
        answer,
        id,
        in_picture,
        edges: answer.case.shown_edges(),
        style: Style::of(&answer.case.names),
    };
    let mut kernel = answer.case.kernel();
    let mut out = "<table class=\"steps\">\n<thead><tr><th scope=\"col\">Step</th><th scope=\"col\">Rule</th><th scope=\"col\">Premises, from step</th><th scope=\"col\">Actions</th><th scope=\"col\">Conclusions</th></tr></thead>\n<tbody>\n".to_string();
    for (i, node) in answer.case.nodes.iter().enumerate() {
        let facts = kernel.facts(node, &answer.case.protocol);
        out += &table.row(i + 1, node, &facts);
    }
    out + "</tbody>\n</table>\n"
}

struct Table<'a> {
    answer: &'a Answer<'a>,
    id: &'a str,
    in_picture: usize,
    edges: Vec<Edge>,
    style: Style<'a>,
}

impl Table<'_> {
    fn row(&self, n: usize, node: &Node, facts: &Filled) -> String {
        let id = self.id;
        let premises: Vec<String> = facts
            .premises
            .iter()
            .enumerate()
            .map(|(i, fact)| format!("{}{}", self.fact(fact), self.sources(n, i + 1)))
            .collect();
        let said = |facts: &[Fact]| facts.iter().map(|fact| self.fact(fact)).collect::<Vec<_>>();
        let number = match n <= self.in_picture {
            true => format!("<a href=\"#{id}node{n}\">{n}</a>"),
            false => n.to_string(),
        };
        format!(
            "<tr id=\"{id}step{n}\"{}><th scope=\"row\">{number}</th><td>{}</td>{}{}{}</tr>\n",
            self.mark(n),
            rule(&self.answer.case.names, node),
            cell("Premises", &premises),
            cell("Actions", &said(&facts.actions)),
            cell("Conclusions", &said(&facts.conclusions))
        )
    }

    /// Whether the step makes the property false, or is where the case is refused.
    fn mark(&self, n: usize) -> &'static str {
        let mut matches = self.answer.witness().into_iter().flat_map(|w| &w.matches);
        let diagnosis = self.answer.diagnosis.as_ref();
        match diagnosis.is_some_and(|d| d.place == Place::Node(n)) {
            true => " class=\"refused\"",
            false if matches.any(|found| found.node == n) => " class=\"witness\"",
            false => "",
        }
    }

    fn fact(&self, fact: &Fact) -> String {
        let text = self.style.fact(fact, &self.answer.case.protocol);
        format!("<code>{}</code>", escape(&cut(&text, MOST_OF_FACT)))
    }

    /// The conclusions that a premise has edges from.
    fn sources(&self, step: usize, premise: usize) -> String {
        let end = [step as u32, premise as u32];
        let into = self.edges.iter().filter(|edge| edge[2..] == end);
        let links = into.map(|[source, conclusion, ..]| {
            let text = format!("{source}.{conclusion}");
            format!(" {}", link(self.id, *source as usize, &text))
        });
        links.collect()
    }
}

/// A cell with its heading, which narrow screens show.
fn cell(heading: &str, facts: &[String]) -> String {
    let facts: Vec<String> = facts.iter().map(|fact| format!("<p>{fact}</p>")).collect();
    format!("<td data-heading=\"{heading}\">{}</td>", facts.concat())
}
