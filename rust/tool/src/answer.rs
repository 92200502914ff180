//! An answer of the core in words and as JSON.

use crate::case::{line, refusal_line, word, Case};
use crate::diagnose::{diagnose, Diagnosis, Place};
use crate::hint;
use crate::kernel::{Counts, Refusal, Ruled, Ruling};
use crate::print;
use crate::table;
use crate::text;
use crate::witness::{self, Reading, Witness};
use serde::Serialize;

/// What stands for the reason where the reading was given up.
pub const UNREAD: &str = "To say why, the property takes too long to read.";

/// What a case was answered, and what the tool adds to it.
pub struct Answer<'a> {
    pub case: &'a Case,
    pub ruling: Ruled,
    pub reading: Reading,
    pub diagnosis: Option<Diagnosis>,
    pub hint: Option<String>,
}

/// Asks the core, and looks for the reason.
pub fn answer(case: &Case) -> Answer<'_> {
    let ruling = case.ruling();
    let diagnosis = match &ruling {
        Err(refusal) => Some(diagnose(case, refusal)),
        _ => None,
    };
    let reading = witness::read(case, &ruling);
    let hint = match reading {
        Reading::Differs => None,
        _ => hint::never_sent(case, &ruling),
    };
    Answer {
        case,
        ruling,
        reading,
        diagnosis,
        hint,
    }
}

impl Answer<'_> {
    pub fn line(&self) -> String {
        line(&self.ruling)
    }

    pub fn word(&self) -> &'static str {
        word(&self.ruling)
    }

    pub fn refusal(&self) -> Option<&Refusal> {
        self.ruling.as_ref().err()
    }

    pub fn witness(&self) -> Option<&Witness> {
        match &self.reading {
            Reading::Agrees(witness) => witness.as_ref(),
            _ => None,
        }
    }

    /// The sentence of a disagreement between the core and the tool's reading.
    pub fn disagreement(&self) -> Option<String> {
        (self.reading == Reading::Differs).then(|| {
            format!(
                "{} / {}: the core answers `{}`, and the tool reads the property otherwise; the answer is the core's, and this is a fault of one of the two",
                self.case.title,
                self.case.lemma,
                self.line()
            )
        })
    }

    /// The ruling as a sentence; none where the tool reads the property otherwise, or knows no such refusal.
    pub fn sentence(&self) -> Option<String> {
        let lemma = &self.case.lemma;
        Some(match &self.ruling {
            _ if self.reading == Reading::Differs => return None,
            Err(refusal) => format!("Refused: {}.", table::row(refusal.number)?.cause.words()),
            Ok(Ruling::Attack(c)) => format!(
                "An attack: the graph is a run of the protocol ({}), and `{lemma}` is false of it.",
                counted(c)
            ),
            Ok(Ruling::Run(c)) => format!(
                "No attack: the graph is a run of the protocol ({}), and `{lemma}` holds of it.",
                counted(c)
            ),
        })
    }

    /// All that is said behind the line.
    pub fn words(&self) -> Vec<String> {
        let Some(sentence) = self.sentence() else {
            return Vec::new();
        };
        let mut words = vec![sentence];
        if self.refusal().is_some() {
            words.extend(self.diagnosis.iter().flat_map(|d| d.reasons.clone()));
            return words;
        }
        match &self.reading {
            Reading::Agrees(Some(witness)) => words.extend(self.witness_words(witness)),
            Reading::Silent => words.push(UNREAD.into()),
            _ => {}
        }
        words.extend(self.formula_words());
        words.extend(self.hint.clone());
        words
    }

    fn witness_words(&self, witness: &Witness) -> Vec<String> {
        let mut words = Vec::new();
        if !witness.matches.is_empty() || !witness.missing.is_empty() {
            words.push("It is false by:".into());
        }
        for found in &witness.matches {
            let rule = self.case.names.rule(self.case.nodes[found.node - 1].rule);
            words.push(format!("  step {:>3} ({rule}): {}", found.node, found.fact));
        }
        for missing in &witness.missing {
            words.push(format!("  there is no {missing} as it asks for"));
        }
        words
    }

    /// The guarded form that was judged.
    pub fn judged(&self) -> Option<String> {
        let formula = self.case.formula.as_ref()?;
        Some(print::formula(formula, &self.case.names))
    }

    /// The formula as written, in one line.
    pub fn written(&self) -> Option<String> {
        let words: Vec<&str> = self.case.as_written.as_ref()?.split_whitespace().collect();
        Some(words.join(" "))
    }

    fn formula_words(&self) -> Vec<String> {
        match (self.written(), self.judged()) {
            (_, None) => Vec::new(),
            (None, Some(judged)) => vec![format!("as judged: {judged}")],
            (Some(written), Some(judged)) if written == judged => {
                vec![format!("as written and judged: {judged}")]
            }
            (Some(written), Some(judged)) => vec![
                format!("as written: {written}"),
                format!("as judged:  {judged}"),
            ],
        }
    }

    /// A refusal with its place in the text, where it has one there.
    pub fn located(&self) -> Option<text::Error> {
        let (refusal, diagnosis) = (self.refusal()?, self.diagnosis.as_ref()?);
        let places = self.case.places.as_ref()?;
        let row = table::row(refusal.number)?;
        let before = |n: &usize| n.checked_sub(1);
        let span = match &diagnosis.place {
            Place::Rule(n) => places.rules.get(before(n)?)?.clone(),
            Place::Node(n) => places.nodes.get(before(n)?)?.clone(),
            Place::Edge(n) => places.edges.get(before(n)?)?.clone(),
            Place::Text(span) => span.clone(),
            Place::Property => places.lemma.clone(),
            Place::Byte(..) | Place::Nowhere => return None,
        };
        let mut reasons = diagnosis.reasons.iter().cloned();
        Some(text::Error {
            span,
            message: format!("{}: {}", refusal_line(refusal), row.cause.words()),
            label: reasons.next().unwrap_or_default(),
            notes: reasons.collect(),
        })
    }

    pub fn json(&self) -> Json {
        Json {
            case: self.case.title.clone(),
            property: self.case.lemma.clone(),
            figures: Figures::of(&self.ruling),
            place: self.json_place(),
            words: self.words(),
            witness: self.witness().map(|witness| witness.matches.clone()),
        }
    }

    fn json_place(&self) -> Option<serde_json::Value> {
        if let (Some(error), Some(places)) = (self.located(), &self.case.places) {
            let (line, column) = places.source.line_and_column(error.span.start);
            let file = &places.source.name;
            return Some(serde_json::json!({ "file": file, "line": line, "column": column }));
        }
        match self.diagnosis.as_ref()?.place {
            Place::Rule(n) => Some(serde_json::json!({ "rule": n })),
            Place::Node(n) => Some(serde_json::json!({ "node": n })),
            Place::Edge(n) => Some(serde_json::json!({ "edge": n })),
            Place::Byte(file, at) => Some(serde_json::json!({ "file": file, "byte": at })),
            Place::Text(_) | Place::Property | Place::Nowhere => None,
        }
    }
}

fn counted(counts: &Counts) -> String {
    let plural = |n: u32, word: &str| match n {
        1 => format!("1 {word}"),
        _ => format!("{n} {word}s"),
    };
    let (nodes, edges) = (plural(counts.nodes, "step"), plural(counts.edges, "edge"));
    format!("{nodes}, {} with an action, {edges}", counts.with_action)
}

impl std::fmt::Display for Json {
    fn fmt(&self, f: &mut std::fmt::Formatter) -> std::fmt::Result {
        let line = serde_json::to_string(self).map_err(|_| std::fmt::Error)?;
        f.write_str(&line)
    }
}

/// A line of `check --format json`. Fields are only ever added.
#[derive(Serialize)]
pub struct Json {
    case: String,
    property: String,
    #[serde(flatten)]
    figures: Figures,
    #[serde(skip_serializing_if = "Option::is_none")]
    place: Option<serde_json::Value>,
    words: Vec<String>,
    #[serde(skip_serializing_if = "Option::is_none")]
    witness: Option<Vec<witness::Match>>,
}

/// An answer as JSON, the same for a case of `check` and of `batch`.
#[derive(Serialize)]
pub struct Figures {
    line: String,
    ruling: &'static str,
    #[serde(skip_serializing_if = "Option::is_none")]
    nodes: Option<u32>,
    #[serde(skip_serializing_if = "Option::is_none")]
    with_action: Option<u32>,
    #[serde(skip_serializing_if = "Option::is_none")]
    edges: Option<u32>,
    #[serde(skip_serializing_if = "Option::is_none")]
    refusal: Option<u32>,
    #[serde(skip_serializing_if = "Option::is_none")]
    item: Option<u32>,
}

impl Figures {
    pub fn of(ruling: &Ruled) -> Self {
        let counts = ruling.as_ref().ok().map(|ruling| match ruling {
            Ruling::Attack(counts) | Ruling::Run(counts) => counts,
        });
        let refusal = ruling.as_ref().err();
        Figures {
            line: line(ruling),
            ruling: word(ruling),
            nodes: counts.map(|c| c.nodes),
            with_action: counts.map(|c| c.with_action),
            edges: counts.map(|c| c.edges),
            refusal: refusal.map(|r| r.number),
            item: refusal.map(|r| r.item),
        }
    }
}
