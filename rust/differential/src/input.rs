//! Inputs of all calls, and the two implementations on them.

use crate::{outcome, ruled, Lent};
// The implementation beside the archive; tests/mutants puts a wrong one in its place.
use reference::calls as engine;
use reference::calls::{drawn, fit_protocol, Outcome, WORK_AREA};
use reference::cases::{self, hexadecimal, Case, Kind};
use reference::corpus;
use reference::cost;
use reference::generate::canonical::{self, LONGEST_TERM};
use reference::generate::graphs;
use reference::random::Random;
use reference::refusal::File;
use reference::term::PUBLIC;
use std::panic::{catch_unwind, AssertUnwindSafe};

#[derive(Clone, Copy, Debug, PartialEq, Eq)]
pub enum Call {
    Check,
    Draw,
    Canonical,
}

/// What a call is given: its files, and the lengths of the lent slices.
#[derive(Clone, Debug, PartialEq, Eq)]
pub struct Input {
    pub call: Call,
    /// Protocol, property, graph; protocol, steps; or protocol, term.
    pub files: Vec<Vec<u8>>,
    pub output: usize,
    pub work: usize,
}

/// The outcome's line, and what the output and the work area hold then.
#[derive(PartialEq, Eq)]
struct Answer {
    line: String,
    output: Vec<u8>,
    work: Vec<u8>,
}

/// Where the implementations differ, in words.
pub struct Difference {
    pub archive: String,
    pub reference: String,
}

impl Input {
    fn check(files: [&[u8]; 3], work: usize) -> Input {
        Input {
            call: Call::Check,
            files: files.map(<[u8]>::to_vec).to_vec(),
            output: 0,
            work,
        }
    }

    /// Drawing, or canonical form.
    fn writing(call: Call, files: [&[u8]; 2], output: usize, work: usize) -> Input {
        Input {
            call,
            files: files.map(<[u8]>::to_vec).to_vec(),
            output,
            work,
        }
    }

    /// An input of any call.
    pub fn random(random: &mut Random) -> Input {
        let call = match random.below(12) {
            0..7 => Call::Check,
            7..10 => Call::Draw,
            _ => Call::Canonical,
        };
        Input::random_of(call, random)
    }

    /// Graphs and steps of random protocols, of key exchanges and with many equal facts; terms.
    pub fn random_of(call: Call, random: &mut Random) -> Input {
        match call {
            Call::Check => {
                let input = match random.below(7) {
                    0..3 => graphs::check_input(random),
                    3..6 => graphs::session_input(random),
                    _ => graphs::crowded_input(random),
                };
                let files = [&input.protocol[..], &input.property, &input.graph];
                Input::check(files, input.work)
            }
            Call::Draw => {
                let input = match random.below(3) {
                    0 => graphs::draw_input(random),
                    1 => graphs::session_steps(random),
                    _ => graphs::crowded_steps(random),
                };
                let files = [&input.protocol[..], &input.steps];
                Input::writing(call, files, input.output, input.work)
            }
            Call::Canonical => {
                let input = canonical::input(random);
                let files = [&input.protocol[..], &input.term];
                Input::writing(call, files, input.output, input.work)
            }
        }
    }

    /// The corpus and the cases by hand.
    pub fn cases() -> Vec<Input> {
        let corpus = corpus::cases().into_iter().map(|case| {
            let call = [Call::Check, Call::Draw, Call::Canonical][case.kind as usize];
            Input {
                call,
                files: case.files.iter().map(|file| file.to_vec()).collect(),
                output: case.output,
                work: case.work,
            }
        });
        corpus.chain(Input::by_hand()).collect()
    }

    /// The cases by hand, each to the calls that read its file.
    pub fn by_hand() -> Vec<Input> {
        let root = concat!(env!("CARGO_MANIFEST_DIR"), "/../../tests/cases/");
        let text = |name: &str| std::fs::read_to_string(format!("{root}{name}")).expect("cases");
        let inputs = |name: &str, cases: fn(&str) -> Vec<Case>, inputs: fn(&Case) -> Vec<Input>| {
            cases(&text(name)).iter().flat_map(inputs).collect()
        };
        let all: [Vec<Input>; 9] = [
            inputs("checks.txt", cases::checks_cases, of_check),
            inputs("graphs.txt", cases::graphs_cases, of_graph),
            inputs("steps.txt", cases::steps_cases, of_steps),
            inputs("facts.txt", cases::facts_cases, of_steps),
            inputs("draws.txt", cases::draws_cases, of_draw),
            inputs("properties.txt", cases::properties_cases, of_property),
            inputs("messages.txt", cases::message_cases, of_bytes),
            inputs("bytes.txt", cases::bytes_cases, of_bytes),
            inputs("terms.txt", cases::terms_cases, of_term_file),
        ];
        all.concat()
    }

    /// Whether judging the property may take much longer than a second.
    pub fn takes_long(&self) -> bool {
        match (self.call, &self.files[..]) {
            (Call::Check, [protocol, property, graph]) => {
                cost::of_files(protocol, property, graph) > cost::A_SECOND
            }
            _ => false,
        }
    }

    /// The outcome and the answer; whether the bytes around the lent slices are untouched.
    fn archive(&self) -> (Outcome, Answer, bool) {
        let (mut output, mut work) = (Lent::new(self.output, 1), Lent::new(self.work, 2));
        let outcome = match (self.call, &self.files[..]) {
            (Call::Check, [protocol, property, graph]) => {
                ruled(levtosziv::check(protocol, property, graph, work.slice()))
            }
            (Call::Draw, [protocol, steps]) => {
                let (output, work) = (output.slice(), work.slice());
                outcome(levtosziv::draw(protocol, steps, output, work))
            }
            (Call::Canonical, [protocol, term]) => {
                let (output, work) = (output.slice(), work.slice());
                outcome(levtosziv::canonical_form(protocol, term, output, work))
            }
            _ => unreachable!("the files of the call"),
        };
        let guards = output.guards_hold() && work.guards_hold();
        let answer = answer(outcome.to_string(), &mut output, &mut work);
        (outcome, answer, guards)
    }

    fn reference(&self) -> Answer {
        let (mut output, mut work) = (Lent::new(self.output, 1), Lent::new(self.work, 2));
        let line = catch_unwind(AssertUnwindSafe(|| match (self.call, &self.files[..]) {
            (Call::Check, [protocol, property, graph]) => {
                engine::check(protocol, property, graph, work.slice()).to_string()
            }
            (Call::Draw, [protocol, steps]) => {
                let (output, work) = (output.slice(), work.slice());
                engine::draw(protocol, steps, output, work).to_string()
            }
            (Call::Canonical, [protocol, term]) => {
                let (output, work) = (output.slice(), work.slice());
                engine::canonical_form(protocol, term, output, work).to_string()
            }
            _ => unreachable!("the files of the call"),
        }));
        let line = line.unwrap_or("panic".to_string());
        answer(line, &mut output, &mut work)
    }

    /// The outcome, or where the two differ: in the outcome, in the lent bytes, or around them.
    pub fn agreed(&self) -> Result<Outcome, Difference> {
        let (outcome, ours, guards) = self.archive();
        let theirs = self.reference();
        if ours == theirs && guards {
            return self.accepted(outcome, &ours.output);
        }
        let reference = match (ours.line == theirs.line, guards) {
            (false, _) => theirs.line,
            (true, false) => "the same, and bytes around the lent slices untouched".to_string(),
            (true, true) => "the same, and other lent bytes".to_string(),
        };
        Err(Difference {
            archive: ours.line,
            reference,
        })
    }

    /// What is drawn must be accepted.
    fn accepted(&self, outcome: Outcome, output: &[u8]) -> Result<Outcome, Difference> {
        if let (Call::Draw, Outcome::Written(length)) = (self.call, outcome) {
            let (graph, mut work) = (&output[..length as usize], vec![0; WORK_AREA]);
            let ruling = ruled(levtosziv::check(&self.files[0], &[0], graph, &mut work));
            if let Outcome::Refused(_) = ruling {
                return Err(Difference {
                    archive: format!("{outcome}, and the graph is {ruling}"),
                    reference: "a graph that is drawn is accepted".to_string(),
                });
            }
        }
        Ok(outcome)
    }

    /// The input in document 01's words, and the lengths lent.
    pub fn shown(&self) -> String {
        let names: &[&str] = match self.call {
            Call::Check => &["protocol", "property", "graph"],
            Call::Draw => &["protocol", "steps"],
            Call::Canonical => &["protocol", "term"],
        };
        let named = names.iter().zip(&self.files);
        let files: Vec<String> = named
            .map(|(name, bytes)| format!("{name} {}", hexadecimal(bytes)))
            .collect();
        let lent = format!("work area {}, output {}", self.work, self.output);
        format!("{}\n{lent}", files.join(";\n"))
    }
}

fn of_check(case: &Case) -> Vec<Input> {
    let (property, graph) = case.property_and_nodes();
    vec![Input::check([&case.under, property, graph], WORK_AREA)]
}

fn of_graph(case: &Case) -> Vec<Input> {
    vec![Input::check([&case.under, &[0], &case.bytes], WORK_AREA)]
}

/// A step list is drawn, and is a graph without edges.
fn of_steps(case: &Case) -> Vec<Input> {
    let graph = [&case.bytes[..], &[0]].concat();
    let files = [&case.under[..], &case.bytes];
    vec![
        Input::check([&case.under, &[0], &graph], WORK_AREA),
        Input::writing(Call::Draw, files, File::Graph.limit(), WORK_AREA),
    ]
}

/// Drawn into an output that is long enough, and into the longest that is not.
fn of_draw(case: &Case) -> Vec<Input> {
    let need = case.drawn().map_or(1, |graph| graph.len());
    let files = [&case.under[..], &case.bytes];
    [need, need - 1]
        .map(|output| Input::writing(Call::Draw, files, output, WORK_AREA))
        .to_vec()
}

/// The property of the graph that is drawn of the steps, or that they are without edges.
fn of_property(case: &Case) -> Vec<Input> {
    let (property, steps) = case.property_and_nodes();
    let graph = fit_protocol(&case.under).and_then(|protocol| drawn(&protocol, steps));
    let graph = graph.unwrap_or_else(|_| [steps, &[0]].concat());
    vec![Input::check([&case.under, property, &graph], WORK_AREA)]
}

/// A term as a term file, and a number as that of a public name in one.
fn of_bytes(case: &Case) -> Vec<Input> {
    let arities = &case.under;
    let protocol = [&[arities.len() as u8], &arities[..], &[0, 0]].concat();
    let tag: &[u8] = match case.kind {
        Kind::Number => &[PUBLIC as u8],
        _ => &[],
    };
    let term = [tag, &case.bytes].concat();
    let files = [&protocol[..], &term];
    vec![Input::writing(
        Call::Canonical,
        files,
        LONGEST_TERM,
        WORK_AREA,
    )]
}

/// Written into an output that is long enough, and into the longest that is not.
fn of_term_file(case: &Case) -> Vec<Input> {
    let need = match case.canonical_form() {
        (Outcome::Written(length), _) => length as usize,
        _ => 1,
    };
    let files = [&case.under[..], &case.bytes];
    [need, need - 1]
        .map(|output| Input::writing(Call::Canonical, files, output, WORK_AREA))
        .to_vec()
}

fn answer(line: String, output: &mut Lent, work: &mut Lent) -> Answer {
    Answer {
        line,
        output: output.slice().to_vec(),
        work: work.slice().to_vec(),
    }
}
