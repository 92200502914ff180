//! What the calls cost: the time of the archive, of the reference, both built for release and measured in one run, and their ratio.
//!
//! `bench [WORDS]` prints the rows whose name has these words, or all. `bench --once WORDS` makes the archive's calls of these rows, once each,
//! for callgrind.

use differential::sized::{
    actions, chain, deductions, nested, nothing, term, Files, CHAINS, GUARDS, TERMS,
};
use levtosziv::{Refusal, Ruling};
use reference::calls::{Outcome, WORK_AREA};
use reference::corpus::cases;
use reference::generate::canonical::LONGEST_TERM;
use reference::refusal::File;
use std::cell::RefCell;
use std::hint::black_box;
use std::path::Path;
use std::time::{Duration, Instant};

/// How long each side of a row is measured.
const BUDGET: Duration = Duration::from_millis(400);

/// Microseconds of one run, the least of as many as the budget allows, and of so many at least.
fn least(rounds: usize, mut run: impl FnMut()) -> f64 {
    let begin = Instant::now();
    let mut least = f64::INFINITY;
    for round in 0.. {
        if round >= rounds && begin.elapsed() > BUDGET {
            break;
        }
        let start = Instant::now();
        run();
        least = least.min(start.elapsed().as_secs_f64() * 1e6);
    }
    least
}

/// Which rows are wanted, and whether they are only to be run.
struct Bench {
    words: String,
    once: bool,
    /// The header of the rows to come.
    header: RefCell<String>,
}

impl Bench {
    fn header(&self, what: &str) {
        let columns = "archive, µs | reference, µs | ratio";
        self.header
            .replace(format!("\n| {what} | {columns} |\n|---|---|---|---|\n"));
    }

    fn wants(&self, name: &str) -> bool {
        name.contains(&self.words)
    }

    /// Prints a row, its name and what is said of it; the archive's time.
    fn row(
        &self,
        name: &str,
        said: &str,
        mut archive: impl FnMut(),
        reference: impl FnMut(),
    ) -> Option<f64> {
        if !self.wants(name) {
            return None;
        }
        if self.once {
            archive();
            return None;
        }
        let (ours, theirs) = (least(3, archive), least(1, reference));
        println!(
            "{}| {name}{said} | {ours:.1} | {theirs:.1} | {:.3} |",
            self.header.take(),
            ours / theirs
        );
        Some(ours)
    }

    /// A row of an accepted graph.
    fn check(&self, name: &str, files: &Files) -> Option<f64> {
        if !self.wants(name) {
            return None;
        }
        let [mut work, mut their_work] = [(); 2].map(|()| vec![0; WORK_AREA]);
        let said = match check(files, &mut work) {
            Ok(Ruling::Attack(counts) | Ruling::Run(counts)) => counts,
            Err(refusal) => panic!("{name}: {refusal}"),
        };
        if self.once {
            return None;
        }
        let said = format!(" ({} edges, {} bytes)", said.edges, files.graph.len());
        self.row(
            name,
            &said,
            || {
                let _ = black_box(check(files, &mut work));
            },
            || {
                black_box(check_by_reference(files, &mut their_work));
            },
        )
    }

    fn checks(&self) {
        self.header("check");
        self.check("no nodes", &nothing());
        self.check("the printed case", &folder("examples/printed-case"));
        let names = [
            "naxos-honest",
            "naxos-no-pfs-attack",
            "naxos-own-keys-revealed-eck",
            "dh-man-in-the-middle",
        ];
        for name in names {
            self.check(name, &folder(&format!("tests/corpus/real/{name}")));
        }
        let all = accepted();
        let (mut work, mut their_work) = (vec![0; WORK_AREA], vec![0; WORK_AREA]);
        self.row(
            "the accepted graphs of the corpus",
            &format!(", {} of them together", all.len()),
            || {
                for files in &all {
                    let _ = black_box(check(files, &mut work));
                }
            },
            || {
                for files in &all {
                    black_box(check_by_reference(files, &mut their_work));
                }
            },
        );
    }

    /// A row of a step list that is a run.
    fn draw(&self, name: &str, files: &Files) -> Option<f64> {
        if !self.wants(name) {
            return None;
        }
        let [mut work, mut their_work] = [(); 2].map(|()| vec![0; WORK_AREA]);
        let [mut output, mut their_output] = [(); 2].map(|()| vec![0; File::Graph.limit()]);
        let drawn = draw(files, &mut output, &mut work);
        let length = drawn.unwrap_or_else(|refusal| panic!("{name}: {refusal}"));
        if self.once {
            return None;
        }
        self.row(
            name,
            &format!(" ({} bytes to {length})", files.steps.len()),
            || {
                let _ = black_box(draw(files, &mut output, &mut work));
            },
            || {
                let call = reference::calls::draw;
                let (output, work) = (&mut their_output, &mut their_work);
                black_box(call(&files.protocol, &files.steps, output, work));
            },
        )
    }

    /// The same kind of steps at three sizes; with values, the largest fill the file at 448 nodes.
    fn drawing(&self, what: &str, make: impl Fn(usize) -> Files) {
        let sizes = match make(512).steps.len() <= File::Steps.limit() {
            true => [128, 256, 512],
            false => [112, 224, 448],
        };
        let times =
            sizes.map(|nodes| self.draw(&format!("draw {what}, {nodes} nodes"), &make(nodes)));
        if let [Some(first), Some(second), Some(third)] = times {
            let [second, third] = [second / first, third / second];
            println!("| draw {what}: twice the nodes {second:.2}, again {third:.2} | | | |");
        }
    }

    /// The same kind of graph at 128, 256 and 512 nodes.
    fn growth(&self, what: &str, make: impl Fn(usize) -> Files) {
        let times = [128, 256, 512]
            .map(|nodes| self.check(&format!("{what}, {nodes} nodes"), &make(nodes)));
        if let [Some(first), Some(second), Some(third)] = times {
            let [second, third] = [second / first, third / second];
            println!("| {what}: 256 to 128 nodes {second:.2}, 512 to 256 {third:.2} | | | |");
        }
    }

    fn canonical_forms(&self) {
        self.header("canonical form");
        let protocol = [0, 0, 0];
        let [mut output, mut their_output] = [(); 2].map(|()| vec![0; LONGEST_TERM]);
        let [mut work, mut their_work] = [(); 2].map(|()| vec![0; WORK_AREA]);
        for shape in TERMS {
            for names in [16, 32, 64, 128] {
                let term = term(shape, names);
                let (output, work) = (&mut output, &mut work);
                let (their_output, their_work) = (&mut their_output, &mut their_work);
                self.row(
                    &format!("{shape}, {names} names"),
                    "",
                    || {
                        let call = levtosziv::canonical_form;
                        let _ = black_box(call(&protocol, &term, output, work));
                    },
                    || {
                        let call = reference::calls::canonical_form;
                        black_box(call(&protocol, &term, their_output, their_work));
                    },
                );
            }
        }
    }

    /// The time of one guard comparison: what a further level costs, by the comparisons that it adds.
    fn judge(&self) {
        self.header("judge");
        let actions = 100;
        for guard in GUARDS {
            let times = [2, 3].map(|levels| {
                let what = format!("{levels} quantifiers, the innermost guard {guard}");
                self.check(&what, &nested(guard, actions, levels))
            });
            if let [Some(two), Some(three)] = times {
                let each = (three - two) * 1e3 / actions.pow(3) as f64;
                println!("| a comparison of a guard that {guard}: {each:.1} ns | | | |");
            }
        }
    }
}

fn check(files: &Files, work: &mut [u8]) -> Result<Ruling, Refusal> {
    levtosziv::check(&files.protocol, &files.property, &files.graph, work)
}

fn draw(files: &Files, output: &mut [u8], work: &mut [u8]) -> Result<usize, Refusal> {
    levtosziv::draw(&files.protocol, &files.steps, output, work)
}

fn check_by_reference(files: &Files, work: &mut [u8]) -> Outcome {
    reference::calls::check(&files.protocol, &files.property, &files.graph, work)
}

/// The accepted graphs of the corpus, all of them.
fn accepted() -> Vec<Files> {
    let accepted = |case: &reference::corpus::Case| !matches!(case.outcome, Outcome::Refused(_));
    let checks = cases()
        .into_iter()
        .filter(|case| case.kind == 0 && accepted(case));
    let files = checks.map(|case| Files {
        protocol: case.files[0].to_vec(),
        property: case.files[1].to_vec(),
        graph: case.files[2].to_vec(),
        steps: vec![],
    });
    files.collect()
}

/// A folder with the three files.
fn folder(name: &str) -> Files {
    let root = Path::new(env!("CARGO_MANIFEST_DIR")).join("../..");
    let file = |file: &str| std::fs::read(root.join(name).join(file)).expect("a file of the tree");
    Files {
        protocol: file("protocol.bin"),
        property: file("property.bin"),
        graph: file("graph.bin"),
        steps: vec![],
    }
}

fn main() {
    let words: Vec<String> = std::env::args().skip(1).collect();
    let once = words.first().is_some_and(|word| word == "--once");
    let bench = Bench {
        words: words[usize::from(once)..].join(" "),
        once,
        header: RefCell::default(),
    };
    bench.checks();
    bench.header("check, growth");
    for kind in CHAINS {
        bench.growth(kind, |nodes| chain(kind, nodes));
    }
    bench.growth("deductions", deductions);
    bench.check("64 messages in actions each, 32 nodes", &actions(32));
    bench.growth("64 messages in actions each", actions);
    bench.header("draw");
    bench.draw("draw no nodes", &nothing());
    for kind in CHAINS {
        bench.drawing(kind, |nodes| chain(kind, nodes));
    }
    bench.drawing("deductions", deductions);
    bench.canonical_forms();
    bench.judge();
}
