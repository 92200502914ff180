//! What the figures before a change accept, draw or write has the same outcome and bytes after it, and what has another outcome was refused
//! as the change lets it be. Change 3: "Old files keep their rulings". Change 4: "so protocol rules keep their numbers", and six functions
//! that no file had.

use reference::calls::{Outcome, WORK_AREA};
use reference::corpus::{cases, Case, INDEX, OUTPUT_BYTE, WORK_BYTE};
use reference::generate::{canonical, graphs};
use reference::random::Random;
use std::collections::BTreeMap;
use std::path::Path;

/// A call, what it is given, and the lengths of the lent slices.
struct Input<'a> {
    /// 0 check, 1 draw, 2 canonical form
    kind: u32,
    files: Vec<&'a [u8]>,
    output: usize,
    work: usize,
}

/// The line, the output and the work area.
type Answer = (String, Vec<u8>, Vec<u8>);

/// What the calls of these modules answer.
macro_rules! answers {
    ($name:ident, $calls:path) => {
        fn $name(input: &Input) -> Answer {
            use $calls as calls;
            let mut output = vec![OUTPUT_BYTE; input.output];
            let mut work = vec![WORK_BYTE; input.work];
            let line = match (input.kind, &input.files[..]) {
                (0, [protocol, property, graph]) => {
                    calls::check(protocol, property, graph, &mut work).to_string()
                }
                (1, [protocol, steps]) => {
                    calls::draw(protocol, steps, &mut output, &mut work).to_string()
                }
                (2, [protocol, term]) => {
                    calls::canonical_form(protocol, term, &mut output, &mut work).to_string()
                }
                _ => panic!("no such call"),
            };
            (line, output, work)
        }
    };
}

answers!(before_change3, before_change3::calls);
answers!(before_change4, before_change4::calls);
answers!(in_force, reference::calls);

/// The engines before and after a change, and which lines it may move.
struct Change {
    before: fn(&Input) -> Answer,
    after: fn(&Input) -> Answer,
    may_move: fn(&str) -> bool,
}

/// A number of four groups was a layout fault, and a term file above 1,024 bytes too long.
const LONGER_NUMBERS: Change = Change {
    before: before_change3,
    after: before_change4,
    may_move: |line| line.starts_with("refused 3 ") || line == "refused 2 4",
};

/// Tags 29 to 34 were layout faults, and are so in properties still; rules 95 to 100 were none.
const SIGNATURES: Change = Change {
    before: before_change4,
    after: in_force,
    may_move: |line| match line.starts_with("refused 3 ") {
        true => line != "refused 3 2",
        false => line.starts_with("refused 6 "),
    },
};

impl Change {
    /// The two lines, where the ruling is kept.
    fn kept(&self, input: &Input) -> (String, String) {
        let (before, after) = ((self.before)(input), (self.after)(input));
        assert!(
            before == after || (self.may_move)(&before.0),
            "{} is {}: {:02X?}",
            before.0,
            after.0,
            input.files
        );
        (before.0, after.0)
    }
}

fn of_case<'a>(case: &Case) -> Input<'a> {
    Input {
        kind: case.kind,
        files: case.files.clone(),
        output: case.output,
        work: case.work,
    }
}

/// How many cases the corpus had before Change 3, and before Change 4; those of a change stand behind them.
const BEFORE_CHANGE_3: usize = 631;
const BEFORE_CHANGE_4: usize = 767;

/// Every case from before Change 3 has the outcome that its line of the index says it had: `three` where Change 3 moved it, and its own
/// elsewhere. Only refusals moved.
#[test]
fn the_corpus_before_longer_numbers() {
    let (mut rulings, mut moved) = (0, 0);
    for (case, label) in cases()[..BEFORE_CHANGE_3].iter().zip(INDEX.lines()) {
        let (before, after) = LONGER_NUMBERS.kept(&of_case(case));
        assert_eq!(after, case.outcome.to_string(), "{label}");
        let three = label.split_once("\"three\": \"").map(|(_, rest)| rest);
        let three = three.and_then(|rest| rest.split('"').next());
        assert_eq!(before, three.unwrap_or(&after), "{label}");
        rulings += usize::from(!matches!(case.outcome, Outcome::Refused(_)) && three.is_none());
        moved += usize::from(three.is_some());
    }
    assert_eq!((rulings, moved), (185, 6));
}

/// No case from before Change 4 moved; of its own cases those moved that have one of the six functions or of their rules.
#[test]
fn the_corpus_before_signatures() {
    let cases = cases();
    let lines = |case| SIGNATURES.kept(&of_case(case));
    for (case, label) in cases[..BEFORE_CHANGE_4].iter().zip(INDEX.lines()) {
        let line = case.outcome.to_string();
        assert_eq!(lines(case), (line.clone(), line), "{label}");
    }
    let own = cases[BEFORE_CHANGE_4..].iter().map(lines);
    let moved = own.filter(|(before, after)| before != after).count();
    assert_eq!((cases.len() - BEFORE_CHANGE_4, moved), (149, 113));
}

/// Which outcomes a change moved, and where to.
struct Moves {
    change: Change,
    inputs: usize,
    rulings: usize,
    counts: BTreeMap<String, usize>,
}

impl Moves {
    fn by(change: Change) -> Moves {
        Moves {
            change,
            inputs: 0,
            rulings: 0,
            counts: BTreeMap::new(),
        }
    }

    fn add(&mut self, input: &Input) {
        let (before, after) = self.change.kept(input);
        self.inputs += 1;
        self.rulings += usize::from(!before.starts_with("refused"));
        if before != after {
            let number = |line: &str| line.split(' ').take(2).collect::<Vec<_>>().join(" ");
            let word = |line: &str| match line.starts_with("refused") {
                true => number(line),
                false => line.split(' ').next().unwrap_or("").to_string(),
            };
            let kind = format!("{} to {}", word(&before), word(&after));
            *self.counts.entry(kind).or_default() += 1;
        }
    }

    /// At least a tenth of the inputs were accepted, drawn or written, and each of these moves was made by one of 500 inputs.
    fn often_enough(&self, moves: &[&str]) {
        println!("{} of {}: {:#?}", self.rulings, self.inputs, self.counts);
        assert!(10 * self.rulings >= self.inputs);
        for kind in moves {
            let count = self.counts.get(*kind).copied().unwrap_or(0);
            assert!(500 * count >= self.inputs, "{kind}: {count}");
        }
    }
}

#[test]
fn random_checks() {
    let mut random = Random::new(31);
    let mut numbers = Moves::by(LONGER_NUMBERS);
    let mut signatures = Moves::by(SIGNATURES);
    for number in 0..6_000 {
        let input = match number % 3 {
            0 => graphs::check_input(&mut random),
            1 => graphs::session_input(&mut random),
            _ => graphs::crowded_input(&mut random),
        };
        let input = Input {
            kind: 0,
            files: vec![&input.protocol, &input.property, &input.graph],
            output: 0,
            work: input.work,
        };
        numbers.add(&input);
        signatures.add(&input);
    }
    numbers.often_enough(&[
        "refused 3 to attack",
        "refused 3 to run",
        "refused 3 to refused 5",
        "refused 3 to refused 6",
        "refused 3 to refused 7",
        "refused 3 to refused 10",
    ]);
    signatures.often_enough(&[
        "refused 3 to attack",
        "refused 3 to run",
        "refused 3 to refused 5",
        "refused 3 to refused 7",
        "refused 3 to refused 10",
        "refused 6 to attack",
        "refused 6 to run",
        "refused 6 to refused 7",
        "refused 6 to refused 10",
    ]);
}

#[test]
fn random_draws() {
    let mut random = Random::new(32);
    let mut numbers = Moves::by(LONGER_NUMBERS);
    let mut signatures = Moves::by(SIGNATURES);
    for number in 0..6_000 {
        let input = match number % 3 {
            0 => graphs::draw_input(&mut random),
            1 => graphs::session_steps(&mut random),
            _ => graphs::crowded_steps(&mut random),
        };
        let input = Input {
            kind: 1,
            files: vec![&input.protocol, &input.steps],
            output: input.output,
            work: input.work,
        };
        numbers.add(&input);
        signatures.add(&input);
    }
    numbers.often_enough(&[
        "refused 3 to written",
        "refused 3 to refused 6",
        "refused 3 to refused 7",
        "refused 3 to refused 9",
        "refused 3 to refused 14",
    ]);
    signatures.often_enough(&[
        "refused 3 to written",
        "refused 3 to refused 7",
        "refused 3 to refused 14",
        "refused 6 to written",
        "refused 6 to refused 7",
        "refused 6 to refused 14",
    ]);
}

#[test]
fn random_terms() {
    let mut random = Random::new(33);
    let mut numbers = Moves::by(LONGER_NUMBERS);
    let mut signatures = Moves::by(SIGNATURES);
    for _ in 0..20_000 {
        let input = canonical::input(&mut random);
        let input = Input {
            kind: 2,
            files: vec![&input.protocol, &input.term],
            output: input.output,
            work: input.work,
        };
        numbers.add(&input);
        signatures.add(&input);
    }
    numbers.often_enough(&[
        "refused 3 to written",
        "refused 3 to refused 8",
        "refused 2 to refused 3",
        "refused 2 to refused 8",
    ]);
    signatures.often_enough(&[
        "refused 3 to written",
        "refused 3 to refused 4",
        "refused 3 to refused 8",
        "refused 3 to refused 15",
    ]);
}

/// The real protocols' files: none has a number of four groups, and those with one of the six functions were refused.
#[test]
fn real_protocols() {
    let real = Path::new(env!("CARGO_MANIFEST_DIR")).join("../../tests/corpus/real");
    let (mut rulings, mut moved) = (0, 0);
    for entry in std::fs::read_dir(real).unwrap() {
        let folder = entry.unwrap().path();
        if !folder.is_dir() {
            continue;
        }
        let file = |name: &str| std::fs::read(folder.join(name)).unwrap_or_default();
        let files = ["protocol.bin", "property.bin", "graph.bin"].map(file);
        let input = Input {
            kind: 0,
            files: files.iter().map(Vec::as_slice).collect(),
            output: 0,
            work: WORK_AREA,
        };
        let (before, after) = LONGER_NUMBERS.kept(&input);
        assert_eq!(before, after);
        rulings += usize::from(!before.starts_with("refused"));
        let (before, after) = SIGNATURES.kept(&input);
        moved += usize::from(before != after);
    }
    assert_eq!((rulings, moved), (29, 18));
}
