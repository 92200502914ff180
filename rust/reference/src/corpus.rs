//! The cases of tests/corpus: inputs with their expected outcomes.

use crate::calls::{Counts, Outcome};
use crate::refusal::Refusal;

const CASES: &[u8] = include_bytes!("../../../tests/corpus/cases.bin");
/// A line for each case: what was damaged, and the outcome in words.
pub const INDEX: &str = include_str!("../../../tests/corpus/index.jsonl");

/// The numbers and byte strings of cases.bin, one after another.
struct Input(&'static [u8]);

impl Input {
    fn bytes(&mut self, length: usize) -> &'static [u8] {
        let (first, rest) = self.0.split_at(length);
        self.0 = rest;
        first
    }

    /// 32 bits, low byte first.
    fn number(&mut self) -> u32 {
        u32::from_le_bytes(self.bytes(4).try_into().unwrap())
    }

    fn counted_bytes(&mut self) -> &'static [u8] {
        let length = self.number() as usize;
        self.bytes(length)
    }
}

/// A call with its lent lengths, its files, and what it must answer.
pub struct Case {
    /// 0 check, 1 draw, 2 canonical form
    pub kind: u32,
    pub work: usize,
    pub output: usize,
    pub files: Vec<&'static [u8]>,
    pub outcome: Outcome,
    pub written: &'static [u8],
}

fn read_case(input: &mut Input) -> Case {
    let kind = input.number();
    let work = input.number() as usize;
    let output = input.number() as usize;
    let count = input.number();
    let files = (0..count).map(|_| input.counted_bytes()).collect();
    let outcome = read_outcome(input);
    let written = input.counted_bytes();
    Case {
        kind,
        work,
        output,
        files,
        outcome,
        written,
    }
}

fn read_outcome(input: &mut Input) -> Outcome {
    let [which, a, b, c] = [(); 4].map(|()| input.number());
    let counts = Counts {
        nodes: a,
        with_action: b,
        edges: c,
    };
    match which {
        0 => Outcome::Refused(Refusal { number: a, item: b }),
        1 => Outcome::Attack(counts),
        2 => Outcome::Run(counts),
        3 => Outcome::Written(a),
        _ => panic!("no such outcome"),
    }
}

pub fn cases() -> Vec<Case> {
    let mut input = Input(CASES);
    assert_eq!(input.bytes(4), b"H5C1");
    let count = input.number();
    let cases = (0..count).map(|_| read_case(&mut input)).collect();
    assert!(input.0.is_empty());
    cases
}

/// What the output and the work area hold before a call.
pub const OUTPUT_BYTE: u8 = 0xA5;
pub const WORK_BYTE: u8 = 0x5A;

/// The lent bytes as the refusal table leaves them.
pub fn expected_memory(case: &Case) -> (Vec<u8>, Vec<u8>) {
    let mut output = vec![OUTPUT_BYTE; case.output];
    output[..case.written.len()].copy_from_slice(case.written);
    let untouched = matches!(case.outcome, Outcome::Refused(Refusal { number: 1, .. }));
    let work = vec![if untouched { WORK_BYTE } else { 0 }; case.work];
    (output, work)
}
