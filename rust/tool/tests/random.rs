//! Random inputs of the fuzzer: text and back gives the same bytes, a refusal has a diagnosis, the tool's reading agrees with the ruling.

mod common;

use common::*;
use reference::calls::WORK_AREA;
use reference::generate::graphs::{check_input, draw_input, session_input, CheckInput};
use reference::random::Random;
use tool::answer::answer;
use tool::witness::Reading;

const CASES: usize = 600;

fn held(input: &CheckInput, folder: &std::path::Path) -> bool {
    put(
        folder,
        &[
            ("protocol.bin", &input.protocol),
            ("property.bin", &input.property),
            ("graph.bin", &input.graph),
        ],
    );
    let case = case_of(folder);
    let back = through_text(&case);
    if let Some([protocol, property, graph]) = &back {
        assert_eq!(*protocol, case.protocol_bytes);
        assert_eq!(*property, case.property_bytes);
        assert_eq!(*graph, case.graph_bytes);
    }
    let answer = answer(&case);
    assert_ne!(answer.reading, Reading::Differs);
    match answer.ruling {
        Err(refusal) => {
            let reasons = &answer.diagnosis.as_ref().unwrap().reasons;
            assert!(!reasons.is_empty(), "refused {refusal:?}");
            match refusal.number {
                3 | 6 => assert!(back.is_none()),
                7.. => assert!(back.is_some()),
                _ => {}
            }
        }
        _ => assert!(back.is_some()),
    }
    back.is_some()
}

#[test]
fn checked() {
    let folder = folder("random-checked");
    let mut random = Random::new(31);
    let mut laid_out = 0;
    for i in 0..CASES {
        let input = match i % 2 {
            0 => check_input(&mut random),
            _ => session_input(&mut random),
        };
        if input.work >= WORK_AREA {
            laid_out += usize::from(held(&input, &folder));
        }
    }
    assert!(laid_out > CASES / 2, "{laid_out}");
}

#[test]
fn drawn() {
    let folder = folder("random-drawn");
    let mut random = Random::new(32);
    for _ in 0..CASES {
        let input = draw_input(&mut random);
        put(
            &folder,
            &[
                ("protocol.bin", &input.protocol),
                ("property.bin", &input.property),
                ("steps.bin", &input.steps),
            ],
        );
        let case = case_of(&folder);
        let answer = answer(&case);
        assert_ne!(answer.reading, Reading::Differs);
        if let Err(refusal) = answer.ruling {
            let reasons = &answer.diagnosis.as_ref().unwrap().reasons;
            assert!(!reasons.is_empty(), "refused {refusal:?}");
        }
    }
}
