//! The cases by hand through the archive: the outcome of each is its label's (reference/tests/cases.rs), and the archive has it too, with every
//! lent byte.

use differential::input::{Call, Input};

#[test]
fn the_cases_by_hand() {
    let mut run = [0; 3];
    for input in Input::by_hand() {
        if let Err(difference) = input.agreed() {
            panic!(
                "archive: {}\nreference: {}\n{}",
                difference.archive,
                difference.reference,
                input.shown()
            );
        }
        run[input.call as usize] += 1;
    }
    let [checks, draws, forms] =
        [Call::Check, Call::Draw, Call::Canonical].map(|call| run[call as usize]);
    println!("by hand: {checks} checks, {draws} draws, {forms} canonical forms");
    assert!(checks > 1_700 && draws > 750 && forms > 500);
}
