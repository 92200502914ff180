//! Canonical form beside the reference, over random inputs from a fixed seed, mostly good ones, some damaged.

use differential::{canonical_form_agrees, side_by_side, Shares};
use reference::generate::canonical;
use reference::random::Random;
use reference::term::{EXP, INV, MUL};

/// Inputs of one half; the halves run side by side.
const INPUTS: usize = 100_000;

/// The shares, and how many terms hold a product, an inverse or a power.
fn half(seed: u64) -> (Shares, usize) {
    let mut random = Random::new(seed);
    let mut shares = Shares::default();
    let mut products = 0;
    for number in 0..INPUTS {
        let input = canonical::input(&mut random);
        let product = |byte: &u8| [EXP, INV, MUL].contains(&u32::from(*byte));
        products += usize::from(input.term.iter().any(product));
        shares.add(canonical_form_agrees(
            &input.protocol,
            &input.term,
            input.output,
            input.work,
            number as u64,
        ));
    }
    (shares, products)
}

#[test]
fn canonical_form_beside_the_reference() {
    let [(mut shares, products), (other, also_products)] = side_by_side([11, 10], half);
    shares.merge(other);
    let products = products + also_products;
    shares.print("canonical form");
    println!("with products        {products:8}");
    shares.at_least(2_500, &["written"]);
    let refusals = [
        "refused 1",
        "refused 2 file 1",
        "refused 2 file 4",
        "refused 3 file 1",
        "refused 3 file 4",
        "refused 4",
        "refused 8",
        "refused 15",
    ];
    shares.at_least(50, &refusals);
    assert!(products >= INPUTS);
}
