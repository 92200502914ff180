//! Canonical forms against the documents' own words: the paragraph "Canonical form", figure 2, and Change 4's two equations.

use reference::canonical::canonical_form;
use reference::generate::terms::shares;
use reference::notation::show;
use reference::random::Random;
use reference::term::*;

/// A term over few names and all functions, with about `size` symbols.
fn term(random: &mut Random, size: usize) -> Term {
    if size <= 1 {
        return match random.below(9) {
            0 => Term::one(),
            8 => Term::apply(TRUE, []),
            1 => Term::Public(Public(random.below(2) as u32)),
            2 => Term::Fresh(Fresh(*random.choose(&[127, 128, 129, 256]))),
            _ => Term::Fresh(Fresh(random.below(3) as u32)),
        };
    }
    let products = [MUL, MUL, INV, EXP];
    let tag = if random.percent(60) {
        *random.choose(&products)
    } else {
        *random.choose(&OTHERS)
    };
    let arity = signature().arity(tag).unwrap();
    let sizes = shares(random, size.max(arity), arity);
    Term::apply(tag, sizes.into_iter().map(|size| term(random, size)))
}

/// The functions of one argument or more, mul, inv and exp apart.
const OTHERS: [u32; 13] = [
    ENC,
    DEC,
    H,
    PAIR,
    FST,
    SND,
    FREE,
    FREE + 1,
    AENC,
    ADEC,
    PK,
    SIGN,
    VERIFY,
];

fn signature() -> Signature {
    Signature { free: vec![1, 2] }
}

fn call(tag: u32, arguments: &[&Term]) -> Term {
    Term::apply(tag, arguments.iter().map(|part| (*part).clone()))
}

/// The two sides of equation `number` at the terms x, y and z: 1 to 10 are those of figure 2.
fn equation(number: usize, x: &Term, y: &Term, z: &Term) -> (Term, Term) {
    let one = Term::one();
    match number {
        1 => (call(DEC, &[&call(ENC, &[x, y]), y]), x.clone()),
        2 => (call(FST, &[&call(PAIR, &[x, y])]), x.clone()),
        3 => (call(SND, &[&call(PAIR, &[x, y])]), y.clone()),
        4 => (
            call(MUL, &[x, &call(MUL, &[y, z])]),
            call(MUL, &[&call(MUL, &[x, y]), z]),
        ),
        5 => (call(MUL, &[x, y]), call(MUL, &[y, x])),
        6 => (call(MUL, &[x, &one]), x.clone()),
        7 => (call(MUL, &[x, &call(INV, &[x])]), one),
        8 => (call(INV, &[&call(INV, &[x])]), x.clone()),
        9 => (
            call(EXP, &[&call(EXP, &[x, y]), z]),
            call(EXP, &[x, &call(MUL, &[y, z])]),
        ),
        10 => (call(EXP, &[x, &one]), x.clone()),
        11 => (
            call(ADEC, &[&call(AENC, &[x, &call(PK, &[y])]), y]),
            x.clone(),
        ),
        _ => (
            call(VERIFY, &[&call(SIGN, &[x, y]), x, &call(PK, &[y])]),
            call(TRUE, &[]),
        ),
    }
}

/// A term around each of the two sides, the same around both.
fn context(random: &mut Random, sides: (Term, Term)) -> (Term, Term) {
    let tag = *random.choose(&[&OTHERS[..], &[EXP, INV, MUL]].concat());
    let arity = signature().arity(tag).unwrap();
    let others: Vec<Term> = (1..arity).map(|_| term(random, 4)).collect();
    let place = random.below(arity);
    let around = |side: Term| {
        let mut arguments = others.clone();
        arguments.insert(place, side);
        Term::Apply(tag, arguments)
    };
    (around(sides.0), around(sides.1))
}

#[test]
fn both_sides_of_every_equation_have_one_canonical_form() {
    let mut random = Random::new(1);
    for round in 0..48_000 {
        let [x, y, z] = [(); 3].map(|()| {
            let size = 1 + random.below(7);
            term(&mut random, size)
        });
        let mut sides = equation(1 + round % 12, &x, &y, &z);
        for _ in 0..random.below(4) {
            sides = context(&mut random, sides);
        }
        let (left, right) = (canonical_form(&sides.0), canonical_form(&sides.1));
        assert_eq!(left, right, "{} and {}", show(&sides.0), show(&sides.1));
    }
}

/// "Canonical form: no dec, fst or snd equation applies; …" and "In a canonical term neither new equation applies", at every place of the
/// term.
fn is_canonical(term: &Term) -> bool {
    let here = match term {
        Term::Apply(DEC, parts) => !(parts[0].has_tag(ENC) && parts[0].arguments()[1] == parts[1]),
        Term::Apply(FST | SND, parts) => !parts[0].has_tag(PAIR),
        Term::Apply(ADEC, parts) => {
            let (cipher, key) = (&parts[0], &parts[1]);
            !(cipher.has_tag(AENC) && cipher.arguments()[1] == call(PK, &[key]))
        }
        Term::Apply(VERIFY, parts) => {
            let [signature, message, key] = &parts[..] else {
                panic!("verify of three arguments");
            };
            let signed = |key: &Term| call(SIGN, &[message, key]);
            !(key.has_tag(PK) && *signature == signed(&key.arguments()[0]))
        }
        Term::Apply(EXP, parts) => !parts[0].has_tag(EXP) && !parts[1].has_tag(ONE),
        Term::Apply(MUL | INV, _) => return is_product(term),
        _ => true,
    };
    here && term.arguments().iter().all(is_canonical)
}

/// P, inv(N) or mul(P, inv(N)), with no factor in both P and N.
fn is_product(term: &Term) -> bool {
    let (positive, negative) = match term {
        Term::Apply(INV, parts) => (Vec::new(), chain(&parts[0])),
        Term::Apply(MUL, parts) if parts[1].has_tag(INV) => {
            (chain(&parts[0]), chain(&parts[1].arguments()[0]))
        }
        _ => (chain(term), Vec::new()),
    };
    let ascends = |factors: &[&Term]| {
        let pairs = factors.windows(2);
        pairs
            .into_iter()
            .all(|pair| pair[0].encoded() <= pair[1].encoded())
    };
    let no_product = |factor: &&Term| !matches!(factor, Term::Apply(MUL | INV | ONE, _));
    let factors = || positive.iter().chain(&negative).copied();
    ascends(&positive)
        && ascends(&negative)
        && !positive.iter().any(|factor| negative.contains(factor))
        && factors().all(|factor| no_product(&factor) && is_canonical(factor))
}

/// The factors of mul(first, rest).
fn chain(term: &Term) -> Vec<&Term> {
    match term {
        Term::Apply(MUL, parts) => {
            let mut factors = vec![&parts[0]];
            factors.extend(chain(&parts[1]));
            factors
        }
        other => vec![other],
    }
}

#[test]
fn a_canonical_form_is_canonical_and_no_larger() {
    let mut random = Random::new(2);
    let mut unchanged = 0;
    for _ in 0..40_000 {
        let size = 1 + random.below(24);
        let term = term(&mut random, size);
        let form = canonical_form(&term);
        assert!(is_canonical(&form), "{}", show(&term));
        assert_eq!(is_canonical(&term), form == term, "{}", show(&term));
        assert!(form.symbols() <= term.symbols());
        assert!(form.encoded().len() <= term.encoded().len());
        unchanged += usize::from(form == term);
    }
    assert!((5_000..30_000).contains(&unchanged), "{unchanged}");
}
