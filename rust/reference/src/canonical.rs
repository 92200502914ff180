//! "Message equality is from then on the congruence of all twelve equations", decided by canonical forms.

use crate::term::*;
use std::collections::BTreeMap;

/// The canonical form of a term without variables.
pub fn canonical_form(term: &Term) -> Term {
    match term {
        Term::Apply(tag, arguments) => {
            let arguments: Vec<Term> = arguments.iter().map(canonical_form).collect();
            apply(*tag, arguments)
        }
        leaf => leaf.clone(),
    }
}

/// A function applied to canonical arguments.
fn apply(tag: u32, arguments: Vec<Term>) -> Term {
    match (tag, &arguments[..]) {
        (DEC, [cipher, key]) => decrypt(cipher, key).unwrap_or(Term::Apply(tag, arguments)),
        (FST, [pair]) => project(pair, 0).unwrap_or(Term::Apply(tag, arguments)),
        (SND, [pair]) => project(pair, 1).unwrap_or(Term::Apply(tag, arguments)),
        (ADEC, [cipher, key]) => {
            decrypt_by_private_key(cipher, key).unwrap_or(Term::Apply(tag, arguments))
        }
        (VERIFY, [signature, message, key]) => {
            verify(signature, message, key).unwrap_or(Term::Apply(tag, arguments))
        }
        (EXP, [base, exponent]) => power(base, exponent),
        (INV, [factor]) => Product::of([(factor, -1)]).term(),
        (MUL, [left, right]) => Product::of([(left, 1), (right, 1)]).term(),
        _ => Term::Apply(tag, arguments),
    }
}

/// "dec(enc(m,k),k)=m"
fn decrypt(cipher: &Term, key: &Term) -> Option<Term> {
    match cipher {
        Term::Apply(ENC, parts) if parts[1] == *key => Some(parts[0].clone()),
        _ => None,
    }
}

/// "fst and snd project pairs"
fn project(pair: &Term, part: usize) -> Option<Term> {
    match pair {
        Term::Apply(PAIR, parts) => Some(parts[part].clone()),
        _ => None,
    }
}

/// "adec(aenc(m,pk(k)),k)=m"
fn decrypt_by_private_key(cipher: &Term, key: &Term) -> Option<Term> {
    match cipher {
        Term::Apply(AENC, parts) if parts[1] == public_key(key) => Some(parts[0].clone()),
        _ => None,
    }
}

/// "verify(sign(m,k),m,pk(k))=true"
fn verify(signature: &Term, message: &Term, key: &Term) -> Option<Term> {
    match signature {
        Term::Apply(SIGN, parts) if parts[0] == *message && public_key(&parts[1]) == *key => {
            Some(Term::apply(TRUE, []))
        }
        _ => None,
    }
}

/// pk(k), canonical where k is.
fn public_key(key: &Term) -> Term {
    Term::apply(PK, [key.clone()])
}

/// "exp(exp(y,z),w)=exp(y,mul(z,w)); exp(y,one)=y"
fn power(base: &Term, exponent: &Term) -> Term {
    let (base, exponent) = match base {
        Term::Apply(EXP, parts) => (
            &parts[0],
            Product::of([(&parts[1], 1), (exponent, 1)]).term(),
        ),
        _ => (base, exponent.clone()),
    };
    if exponent.has_tag(ONE) {
        base.clone()
    } else {
        Term::apply(EXP, [base.clone(), exponent])
    }
}

/// "In a product each factor carries a whole-number exponent, positive or negative": the multiplicity
/// of each factor, in the order of the factors' encoded bytes. A multiplicity of zero may stand here;
/// it drops out when the term is made.
#[derive(Default)]
struct Product<'a> {
    factors: BTreeMap<Vec<u8>, (&'a Term, i64)>,
}

impl<'a> Product<'a> {
    fn of(terms: impl IntoIterator<Item = (&'a Term, i64)>) -> Product<'a> {
        let mut product = Product::default();
        for (term, multiplicity) in terms {
            product.add(term, multiplicity);
        }
        product
    }

    /// Adds a canonical term so many times. "A factor is no mul, inv or one."
    fn add(&mut self, term: &'a Term, multiplicity: i64) {
        match term {
            Term::Apply(ONE, _) => {}
            Term::Apply(INV, parts) => self.add(&parts[0], -multiplicity),
            Term::Apply(MUL, parts) => {
                self.add(&parts[0], multiplicity);
                self.add(&parts[1], multiplicity);
            }
            factor => {
                let entry = self.factors.entry(factor.encoded());
                entry.or_insert((factor, 0)).1 += multiplicity;
            }
        }
    }

    /// "The result is P, inv(N), mul(P, inv(N)), or one if both are empty."
    fn term(&self) -> Term {
        let inverted = self.chain(-1).map(|chain| Term::apply(INV, [chain]));
        match (self.chain(1), inverted) {
            (None, None) => Term::one(),
            (Some(positive), None) => positive,
            (None, Some(negative)) => negative,
            (Some(positive), Some(negative)) => Term::apply(MUL, [positive, negative]),
        }
    }

    /// "Positive factors, each repeated, ascend by their encoded bytes … and form P = mul(first,
    /// rest); negative ones form N likewise."
    fn chain(&self, sign: i64) -> Option<Term> {
        let repeated = self.factors.values().flat_map(|(factor, multiplicity)| {
            let times = (sign * multiplicity).max(0) as usize;
            std::iter::repeat_n(*factor, times)
        });
        let factors: Vec<Term> = repeated.cloned().collect();
        let from_the_last = factors.into_iter().rev();
        from_the_last.reduce(|rest, first| Term::apply(MUL, [first, rest]))
    }
}

/// Two messages count as equal when their canonical forms are the same term.
pub fn equal(left: &Term, right: &Term) -> bool {
    canonical_form(left) == canonical_form(right)
}

#[cfg(test)]
mod tests {
    use super::*;
    use crate::notation::{parse, show};

    fn form(term: &str) -> String {
        show(&canonical_form(&parse(term)))
    }

    #[test]
    fn cases_of_document_01() {
        assert_eq!(form("exp(exp(exp(p0,n1),n2),inv(n1))"), "exp(p0,n2)");
        assert_eq!(form("inv(mul(n1,inv(n2)))"), "mul(n2,inv(n1))");
        assert_eq!(form("inv(one)"), "one");
        assert_eq!(form("dec(enc(n0,mul(n1,n2)),mul(n2,n1))"), "n0");
        assert_eq!(form("dec(enc(n0,n1),n2)"), "dec(enc(n0,n1),n2)");
    }

    #[test]
    fn the_positive_part_stays_whole_on_the_left() {
        assert_eq!(form("mul(mul(inv(n2),n1),n0)"), "mul(mul(n0,n1),inv(n2))");
        assert_eq!(form("inv(mul(n3,mul(n1,n2)))"), "inv(mul(n1,mul(n2,n3)))");
    }

    #[test]
    fn bytes_decide_the_order_and_not_numbers() {
        assert_eq!(form("mul(n129,n256)"), "mul(n256,n129)");
        assert_eq!(form("mul(n128,n127)"), "mul(n127,n128)");
        assert_eq!(form("inv(mul(p129,p256))"), "inv(mul(p256,p129))");
        let sorted = "mul(n128,mul(n2097152,n129))";
        assert_eq!(form("mul(n128,mul(n129,n2097152))"), sorted);
        assert_eq!(form("mul(n2097152,mul(n129,n128))"), sorted);
    }

    #[test]
    fn exp_does_not_spread_over_mul() {
        assert_eq!(form("exp(mul(n0,n1),n2)"), "exp(mul(n0,n1),n2)");
    }

    /// Each of these is its own canonical form.
    fn stays(terms: &[&str]) {
        terms.iter().for_each(|term| assert_eq!(form(term), *term));
    }

    #[test]
    fn asymmetric_decryption() {
        assert_eq!(form("adec(aenc(n0,pk(n1)),n1)"), "n0");
        assert_eq!(form("adec(aenc(n0,pk(mul(n1,n2))),mul(n2,n1))"), "n0");
        assert_eq!(
            form("adec(fst(pair(aenc(n0,snd(pair(n2,pk(n1)))),n2)),n1)"),
            "n0"
        );
        stays(&[
            "adec(aenc(n0,pk(n1)),n2)",
            "adec(aenc(n0,n1),n1)",
            "adec(aenc(n0,pk(n1)),pk(n1))",
            "adec(enc(n0,pk(n1)),n1)",
            "dec(aenc(n0,n1),n1)",
            "aenc(adec(n0,n1),pk(n1))",
        ]);
    }

    #[test]
    fn signatures() {
        assert_eq!(form("verify(sign(n0,n1),n0,pk(n1))"), "true");
        assert_eq!(
            form("verify(sign(mul(n0,p0),n1),mul(p0,n0),pk(n1))"),
            "true"
        );
        assert_eq!(form("verify(sign(n0,inv(inv(n1))),n0,pk(n1))"), "true");
        stays(&[
            "verify(sign(n0,n1),n2,pk(n1))",
            "verify(sign(n0,n1),n0,pk(n2))",
            "verify(sign(n0,n1),n0,n1)",
            "verify(sign(n0,pk(n1)),n0,pk(n1))",
            "verify(aenc(n0,n1),n0,pk(n1))",
            "verify(n0,n0,pk(n1))",
        ]);
    }

    #[test]
    fn true_is_a_factor_like_others() {
        stays(&["mul(n0,true)", "inv(true)", "exp(n0,true)", "exp(true,n0)"]);
        assert_eq!(form("mul(true,inv(true))"), "one");
        assert_eq!(
            form("mul(true,mul(f15,mul(sign(n0,n1),n0)))"),
            "mul(n0,mul(f15,mul(sign(n0,n1),true)))"
        );
    }

    #[test]
    fn multiplicities_around_zero() {
        assert_eq!(form("mul(inv(n0),n0)"), "one");
        assert_eq!(form("mul(n0,inv(n0))"), "one");
        assert_eq!(form("mul(mul(n0,n0),inv(mul(n0,mul(n0,n0))))"), "inv(n0)");
    }
}
