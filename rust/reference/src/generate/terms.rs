//! Terms of a given number of symbols.

use crate::figures::MOST_GROUPS;
use crate::number::least_of;
use crate::random::Random;
use crate::term::*;

/// What a term may be made of.
pub struct Material<'a> {
    pub signature: &'a Signature,
    /// How many variables there are; 0 for a term without.
    pub variables: u32,
    pub fresh_names: bool,
    /// Whether products, inverses and exponents are to be frequent.
    pub products: bool,
    /// Whether aenc to true are among the functions.
    pub signing: bool,
}

/// Products of rare names have fewer symbols than this.
const MOST_RARE: usize = 20;

impl Material<'_> {
    /// A term of exactly so many symbols.
    pub fn term(&self, random: &mut Random, symbols: usize) -> Term {
        if symbols <= 1 {
            return self.leaf(random);
        }
        if symbols >= 5 && random.percent(15) {
            return self.reducible(random, symbols);
        }
        if (3..MOST_RARE).contains(&symbols) && self.products && random.percent(5) {
            return self.rare_product(random, symbols);
        }
        let tag = self.tag(random, symbols - 1);
        let arity = self.signature.arity(tag).expect("a declared function");
        let sizes = shares(random, symbols - 1, arity);
        Term::apply(tag, sizes.into_iter().map(|size| self.term(random, size)))
    }

    /// A product of rare names of one kind, which is to be sorted by bytes; an inverse where the symbols are even.
    fn rare_product(&self, random: &mut Random, symbols: usize) -> Term {
        let fresh = self.fresh_names && random.percent(70);
        let factors = (0..symbols.div_ceil(2)).map(|_| match (fresh, rare_name(random)) {
            (true, number) => Term::Fresh(Fresh(number)),
            (false, number) => Term::Public(Public(number)),
        });
        let product = factors.reduce(|first, next| Term::apply(MUL, [first, next]));
        padded(product.expect("a factor"), symbols)
    }

    fn leaf(&self, random: &mut Random) -> Term {
        if self.variables > 0 && random.percent(60) {
            return Term::Variable(random.below(self.variables as usize) as u32);
        }
        if random.percent(12) {
            return self.constant(random);
        }
        if self.fresh_names && random.percent(70) {
            Term::Fresh(Fresh(name(random)))
        } else {
            Term::Public(Public(name(random)))
        }
    }

    /// one, true, or a free function of arity 0.
    fn constant(&self, random: &mut Random) -> Term {
        let free = (FREE..).zip(&self.signature.free);
        let constants = free.filter(|(_, arity)| **arity == 0).map(|(tag, _)| tag);
        let signing = self.signing.then_some(TRUE);
        let tags: Vec<u32> = std::iter::once(ONE)
            .chain(constants)
            .chain(signing)
            .collect();
        Term::apply(*random.choose(&tags), [])
    }

    /// A function of arity 1 or more, and at most `most`.
    fn tag(&self, random: &mut Random, most: usize) -> u32 {
        let arity = |tag: u32| self.signature.arity(tag).unwrap_or(0);
        let fits = |tag: &u32| (1..=most).contains(&arity(*tag));
        let last = FREE + self.signature.free.len() as u32;
        let signing = AENC..if self.signing { TRUE } else { AENC };
        let all = (ENC..last).chain(signing);
        let tags: Vec<u32> = if self.products && random.percent(65) {
            [MUL, MUL, MUL, INV, EXP].into_iter().filter(fits).collect()
        } else {
            all.filter(fits).collect()
        };
        *random.choose(&tags)
    }

    /// A term to which an equation applies at its root, perhaps only after its parts are normalised.
    fn reducible(&self, random: &mut Random, symbols: usize) -> Term {
        if self.signing && symbols >= 7 && random.percent(60) {
            return self.opened(random, symbols);
        }
        let key_size = 1 + random.below((symbols - 3) / 2);
        let message_size = symbols - 2 - 2 * key_size;
        let key = self.term(random, key_size);
        let message = self.term(random, message_size);
        let other_key = shuffled(random, &key);
        match random.below(5) {
            0 => {
                let pair = Term::apply(PAIR, [key, message]);
                let projected = Term::apply(*random.choose(&[FST, SND]), [pair]);
                padded(projected, symbols)
            }
            1 => {
                let power = Term::apply(EXP, [message, key]);
                padded(Term::apply(EXP, [power, other_key]), symbols)
            }
            _ => {
                let cipher = Term::apply(ENC, [message, key]);
                padded(Term::apply(DEC, [cipher, other_key]), symbols)
            }
        }
    }
}

impl Material<'_> {
    /// adec of aenc or verify of sign, whose keys and messages fit, perhaps only after they are normalised, or nearly fit.
    fn opened(&self, random: &mut Random, symbols: usize) -> Term {
        let decrypt = random.percent(50);
        let messages = if decrypt { 1 } else { 2 };
        let rewritten = symbols >= 9 && random.percent(40);
        let size = symbols - if rewritten { 2 } else { 0 };
        let key_size = 1 + random.below((size - 3 - messages) / 2);
        let message_size = (size - 3 - 2 * key_size) / messages;
        let key = self.term(random, key_size);
        let message = self.term(random, message_size);
        let other_key = self.fitting(random, &key);
        let opened = if decrypt {
            decrypted(random, &message, &key, other_key)
        } else {
            let other_message = self.fitting(random, &message);
            verified(random, &message, &key, other_message, other_key)
        };
        let opened = match rewritten {
            true => inverted_twice(random, opened),
            false => opened,
        };
        padded(opened, symbols)
    }

    /// A term that is equal to this one, mostly, and of the same size.
    fn fitting(&self, random: &mut Random, term: &Term) -> Term {
        match random.percent(80) {
            true => shuffled(random, term),
            false => self.term(random, term.symbols()),
        }
    }
}

/// The term with one of its arguments, or the last argument of the first one, below two inv.
fn inverted_twice(random: &mut Random, term: Term) -> Term {
    let Term::Apply(tag, mut parts) = term else {
        return term;
    };
    let count = parts.len();
    let place = random.below(count + 1);
    let part = match (place == count, &mut parts[place % count]) {
        (true, Term::Apply(_, inner)) if !inner.is_empty() => inner.last_mut().expect("one"),
        (_, part) => part,
    };
    *part = Term::apply(INV, [Term::apply(INV, [part.clone()])]);
    Term::Apply(tag, parts)
}

fn public_key(key: Term) -> Term {
    Term::apply(PK, [key])
}

/// adec(aenc(m,pk(k)),k'), mostly, which is m where k' is k; or pk stands elsewhere or nowhere, or a function is another one.
fn decrypted(random: &mut Random, message: &Term, key: &Term, private: Term) -> Term {
    let (message, key) = (message.clone(), key.clone());
    let cipher = |tag: u32, public: Term| Term::apply(tag, [message, public]);
    match random.below(12) {
        0 => Term::apply(ADEC, [cipher(AENC, key), private]),
        1 => Term::apply(ADEC, [cipher(AENC, key), public_key(private)]),
        2 => Term::apply(DEC, [cipher(AENC, public_key(key)), private]),
        3 => {
            let other = *random.choose(&[ENC, SIGN, PAIR]);
            Term::apply(ADEC, [cipher(other, public_key(key)), private])
        }
        _ => Term::apply(ADEC, [cipher(AENC, public_key(key)), private]),
    }
}

/// verify(sign(m,k),m',pk(k')), mostly, which is true where m' is m and k' is k; or pk stands elsewhere or nowhere, or a function is
/// another one.
fn verified(random: &mut Random, message: &Term, key: &Term, same: Term, public: Term) -> Term {
    let (message, key) = (message.clone(), key.clone());
    let signature = |tag: u32, key: Term| Term::apply(tag, [message, key]);
    match random.below(12) {
        0 => Term::apply(VERIFY, [signature(SIGN, key), same, public]),
        1 => Term::apply(VERIFY, [signature(SIGN, public_key(key)), same, public]),
        2 => Term::apply(VERIFY, [same, signature(SIGN, key), public_key(public)]),
        3 => {
            let other = *random.choose(&[ENC, AENC, PAIR]);
            Term::apply(VERIFY, [signature(other, key), same, public_key(public)])
        }
        _ => Term::apply(VERIFY, [signature(SIGN, key), same, public_key(public)]),
    }
}

/// The term under as many inv as bring it to this number of symbols.
fn padded(term: Term, symbols: usize) -> Term {
    let missing = symbols - term.symbols();
    (0..missing).fold(term, |term, _| Term::apply(INV, [term]))
}

/// A term equal to this one and of the same size: the factors of its products change places.
fn shuffled(random: &mut Random, term: &Term) -> Term {
    match term {
        Term::Apply(tag, arguments) => {
            let mut arguments: Vec<Term> = arguments
                .iter()
                .map(|part| shuffled(random, part))
                .collect();
            if *tag == MUL && random.percent(50) {
                arguments.reverse();
            }
            Term::Apply(*tag, arguments)
        }
        leaf => leaf.clone(),
    }
}

/// Few different names, so that factors meet again.
pub fn name(random: &mut Random) -> u32 {
    if random.percent(15) {
        rare_name(random)
    } else {
        random.below(4) as u32
    }
}

/// The ends of each number of groups, and numbers near them: their byte order differs from their own.
pub fn rare_name(random: &mut Random) -> u32 {
    let least = least_of(1 + random.below(MOST_GROUPS));
    let near = [least - 1, least, least + 1];
    let twice = [2 * least - 1, 2 * least, 2 * least + 1];
    let last = 128 * (least - 1) + 127;
    let names = [&near[..], &twice, &[last]].concat();
    *random.choose(&names)
}

/// `total` cut into so many parts, none of them zero.
pub fn shares(random: &mut Random, total: usize, parts: usize) -> Vec<usize> {
    let mut sizes = vec![1; parts];
    let favourite = random.below(parts);
    for _ in parts..total {
        let part = if random.percent(50) {
            favourite
        } else {
            random.below(parts)
        };
        sizes[part] += 1;
    }
    sizes
}
