//! Terms in words: `x3` a variable, `p3` a public name, `n3` a fresh name, `one`, `enc(..)` and so on,
//! `f3(..)` a free function; `f3` alone where it has no argument. And bytes, with such terms among them.

use crate::term::{Fresh, Public, Term, AENC, FREE, ONE};

/// The functions from tag 3 on, and those from tag 29 on.
const NAMES: [&str; 10] = [
    "one", "enc", "dec", "h", "pair", "fst", "snd", "exp", "inv", "mul",
];
const SIGNING: [&str; 6] = ["aenc", "adec", "pk", "sign", "verify", "true"];

pub fn show(term: &Term) -> String {
    match term {
        Term::Variable(number) => format!("x{number}"),
        Term::Public(Public(number)) => format!("p{number}"),
        Term::Fresh(Fresh(number)) => format!("n{number}"),
        Term::Apply(tag, arguments) => {
            let parts: Vec<String> = arguments.iter().map(show).collect();
            if parts.is_empty() {
                function_name(*tag)
            } else {
                format!("{}({})", function_name(*tag), parts.join(","))
            }
        }
    }
}

fn function_name(tag: u32) -> String {
    match tag {
        AENC.. => SIGNING[(tag - AENC) as usize].to_string(),
        FREE.. => format!("f{}", tag - FREE),
        _ => NAMES[(tag - ONE) as usize].to_string(),
    }
}

/// The term that the words stand for. Panics where they stand for none.
pub fn parse(words: &str) -> Term {
    let (term, rest) = parse_prefix(words);
    assert!(rest.is_empty(), "left over: {rest}");
    term
}

fn parse_prefix(words: &str) -> (Term, &str) {
    let end = words.find(['(', ',', ')']).unwrap_or(words.len());
    let (name, mut rest) = words.split_at(end);
    let mut arguments = Vec::new();
    if rest.starts_with('(') {
        while !rest.starts_with(')') {
            let (argument, behind) = parse_prefix(&rest[1..]);
            arguments.push(argument);
            rest = behind;
        }
        rest = &rest[1..];
    }
    (named(name, arguments), rest)
}

fn named(name: &str, arguments: Vec<Term>) -> Term {
    for (first, names) in [(ONE, &NAMES[..]), (AENC, &SIGNING)] {
        if let Some(place) = names.iter().position(|known| *known == name) {
            return Term::Apply(first + place as u32, arguments);
        }
    }
    let number: u32 = name[1..].parse().expect("a number");
    match &name[..1] {
        "x" => Term::Variable(number),
        "p" => Term::Public(Public(number)),
        "n" => Term::Fresh(Fresh(number)),
        "f" => Term::Apply(FREE + number, arguments),
        _ => panic!("no such name: {name}"),
    }
}

/// The bytes that the words stand for, blanks between them: a byte is two capital hexadecimal digits; a
/// term in words is its encoding; `3*( .. )` is what stands between the brackets, three times. Panics
/// where they stand for none.
pub fn bytes(words: &str) -> Vec<u8> {
    let mut words = words.split_whitespace();
    let (bytes, closed) = bytes_until_closed(&mut words);
    assert!(!closed, "a bracket too many");
    bytes
}

/// Reads to the end of the words, or past the bracket that closes; says which.
fn bytes_until_closed<'a>(words: &mut impl Iterator<Item = &'a str>) -> (Vec<u8>, bool) {
    let mut bytes = Vec::new();
    while let Some(word) = words.next() {
        if word == ")" {
            return (bytes, true);
        }
        if let Some(times) = word.strip_suffix("*(") {
            let (part, closed) = bytes_until_closed(words);
            assert!(closed, "no bracket closes {word}");
            bytes.extend(part.repeat(times.parse().expect("a decimal number")));
        } else {
            bytes.extend(byte(word).map_or_else(|| parse(word).encoded(), |byte| vec![byte]));
        }
    }
    (bytes, false)
}

fn byte(word: &str) -> Option<u8> {
    let capital = |digit: char| digit.is_ascii_digit() || ('A'..='F').contains(&digit);
    let is_byte = word.len() == 2 && word.chars().all(capital);
    is_byte.then(|| u8::from_str_radix(word, 16).expect("two hexadecimal digits"))
}

#[cfg(test)]
mod tests {
    use super::*;

    #[test]
    fn words_come_back() {
        for words in [
            "x0",
            "f0",
            "f2(p300,one)",
            "exp(exp(p0,n1),inv(mul(n2,h(f1(n3)))))",
            "verify(sign(f15,n1),true,pk(adec(aenc(p1,p2),x0)))",
        ] {
            assert_eq!(show(&parse(words)), words);
        }
    }
    #[test]
    fn bytes_and_terms_and_repetition() {
        assert_eq!(bytes(""), []);
        assert_eq!(bytes("00 7F FF"), [0, 127, 255]);
        assert_eq!(bytes("F0 f0 n128"), [240, 13, 2, 128, 1]);
        assert_eq!(
            bytes("2*( 07 ) 3*( n0 ) 0*( 01 )"),
            [7, 7, 2, 0, 2, 0, 2, 0]
        );
        assert_eq!(bytes("2*( 2*( 06 ) h(one) )"), [6, 6, 6, 3, 6, 6, 6, 3]);
    }
}
