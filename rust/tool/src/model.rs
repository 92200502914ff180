//! What the files hold, as trees, with names beside the numbers.

use std::collections::BTreeMap;
use std::ops::{Range, RangeInclusive};

/// Bytes of a text, from and to.
pub type Span = Range<usize>;

/// "A term is written in prefix order, tag first".
#[derive(Clone, Debug, PartialEq, Eq, PartialOrd, Ord, Hash)]
pub enum Term {
    Variable(u32),
    Public(u32),
    Fresh(u32),
    Apply(u32, Vec<Term>),
    /// A term of more than `MOST_SHOWN_SYMBOLS` symbols, which no call accepts: its bytes and its count of symbols.
    Large(Vec<u8>, usize),
}

/// A term with more symbols is kept and shown as bytes, so that no tree is deep.
pub const MOST_SHOWN_SYMBOLS: usize = 1_000;

impl Term {
    pub fn symbols(&self) -> usize {
        match self {
            Term::Apply(_, arguments) => 1 + arguments.iter().map(Term::symbols).sum::<usize>(),
            Term::Large(_, symbols) => *symbols,
            _ => 1,
        }
    }

    /// The term with values in place of its variables.
    pub fn fill(&self, values: &[Term]) -> Term {
        match self {
            Term::Variable(n) => values.get(*n as usize).unwrap_or(self).clone(),
            Term::Apply(tag, arguments) => Term::Apply(
                *tag,
                arguments.iter().map(|term| term.fill(values)).collect(),
            ),
            other => other.clone(),
        }
    }

    /// The term and all terms in it, the outer ones first.
    pub fn each<'a>(&'a self, visit: &mut dyn FnMut(&'a Term)) {
        visit(self);
        if let Term::Apply(_, arguments) = self {
            arguments.iter().for_each(|term| term.each(visit));
        }
    }

    pub fn any(&self, test: impl Fn(&Term) -> bool) -> bool {
        let mut found = false;
        self.each(&mut |term| found |= test(term));
        found
    }

    pub fn holds_variable(&self, number: u32) -> bool {
        self.any(|term| *term == Term::Variable(number))
    }
}

#[derive(Clone, Debug, PartialEq, Eq, PartialOrd, Ord, Hash)]
pub struct Fact {
    pub symbol: u32,
    pub terms: Vec<Term>,
}

pub const FR: u32 = 0;
pub const IN: u32 = 1;
pub const OUT: u32 = 2;
pub const K: u32 = 3;
pub const FIRST_OWN_FACT: u32 = 4;
pub const GIVEN_FACTS: [&str; 4] = ["Fr", "In", "Out", "K"];

pub const ONE: u32 = 3;
pub const ENC: u32 = 4;
pub const DEC: u32 = 5;
pub const PAIR: u32 = 7;
pub const FST: u32 = 8;
pub const SND: u32 = 9;
pub const EXP: u32 = 10;
pub const MUL: u32 = 12;
pub const FIRST_FREE: u32 = 13;
pub const AENC: u32 = 29;
pub const ADEC: u32 = 30;
pub const PK: u32 = 31;
pub const TRUE: u32 = 34;

/// A function that is there under every protocol.
pub struct BuiltIn {
    pub tag: u32,
    pub name: &'static str,
    pub arity: u32,
}

const fn function(tag: u32, name: &'static str, arity: u32) -> BuiltIn {
    BuiltIn { tag, name, arity }
}

pub const BUILT_IN: [BuiltIn; 16] = [
    function(ONE, "one", 0),
    function(ENC, "enc", 2),
    function(DEC, "dec", 2),
    function(6, "h", 1),
    function(PAIR, "pair", 2),
    function(FST, "fst", 1),
    function(SND, "snd", 1),
    function(EXP, "exp", 2),
    function(11, "inv", 1),
    function(MUL, "mul", 2),
    function(AENC, "aenc", 2),
    function(ADEC, "adec", 2),
    function(PK, "pk", 1),
    function(32, "sign", 2),
    function(33, "verify", 3),
    function(TRUE, "true", 0),
];

pub fn built_in(tag: u32) -> Option<&'static BuiltIn> {
    BUILT_IN.iter().find(|function| function.tag == tag)
}

/// Behind the tags of all functions.
pub const FIRST_LETTER: u32 = TRUE + 1;
/// What a property's terms are, and what is said of others.
pub const ONLY_PLAIN: &str = "only variables and public names stand in a property";
/// Names that Tamarin uses for the same.
pub const ALIASES: [(&str, &str); 2] = [("senc", "enc"), ("sdec", "dec")];

pub const FRESH: u32 = 0;
pub const IRECV: u32 = 1;
pub const ISEND: u32 = 2;
pub const PUB: u32 = 3;
/// Rules 0 to 4, as Tamarin names them.
pub const INTRUDER: [&str; 5] = ["fresh", "irecv", "isend", "pub", "ifresh"];
pub const FIRST_RULE: u32 = 31;

/// Tags, and the rule that applies the function of the first: "Rule t+2 applies the function of tag t", and of document 02's six
/// "Their apply-rules are 95 to 100, in that order".
const APPLY_RULES: [(RangeInclusive<u32>, u32); 2] = [(ONE..=28, 5), (AENC..=TRUE, 95)];

/// The rule that applies the function of this tag.
pub fn apply_rule(tag: u32) -> u32 {
    let found = APPLY_RULES.iter().find(|(tags, _)| tags.contains(&tag));
    let (tags, first) = found.expect("a function has such a tag");
    first + tag - tags.start()
}

/// The tag of the function that a rule applies.
fn applied(rule: u32) -> Option<u32> {
    APPLY_RULES.iter().find_map(|(tags, first)| {
        let tag = tags.start() + rule.checked_sub(*first)?;
        tags.contains(&tag).then_some(tag)
    })
}

/// The place, from 0, of the protocol's rule that has this number.
pub fn own_rule(number: u32) -> Option<usize> {
    let place = number.checked_sub(FIRST_RULE)?;
    (place < limits::RULES).then_some(place as usize)
}

pub const SORT_MESSAGE: u32 = 0;
pub const SORT_FRESH: u32 = 1;
pub const SORT_PUBLIC: u32 = 2;
pub const SORT_TIME: u32 = 3;
/// What stands before a variable of each sort.
pub const SORT_SIGNS: [&str; 4] = ["", "~", "$", "#"];

/// The most that the files may have, as document 01 puts in brackets.
pub mod limits {
    pub use levtosziv::{
        GRAPH_BYTES, LARGEST_NUMBER, PROPERTY_BYTES, PROTOCOL_BYTES, STEPS_BYTES, TERM_BYTES,
    };
    pub const FUNCTIONS: u32 = 16;
    pub const FUNCTION_ARITY: u32 = 4;
    pub const FACT_SYMBOLS: u32 = 32;
    pub const FACT_ARITY: u32 = 8;
    pub const RULES: u32 = 64;
    pub const RULE_VARIABLES: u32 = 16;
    pub const RULE_FACTS: u32 = 8;
    pub const RULE_TERM_SYMBOLS: usize = 64;
    pub const NEW_VARIABLES: u32 = 8;
    pub const VARIABLES_IN_SCOPE: usize = 16;
    pub const NESTING: u32 = 16;
    pub const NODES: u32 = 512;
    pub const EDGES: u32 = 4_096;
    pub const VALUE_SYMBOLS: usize = 128;
    pub const FILLED_IN_SYMBOLS: usize = 256;
}

#[derive(Clone, Debug, PartialEq, Eq)]
pub struct Rule {
    pub sorts: Vec<u32>,
    pub premises: Vec<Fact>,
    pub actions: Vec<Fact>,
    pub conclusions: Vec<Fact>,
}

impl Rule {
    pub fn facts(&self) -> impl Iterator<Item = &Fact> {
        self.premises
            .iter()
            .chain(&self.actions)
            .chain(&self.conclusions)
    }
}

#[derive(Clone, Debug, Default, PartialEq, Eq)]
pub struct Protocol {
    /// The arities of the free functions.
    pub functions: Vec<u32>,
    /// The own fact symbols: arity, and whether persistent.
    pub facts: Vec<(u32, bool)>,
    pub rules: Vec<Rule>,
}

#[derive(Clone, Debug, PartialEq, Eq)]
pub enum Formula {
    False,
    Equal(Term, Term),
    Unequal(Term, Term),
    Before(u32, u32),
    NotBefore(u32, u32),
    SameTime(u32, u32),
    NotSameTime(u32, u32),
    Action(Fact, u32),
    NoAction(Fact, u32),
    And(Box<Formula>, Box<Formula>),
    Or(Box<Formula>, Box<Formula>),
    Exists(Quantifier),
    ForAll(Quantifier),
}

impl Formula {
    /// The files have no tag for truth; this stands for it.
    pub fn truth() -> Formula {
        Formula::Equal(Term::Public(0), Term::Public(0))
    }

    /// Whether some guard or action is of this symbol.
    pub fn names(&self, symbol: u32) -> bool {
        match self {
            Formula::Action(fact, _) | Formula::NoAction(fact, _) => fact.symbol == symbol,
            Formula::And(a, b) | Formula::Or(a, b) => a.names(symbol) || b.names(symbol),
            Formula::Exists(q) | Formula::ForAll(q) => {
                q.guard.symbol == symbol || q.body.names(symbol)
            }
            _ => false,
        }
    }
}

#[derive(Clone, Debug, PartialEq, Eq)]
pub struct Quantifier {
    pub sorts: Vec<u32>,
    pub guard: Fact,
    pub time: u32,
    pub body: Box<Formula>,
    /// The new variables' names and the quantifier's place, where a text has it.
    pub written: Option<(Vec<String>, Span)>,
}

#[derive(Clone, Debug, PartialEq, Eq)]
pub struct Node {
    pub rule: u32,
    pub values: Vec<Term>,
}

/// Source node, conclusion, target node, premise, all from 1.
pub type Edge = [u32; 4];

#[derive(Clone, Debug, Default, PartialEq, Eq)]
pub struct Graph {
    pub nodes: Vec<Node>,
    pub edges: Vec<Edge>,
}

/// A node's premises, actions and conclusions with its values filled in.
#[derive(Clone, Debug, Default, PartialEq, Eq)]
pub struct Filled {
    pub premises: Vec<Fact>,
    pub actions: Vec<Fact>,
    pub conclusions: Vec<Fact>,
}

impl Filled {
    pub fn facts(&self) -> impl Iterator<Item = &Fact> {
        self.premises
            .iter()
            .chain(&self.actions)
            .chain(&self.conclusions)
    }
}

#[derive(Clone, Debug, Default)]
pub struct Names {
    pub theory: Option<String>,
    pub functions: Vec<String>,
    pub facts: Vec<String>,
    pub rules: Vec<String>,
    /// Of each rule, its variables.
    pub variables: Vec<Vec<String>>,
    /// What a picture writes for a whole term, as functions of the tags from `FIRST_LETTER`, which no file has.
    pub letters: Vec<String>,
    pub public: BTreeMap<u32, String>,
    pub fresh: BTreeMap<u32, String>,
}

fn numbered(letter: &str, count: usize) -> Vec<String> {
    (0..count).map(|i| format!("{letter}{i}")).collect()
}

impl Names {
    /// Names made up for a protocol that has none.
    pub fn generated(protocol: &Protocol) -> Names {
        let variables = |rule: &Rule| numbered("x", rule.sorts.len());
        Names {
            functions: numbered("f", protocol.functions.len()),
            facts: numbered("F", protocol.facts.len()),
            rules: numbered("R", protocol.rules.len()),
            variables: protocol.rules.iter().map(variables).collect(),
            ..Names::default()
        }
    }

    pub fn function(&self, tag: u32) -> &str {
        self.function_if_there(tag)
            .expect("its tag is a function's")
    }

    fn function_if_there(&self, tag: u32) -> Option<&str> {
        if let Some(function) = built_in(tag) {
            return Some(function.name);
        }
        let name = match tag.checked_sub(FIRST_LETTER) {
            Some(i) => self.letters.get(i as usize),
            None => self.functions.get(tag.checked_sub(FIRST_FREE)? as usize),
        };
        name.map(String::as_str)
    }

    pub fn fact(&self, symbol: u32) -> &str {
        match symbol.checked_sub(FIRST_OWN_FACT) {
            None => GIVEN_FACTS[symbol as usize],
            Some(i) => &self.facts[i as usize],
        }
    }

    pub fn rule(&self, number: u32) -> String {
        if let Some(name) = INTRUDER.get(number as usize) {
            return name.to_string();
        }
        let function = applied(number).and_then(|tag| self.function_if_there(tag));
        let own = own_rule(number).and_then(|i| self.rules.get(i));
        match (function, own) {
            (Some(name), _) => format!("c_{name}"),
            (None, Some(name)) => name.clone(),
            (None, None) => format!("?{number}"),
        }
    }

    /// The names of a rule's variables.
    pub fn rule_variables(&self, number: u32, count: usize) -> Vec<String> {
        match own_rule(number) {
            Some(i) => self.variables[i].clone(),
            None => numbered("x", count),
        }
    }

    pub fn public(&self, number: u32) -> String {
        self.public
            .get(&number)
            .cloned()
            .unwrap_or_else(|| format!("p{number}"))
    }

    pub fn fresh(&self, number: u32) -> String {
        self.fresh
            .get(&number)
            .cloned()
            .unwrap_or_else(|| format!("n{number}"))
    }
}

impl Protocol {
    /// The arity of a function; none of a variable's or name's tag, nor of an undeclared function.
    pub fn arity(&self, tag: u32) -> Option<u32> {
        let free = tag.checked_sub(FIRST_FREE);
        let free = || self.functions.get(free? as usize).copied();
        built_in(tag).map(|function| function.arity).or_else(free)
    }

    /// Arity of a fact symbol, and whether it is persistent.
    pub fn symbol(&self, symbol: u32) -> Option<(u32, bool)> {
        match symbol.checked_sub(FIRST_OWN_FACT) {
            None => Some((1, symbol == K)),
            Some(i) => self.facts.get(i as usize).copied(),
        }
    }

    pub fn linear(&self, symbol: u32) -> bool {
        matches!(self.symbol(symbol), Some((_, false)))
    }

    /// A rule by its number, built-in or the protocol's own.
    pub fn rule(&self, number: u32) -> Option<Rule> {
        let fact = |symbol, term| {
            vec![Fact {
                symbol,
                terms: vec![term],
            }]
        };
        let x = || Term::Variable(0);
        let rule = |sort, premises, actions, conclusions| {
            Some(Rule {
                sorts: vec![sort],
                premises,
                actions,
                conclusions,
            })
        };
        match number {
            0 => rule(SORT_FRESH, vec![], vec![], fact(FR, x())),
            1 => rule(SORT_MESSAGE, fact(OUT, x()), vec![], fact(K, x())),
            2 => rule(SORT_MESSAGE, fact(K, x()), fact(K, x()), fact(IN, x())),
            3 => rule(SORT_PUBLIC, vec![], vec![], fact(K, x())),
            4 => rule(SORT_FRESH, fact(FR, x()), vec![], fact(K, x())),
            _ => match applied(number) {
                Some(tag) => self.applying(tag),
                None => self.rules.get(own_rule(number)?).cloned(),
            },
        }
    }

    /// The rule by which the intruder applies a function to what it knows.
    fn applying(&self, tag: u32) -> Option<Rule> {
        let arity = self.arity(tag)?;
        let known = |term| Fact {
            symbol: K,
            terms: vec![term],
        };
        let variables: Vec<Term> = (0..arity).map(Term::Variable).collect();
        Some(Rule {
            sorts: vec![SORT_MESSAGE; arity as usize],
            premises: variables.iter().cloned().map(known).collect(),
            actions: Vec::new(),
            conclusions: vec![known(Term::Apply(tag, variables))],
        })
    }

    /// The numbers of all rules that there are.
    pub fn rule_numbers(&self) -> Vec<u32> {
        (0..=apply_rule(TRUE))
            .filter(|number| self.rule(*number).is_some())
            .collect()
    }
}
