//! Trees to text. What is printed parses to the same bytes again.

use crate::kernel::Kernel;
use crate::model::*;
use std::fmt::Write;

/// How terms and facts are written: by which names, and in a rule by which variables.
#[derive(Clone, Copy)]
pub struct Style<'a> {
    pub names: &'a Names,
    /// The variables' names and sorts, in a rule.
    pub variables: Option<(&'a [String], &'a [u32])>,
}

impl<'a> Style<'a> {
    /// For messages, in a run.
    pub fn of(names: &'a Names) -> Self {
        Style {
            names,
            variables: None,
        }
    }

    pub fn term(&self, term: &Term) -> String {
        match term {
            Term::Variable(n) => self.variable(*n),
            Term::Public(n) => format!("'{}'", self.names.public(*n)),
            Term::Fresh(n) if self.variables.is_some() => format!("~'{}'", self.names.fresh(*n)),
            Term::Fresh(n) => fresh_name(&self.names.fresh(*n)),
            Term::Apply(MUL, a) => {
                let left = self.in_brackets(&a[0], &[MUL]);
                format!("{left}*{}", self.term(&a[1]))
            }
            Term::Apply(EXP, a) => {
                let base = self.in_brackets(&a[0], &[MUL]);
                format!("{base}^{}", self.in_brackets(&a[1], &[MUL, EXP]))
            }
            Term::Apply(PAIR, a) => format!("<{}>", self.tuple(a)),
            Term::Apply(tag, a) if a.is_empty() => self.names.function(*tag).to_string(),
            Term::Apply(tag, a) => format!("{}({})", self.names.function(*tag), self.terms(a)),
            Term::Large(bytes, _) => {
                let mut text = String::from("0x");
                bytes.iter().for_each(|b| text += &format!("{b:02x}"));
                text
            }
        }
    }

    fn terms(&self, terms: &[Term]) -> String {
        let terms: Vec<String> = terms.iter().map(|term| self.term(term)).collect();
        terms.join(", ")
    }

    fn variable(&self, number: u32) -> String {
        match self.variables {
            Some((names, sorts)) if (number as usize) < names.len() => {
                let sign = SORT_SIGNS[sorts[number as usize] as usize];
                format!("{sign}{}", names[number as usize])
            }
            _ => format!("?{number}"),
        }
    }

    /// Bracketed if it applies one of these functions.
    fn in_brackets(&self, term: &Term, tags: &[u32]) -> String {
        match term {
            Term::Apply(tag, _) if tags.contains(tag) => format!("({})", self.term(term)),
            _ => self.term(term),
        }
    }

    fn tuple(&self, pair: &[Term]) -> String {
        let mut parts = vec![self.term(&pair[0])];
        let mut rest = &pair[1];
        while let Term::Apply(PAIR, inner) = rest {
            parts.push(self.term(&inner[0]));
            rest = &inner[1];
        }
        parts.push(self.term(rest));
        parts.join(", ")
    }

    pub fn fact(&self, fact: &Fact, protocol: &Protocol) -> String {
        let own = fact.symbol >= FIRST_OWN_FACT;
        let mark = match own && !protocol.linear(fact.symbol) {
            true => "!",
            false => "",
        };
        let name = self.names.fact(fact.symbol);
        format!("{mark}{name}({})", self.terms(&fact.terms))
    }

    pub fn facts(&self, facts: &[Fact], protocol: &Protocol) -> String {
        let facts: Vec<String> = facts.iter().map(|f| self.fact(f, protocol)).collect();
        facts.join(", ")
    }

    /// A node as a step: its rule's name and its values.
    pub fn node(&self, node: &Node) -> String {
        format!(
            "{}({})",
            self.names.rule(node.rule),
            self.terms(&node.values)
        )
    }
}

/// `~a`, or `~'a b'` where the name is no word.
fn fresh_name(name: &str) -> String {
    let begins = name.starts_with(|c: char| c.is_alphabetic() || c == '_');
    match begins && name.chars().all(|c| c.is_alphanumeric() || c == '_') {
        true => format!("~{name}"),
        false => format!("~'{name}'"),
    }
}

/// Characters that are not seen, or that turn the direction of writing.
fn is_unseen(c: char) -> bool {
    let layout = matches!(c, '\n' | '\t');
    let format = matches!(c, '\u{AD}' | '\u{61C}' | '\u{180E}' | '\u{200B}'..='\u{200F}' | '\u{2028}'..='\u{202E}'
        | '\u{2060}'..='\u{206F}' | '\u{FEFF}' | '\u{FFF9}'..='\u{FFFB}' | '\u{E0000}'..='\u{E007F}');
    format || c.is_control() && !layout
}

/// Letters that are written from right to left.
fn is_right_to_left(c: char) -> bool {
    matches!(c, '\u{590}'..='\u{8FF}' | '\u{FB1D}'..='\u{FDFF}' | '\u{FE70}'..='\u{FEFC}' | '\u{10800}'..='\u{10FFF}' | '\u{1E800}'..='\u{1EFFF}')
}

/// Keeps letters that are written from right to left from turning what follows.
const MARK: char = '\u{200E}';

/// A text as terminals, pictures and pages show it: characters that are not seen by their numbers, and a mark behind letters that are
/// written from right to left. A text that is so already stays as it is.
pub fn visible(text: &str) -> String {
    visible_with(text, &(0..0)).0
}

/// The same, and where a part of the text is then.
pub fn visible_with(text: &str, part: &Span) -> (String, Span) {
    let mut out = String::with_capacity(text.len());
    let (mut start, mut end) = (None, None);
    let mut turned = false;
    let mut letters = text.char_indices().peekable();
    while let Some((at, c)) = letters.next() {
        for (place, moved) in [(part.start, &mut start), (part.end, &mut end)] {
            if at >= place {
                moved.get_or_insert(out.len());
            }
        }
        let next = letters.peek().map(|(_, next)| *next);
        match c {
            MARK if turned => {}
            '\r' if next == Some('\n') => out.push(c),
            c if is_unseen(c) => out.extend(c.escape_unicode()),
            c => out.push(c),
        }
        turned = is_right_to_left(c);
        if turned && !next.is_some_and(is_right_to_left) {
            out.push(MARK);
        }
    }
    let part = start.unwrap_or(out.len())..end.unwrap_or(out.len());
    (out, part)
}

/// A number with commas: 1,234,567.
pub fn grouped(number: impl ToString) -> String {
    let digits = number.to_string();
    let mut grouped = String::new();
    for (i, digit) in digits.chars().enumerate() {
        if i > 0 && (digits.len() - i).is_multiple_of(3) {
            grouped.push(',');
        }
        grouped.push(digit);
    }
    grouped
}

/// A text of so many characters at most.
pub fn cut(text: &str, most: usize) -> String {
    match text.char_indices().nth(most) {
        Some((end, _)) => format!("{}..", &text[..end]),
        None => text.to_string(),
    }
}

/// Functions, facts, names of numbers and rules.
pub fn protocol(protocol: &Protocol, names: &Names) -> String {
    let mut out = String::new();
    if !protocol.functions.is_empty() {
        let arities = protocol.functions.iter().zip(&names.functions);
        let all: Vec<String> = arities
            .map(|(arity, name)| format!("{name}/{arity}"))
            .collect();
        out += &format!("functions: {}\n", all.join(", "));
    }
    let facts = protocol.facts.iter().zip(&names.facts);
    let all: Vec<String> = facts
        .map(|((arity, persistent), name)| {
            format!("{}{name}/{arity}", if *persistent { "!" } else { "" })
        })
        .collect();
    out += format!("facts: {}", all.join(", ")).trim_end();
    out += &format!("\n{}\n", named_numbers(names));
    for (i, rule) in protocol.rules.iter().enumerate() {
        out += &rule_text(&names.rules[i], rule, &names.variables[i], names, protocol);
        out += "\n";
    }
    out
}

/// The `names:` line, for names whose form is not their number.
fn named_numbers(names: &Names) -> String {
    let public = names
        .public
        .iter()
        .filter(|(n, name)| **name != format!("p{n}"));
    let fresh = names
        .fresh
        .iter()
        .filter(|(n, name)| **name != format!("n{n}"));
    let all: Vec<String> = public
        .map(|(n, name)| format!("'{name}' = {n}"))
        .chain(fresh.map(|(n, name)| format!("{} = {n}", fresh_name(name))))
        .collect();
    match all.is_empty() {
        true => String::new(),
        false => format!("names: {}\n", all.join(", ")),
    }
}

fn rule_text(
    name: &str,
    rule: &Rule,
    variables: &[String],
    names: &Names,
    protocol: &Protocol,
) -> String {
    let style = Style {
        names,
        variables: Some((variables, &rule.sorts)),
    };
    let part = |facts: &[Fact]| match facts.is_empty() {
        true => "[ ]".to_string(),
        false => format!("[ {} ]", style.facts(facts, protocol)),
    };
    let arrow = match rule.actions.is_empty() {
        true => "-->".to_string(),
        false => format!("--{}->", part(&rule.actions)),
    };
    format!(
        "rule {name}{}:\n  {}\n  {arrow}\n  {}\n",
        parameters(rule, &style),
        part(&rule.premises),
        part(&rule.conclusions)
    )
}

/// The parameters, where the order of appearance is not the order in the file.
fn parameters(rule: &Rule, style: &Style) -> String {
    let mut seen = Vec::new();
    for term in rule.facts().flat_map(|fact| &fact.terms) {
        term.each(&mut |term| match term {
            Term::Variable(n) if !seen.contains(n) => seen.push(*n),
            _ => {}
        });
    }
    let all: Vec<u32> = (0..rule.sorts.len() as u32).collect();
    if seen == all {
        return String::new();
    }
    let all: Vec<String> = all.iter().map(|n| style.variable(*n)).collect();
    format!("({})", all.join(", "))
}

/// How tightly a formula binds: an atom most, a quantifier or implication least.
#[derive(Clone, Copy, PartialEq, PartialOrd)]
enum Binds {
    Least,
    Or,
    And,
    Atom,
}

/// A formula in the files' guarded form.
pub fn formula(formula: &Formula, names: &Names) -> String {
    let mut printer = FormulaPrinter {
        names,
        scope: Vec::new(),
    };
    printer.formula(formula, Binds::Least)
}

struct FormulaPrinter<'a> {
    names: &'a Names,
    scope: Vec<(String, u32)>,
}

impl FormulaPrinter<'_> {
    fn time(&self, number: u32) -> String {
        let name = self.scope.get(number as usize).map(|(name, _)| name);
        name.map_or(format!("#?{number}"), |name| format!("#{name}"))
    }

    /// A variable that is a time has its number where a message should stand, so that it comes back there.
    fn plain(&self, term: &Term) -> String {
        match term {
            Term::Variable(n) => match self.scope.get(*n as usize) {
                Some((name, SORT_MESSAGE)) => name.clone(),
                _ => format!("?{n}"),
            },
            other => Style::of(self.names).term(other),
        }
    }

    fn fact(&self, fact: &Fact) -> String {
        let terms: Vec<String> = fact.terms.iter().map(|term| self.plain(term)).collect();
        format!("{}({})", self.names.fact(fact.symbol), terms.join(", "))
    }

    fn formula(&mut self, formula: &Formula, at_least: Binds) -> String {
        let (text, binds) = match formula {
            Formula::And(a, b) => {
                let first = self.formula(a, Binds::Atom);
                let second = self.formula(b, Binds::And);
                (format!("{first} & {second}"), Binds::And)
            }
            Formula::Or(a, b) => {
                let first = self.formula(a, Binds::And);
                let second = self.formula(b, Binds::Or);
                (format!("{first} | {second}"), Binds::Or)
            }
            Formula::Exists(quantifier) => self.quantifier(quantifier, false),
            Formula::ForAll(quantifier) => self.quantifier(quantifier, true),
            atom => (self.atom(atom), Binds::Atom),
        };
        match binds < at_least {
            true => format!("({text})"),
            false => text,
        }
    }

    fn atom(&self, atom: &Formula) -> String {
        if *atom == Formula::truth() {
            return "T".into();
        }
        let (positive, text) = match atom {
            Formula::Equal(a, b) | Formula::Unequal(a, b) => (
                matches!(atom, Formula::Equal(..)),
                format!("{} = {}", self.plain(a), self.plain(b)),
            ),
            Formula::Before(a, b) | Formula::NotBefore(a, b) => (
                matches!(atom, Formula::Before(..)),
                format!("{} < {}", self.time(*a), self.time(*b)),
            ),
            Formula::SameTime(a, b) | Formula::NotSameTime(a, b) => (
                matches!(atom, Formula::SameTime(..)),
                format!("{} = {}", self.time(*a), self.time(*b)),
            ),
            Formula::Action(fact, time) | Formula::NoAction(fact, time) => (
                matches!(atom, Formula::Action(..)),
                format!("{} @ {}", self.fact(fact), self.time(*time)),
            ),
            _ => (true, "F".into()),
        };
        match positive {
            true => text,
            false => format!("not ({text})"),
        }
    }

    fn quantifier(&mut self, q: &Quantifier, for_all: bool) -> (String, Binds) {
        let outside = self.scope.len();
        let new = self.enter(q);
        let head = format!("{new}. {} @ {}", self.fact(&q.guard), self.time(q.time));
        let fit = (outside..self.scope.len()).all(|n| {
            let in_guard = q.guard.terms.contains(&Term::Variable(n as u32));
            q.time == n as u32 || self.scope[n].1 == SORT_MESSAGE && in_guard
        });
        let printed = match for_all {
            true if *q.body == Formula::False => (format!("not (Ex {head})"), Binds::Atom),
            true => {
                let body = self.formula(&q.body, Binds::Least);
                (format!("All {head} ==> {body}"), Binds::Least)
            }
            false if *q.body == Formula::truth() => (format!("Ex {head}"), Binds::Least),
            false if fit => {
                let body = self.formula(&q.body, Binds::And);
                (format!("Ex {head} & {body}"), Binds::Least)
            }
            // Two negations keep the body from being searched for guards.
            false => {
                let body = self.formula(&q.body, Binds::Least);
                (format!("Ex {head} & not not ({body})"), Binds::Least)
            }
        };
        self.scope.truncate(outside);
        printed
    }

    /// The new variables, by their written names where these are not taken.
    fn enter(&mut self, q: &Quantifier) -> String {
        let mut new = Vec::new();
        for (i, sort) in q.sorts.iter().enumerate() {
            let number = self.scope.len();
            let letter = if *sort == SORT_TIME { "t" } else { "x" };
            let mut name = match &q.written {
                Some((names, _)) => names[i].clone(),
                None => format!("{letter}{number}"),
            };
            while self.scope.iter().any(|(taken, _)| *taken == name) {
                name += &format!("_{number}");
            }
            new.push(format!("{}{name}", SORT_SIGNS[*sort as usize]));
            self.scope.push((name, *sort));
        }
        new.join(" ")
    }
}

pub fn lemma(name: &str, formula_text: &str) -> String {
    format!("lemma {name}:\n  \"{formula_text}\"\n")
}

/// A run, or a graph with its edges. `exact` where some value is not canonical, so that it is kept as it stands.
pub fn run(
    name: &str,
    nodes: &[Node],
    edges: Option<&[Edge]>,
    names: &Names,
    protocol: &Protocol,
    kernel: &mut Kernel,
) -> String {
    let mut values = nodes.iter().flat_map(|node| &node.values);
    let canonical = values.all(|value| is_canonical(value, protocol, kernel));
    let word = if edges.is_some() { "graph" } else { "run" };
    let exact = if canonical { "" } else { " [exact]" };
    let mut out = format!("{word} {name}{exact}:\n");
    let style = Style::of(names);
    for (i, node) in nodes.iter().enumerate() {
        writeln!(out, "  {:>3}: {}", i + 1, style.node(node)).expect("a string takes all");
    }
    for (i, chunk) in edges
        .into_iter()
        .flat_map(|edges| edges.chunks(8))
        .enumerate()
    {
        let all: Vec<String> = chunk.iter().map(edge).collect();
        let head = if i == 0 { "  edges:\n" } else { "" };
        out += &format!("{head}    {},\n", all.join(", "));
    }
    if edges.is_some_and(<[Edge]>::is_empty) {
        out += "  edges:\n";
    }
    out
}

fn is_canonical(value: &Term, protocol: &Protocol, kernel: &mut Kernel) -> bool {
    kernel
        .canonical(value, protocol)
        .is_ok_and(|form| form.as_ref() == Some(value))
}

pub fn edge([source, conclusion, target, premise]: &Edge) -> String {
    format!("{source}.{conclusion} -> {target}.{premise}")
}
