//! Random written formulas, with several guards, brackets and negations: their meaning over a trace, by its words, is the core's ruling
//! of what the tool makes of them. This is the one place where the tool could change a meaning.

mod common;

use common::*;
use reference::random::Random;
use tool::answer::answer;
use tool::case::{cases, Choice};
use tool::kernel::Ruling;
use tool::witness::Reading;

const FORMULAS: usize = 1_000;

/// The actions of each step of the run below: name and messages.
const TRACE: [&[(&str, &[&str])]; 4] = [
    &[("A", &["p1"]), ("B", &["p1", "p2"])],
    &[("A", &["p2"]), ("B", &["p2", "p2"])],
    &[],
    &[("A", &["p1"]), ("B", &["p1", "p1"])],
];
const THEORY: &str = "facts: A/1, B/2
rule S: [ ] --[ A($x), B($x, $y) ]-> [ ]
rule N: [ ] --> [ ]
run r: S('p1', 'p2') S('p2', 'p2') N() S('p1', 'p1')
";
/// Messages and times enough for every guard to hold and to fail.
const MESSAGES: [&str; 4] = ["p0", "p1", "p2", "p9"];
const TIMES: usize = 6;

#[derive(Clone)]
enum Argument {
    Variable(String),
    Public(&'static str),
}

#[derive(Clone)]
struct Action {
    name: &'static str,
    arguments: Vec<Argument>,
    time: String,
}

/// A variable: its name, and whether it is a time.
type Variable = (String, bool);

#[derive(Clone)]
enum Formula {
    False,
    True,
    Equal(Argument, Argument),
    Before(String, String),
    SameTime(String, String),
    Action(Action),
    Not(Box<Formula>),
    Brackets(Box<Formula>),
    And(Box<Formula>, Box<Formula>),
    Or(Box<Formula>, Box<Formula>),
    Implies(Box<Formula>, Box<Formula>),
    All(Vec<Variable>, Box<Formula>),
    Exists(Vec<Variable>, Box<Formula>),
}

struct Maker {
    random: Random,
    count: usize,
}

impl Maker {
    fn new_variable(&mut self, time: bool) -> Variable {
        self.count += 1;
        let letter = if time { "t" } else { "m" };
        (format!("{letter}{}", self.count), time)
    }

    fn pick(&mut self, scope: &[Variable], time: bool) -> Option<String> {
        let all: Vec<&Variable> = scope.iter().filter(|v| v.1 == time).collect();
        (!all.is_empty()).then(|| self.random.choose(&all).0.clone())
    }

    fn argument(&mut self, scope: &[Variable]) -> Argument {
        match self.pick(scope, false) {
            Some(name) if self.random.percent(80) => Argument::Variable(name),
            _ => Argument::Public(MESSAGES[1 + self.random.below(3)]),
        }
    }

    fn atom(&mut self, scope: &[Variable]) -> Formula {
        let equal = |maker: &mut Self| Formula::Equal(maker.argument(scope), maker.argument(scope));
        let (Some(time), Some(other)) = (self.pick(scope, true), self.pick(scope, true)) else {
            return match self.random.below(3) {
                0 => Formula::False,
                1 => Formula::True,
                _ => equal(self),
            };
        };
        match self.random.below(6) {
            0 => Formula::Before(time, other),
            1 => Formula::SameTime(time, other),
            2 => equal(self),
            more => {
                let arity = 1 + more % 2;
                let arguments = (0..arity).map(|_| self.argument(scope)).collect();
                Formula::Action(action(arguments, time))
            }
        }
    }

    fn formula(&mut self, scope: &[Variable], depth: usize) -> Formula {
        if depth == 0 || self.random.percent(15) || scope.len() > 6 {
            return self.atom(scope);
        }
        match self.random.below(6) {
            0 => Formula::Not(Box::new(self.formula(scope, depth - 1))),
            1 | 2 => {
                let first = Box::new(self.formula(scope, depth - 1));
                let second = Box::new(self.formula(scope, depth - 1));
                match self.random.below(3) {
                    0 => Formula::And(first, second),
                    1 => Formula::Or(first, second),
                    _ => Formula::Implies(first, second),
                }
            }
            _ => self.quantified(scope, depth),
        }
    }

    /// One to three actions that hold all new variables, in any order, some in brackets, perhaps with another atom among them.
    fn quantified(&mut self, scope: &[Variable], depth: usize) -> Formula {
        let mut new = Vec::new();
        let mut parts = Vec::new();
        for _ in 0..*self.random.choose(&[1, 1, 2, 3]) {
            parts.push(self.guard(scope, &mut new));
        }
        let inner = [scope, &new].concat();
        if self.random.percent(40) {
            parts.push(self.atom(&inner));
        }
        if self.random.percent(50) {
            let place = self.random.below(parts.len());
            parts.rotate_left(place);
        }
        new.reverse();
        let guards = self.conjunction(parts);
        let kind = self.random.below(4);
        let body = Box::new(self.formula(&inner, depth - 1));
        match kind {
            0 => Formula::All(new, Box::new(Formula::Implies(guards, body))),
            1 => Formula::Exists(new, Box::new(Formula::And(guards, body))),
            2 => Formula::All(new, Box::new(Formula::Not(guards))),
            _ => Formula::Exists(new, guards),
        }
    }

    fn guard(&mut self, scope: &[Variable], new: &mut Vec<Variable>) -> Formula {
        let around = [scope, &new[..]].concat();
        let time = match self.pick(&around, true) {
            Some(time) if self.random.percent(30) => time,
            _ => {
                new.push(self.new_variable(true));
                new[new.len() - 1].0.clone()
            }
        };
        let mut arguments = Vec::new();
        for _ in 0..1 + self.random.below(2) {
            arguments.push(match self.random.percent(60) {
                true => {
                    new.push(self.new_variable(false));
                    Argument::Variable(new[new.len() - 1].0.clone())
                }
                false => self.argument(&[scope, &new[..]].concat()),
            });
        }
        Formula::Action(action(arguments, time))
    }

    fn conjunction(&mut self, mut parts: Vec<Formula>) -> Box<Formula> {
        let mut all = parts.pop().unwrap();
        while let Some(part) = parts.pop() {
            let part = match self.random.percent(20) {
                true => Formula::Brackets(Box::new(part)),
                false => part,
            };
            all = match self.random.percent(30) {
                true => Formula::And(Box::new(Formula::Brackets(Box::new(all))), Box::new(part)),
                false => Formula::And(Box::new(part), Box::new(all)),
            };
        }
        Box::new(all)
    }
}

fn action(arguments: Vec<Argument>, time: String) -> Action {
    let name = if arguments.len() == 1 { "A" } else { "B" };
    Action {
        name,
        arguments,
        time,
    }
}

fn argument_text(argument: &Argument) -> String {
    match argument {
        Argument::Variable(name) => name.clone(),
        Argument::Public(name) => format!("'{name}'"),
    }
}

fn quantifier_text(word: &str, new: &[Variable], body: &Formula) -> String {
    let sign = |(name, time): &Variable| format!("{}{name}", if *time { "#" } else { "" });
    let new: Vec<String> = new.iter().map(sign).collect();
    format!("{word} {}. {}", new.join(" "), text(body))
}

fn text(formula: &Formula) -> String {
    // A conjunction's right side stands without brackets, so that the tool sees the whole chain.
    let side = |f: &Formula, in_and: bool| match f {
        Formula::Action(_) | Formula::Brackets(_) => text(f),
        Formula::And(..) if in_and => text(f),
        _ => format!("({})", text(f)),
    };
    match formula {
        Formula::False => "F".into(),
        Formula::True => "T".into(),
        Formula::Equal(a, b) => format!("{} = {}", argument_text(a), argument_text(b)),
        Formula::Before(a, b) => format!("#{a} < #{b}"),
        Formula::SameTime(a, b) => format!("#{a} = #{b}"),
        Formula::Action(Action {
            name,
            arguments,
            time,
        }) => {
            let arguments: Vec<String> = arguments.iter().map(argument_text).collect();
            format!("{name}({}) @ {time}", arguments.join(", "))
        }
        Formula::Not(f) => format!("not ({})", text(f)),
        Formula::Brackets(f) => format!("({})", text(f)),
        Formula::And(a, b) => format!("{} & {}", side(a, false), side(b, true)),
        Formula::Or(a, b) => format!("{} | {}", side(a, false), side(b, false)),
        Formula::Implies(a, b) => format!("{} ==> {}", side(a, true), side(b, false)),
        Formula::All(new, body) => quantifier_text("All", new, body),
        Formula::Exists(new, body) => quantifier_text("Ex", new, body),
    }
}

/// What the variables stand for: messages by name, times by number.
#[derive(Clone, Default)]
struct Scope {
    messages: Vec<(String, &'static str)>,
    times: Vec<(String, usize)>,
}

fn found<T: Copy>(all: &[(String, T)], name: &str) -> T {
    all.iter().rev().find(|(known, _)| known == name).unwrap().1
}

fn message(argument: &Argument, scope: &Scope) -> &'static str {
    match argument {
        Argument::Variable(name) => found(&scope.messages, name),
        Argument::Public(name) => name,
    }
}

/// The meaning of a formula, by its words.
fn holds(formula: &Formula, scope: &Scope) -> bool {
    let time = |name: &String| found(&scope.times, name);
    match formula {
        Formula::False => false,
        Formula::True => true,
        Formula::Equal(a, b) => message(a, scope) == message(b, scope),
        Formula::Before(a, b) => time(a) < time(b),
        Formula::SameTime(a, b) => time(a) == time(b),
        Formula::Action(action) => {
            let is = |a: &Argument| message(a, scope);
            let arguments: Vec<&str> = action.arguments.iter().map(is).collect();
            let actions = time(&action.time).checked_sub(1).and_then(|i| TRACE.get(i));
            actions.is_some_and(|all| all.contains(&(action.name, &arguments[..])))
        }
        Formula::Not(f) => !holds(f, scope),
        Formula::Brackets(f) => holds(f, scope),
        Formula::And(a, b) => holds(a, scope) && holds(b, scope),
        Formula::Or(a, b) => holds(a, scope) || holds(b, scope),
        Formula::Implies(a, b) => !holds(a, scope) || holds(b, scope),
        Formula::All(new, body) => !some(new, scope, &|scope| !holds(body, scope)),
        Formula::Exists(new, body) => some(new, scope, &|scope| holds(body, scope)),
    }
}

/// Whether some messages and times for the variables pass.
fn some(new: &[Variable], scope: &Scope, test: &dyn Fn(&Scope) -> bool) -> bool {
    let Some(((name, time), rest)) = new.split_first() else {
        return test(scope);
    };
    match time {
        true => (0..TIMES).any(|value| {
            let mut scope = scope.clone();
            scope.times.push((name.clone(), value));
            some(rest, &scope, test)
        }),
        false => MESSAGES.iter().any(|value| {
            let mut scope = scope.clone();
            scope.messages.push((name.clone(), value));
            some(rest, &scope, test)
        }),
    }
}

#[test]
fn written_formulas_keep_their_meaning() {
    let mut maker = Maker {
        random: Random::new(3),
        count: 0,
    };
    let formulas: Vec<Formula> = (0..FORMULAS).map(|_| maker.formula(&[], 4)).collect();
    let mut theory = String::from(THEORY);
    for (i, formula) in formulas.iter().enumerate() {
        theory += &format!("lemma l{i}: \"{}\"\n", text(formula));
    }
    let file = folder("formulas").join("formulas.lev");
    std::fs::write(&file, theory).unwrap();
    let cases = cases(&file, &Choice::default(), None).unwrap();
    assert_eq!(cases.len(), FORMULAS);
    let (mut attacks, mut runs) = (0, 0);
    for (case, formula) in cases.iter().zip(&formulas) {
        let answer = answer(case);
        assert_ne!(answer.reading, Reading::Differs, "{}", text(formula));
        match answer.ruling {
            Ok(Ruling::Attack(_)) => attacks += 1,
            Ok(Ruling::Run(_)) => runs += 1,
            // Over the limits of the files.
            Err(_) => continue,
        }
        let run = matches!(answer.ruling, Ok(Ruling::Run(_)));
        assert_eq!(run, holds(formula, &Scope::default()), "{}", text(formula));
    }
    assert!(
        attacks > FORMULAS / 5 && runs > FORMULAS / 5,
        "{attacks}, {runs}"
    );
    assert!(attacks + runs > FORMULAS * 9 / 10, "{attacks}, {runs}");
}
