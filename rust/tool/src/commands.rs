//! What the subcommands do.

use crate::answer::{answer, Answer};
use crate::arguments::*;
use crate::batch;
use crate::bytes;
use crate::case::*;
use crate::diagnose::diagnose;
use crate::failure::*;
use crate::kernel::{Kernel, Refusal};
use crate::layout;
use crate::man;
use crate::model::*;
use crate::page;
use crate::picture;
use crate::print::{self, Style};
use crate::render;
use crate::show;
use crate::table;
use crate::text;
use crate::watch::Watch;
use clap::{CommandFactory, Parser};
use signal_hook::consts::SIGINT;
use signal_hook::flag;
use std::borrow::Cow;
use std::io::{IsTerminal, Write};
use std::path::Path;
use std::sync::atomic::{AtomicBool, Ordering};
use std::sync::Arc;
use std::thread;

/// A check needs 573 KB of stack, and trees of 1,000 levels some more.
const STACK: usize = 64 << 20;

/// All that the program does.
pub fn program() {
    let arguments = Arguments::parse();
    let code = thread::Builder::new()
        .stack_size(STACK)
        .spawn(|| run(arguments).unwrap_or_else(|failure| failure.report()))
        .ok()
        .and_then(|thread| thread.join().ok());
    std::process::exit(code.unwrap_or(DISAGREEMENT));
}

fn run(arguments: Arguments) -> Result<i32, Failure> {
    match arguments.command {
        Command::Check(given) if given.watch => check_again(&given),
        Command::Check(given) => check(&given),
        Command::Build(given) => build(&given.text, &given.folder, &given.which.choice()),
        Command::Show { input, names } => {
            let (text, whole) = show::show(&input, names.as_deref())?;
            say(&text);
            Ok(if whole { DONE } else { NO_FILE })
        }
        Command::Draw(given) => draw(&given),
        Command::Term { term, theory } => canonical(&term, theory.as_deref()),
        Command::Picture(given) => draw_picture(&given),
        Command::Page(given) => write_page(&given),
        Command::Batch(given) => batch::batch(&given),
        Command::Merge(given) => batch::merge(&given),
        Command::Rules { text } => rules(&text),
        Command::Explain { number } => explain(number),
        Command::Fmt { text, write } => fmt(&text, write),
        Command::Completions { shell } => {
            let mut script = Vec::new();
            clap_complete::generate(shell, &mut Arguments::command(), "levtosziv", &mut script);
            say(&String::from_utf8_lossy(&script));
            Ok(DONE)
        }
        Command::Man => {
            let mut command = Arguments::command();
            command.build();
            say(&man::page(&command));
            Ok(DONE)
        }
    }
}

/// Whether the reader of standard output has gone away.
static GONE: AtomicBool = AtomicBool::new(false);

/// To standard output; what goes to a terminal is made visible, for all else it stays as it is. A reader that has gone away is no
/// failure; any other reason ends the program.
fn say(text: &str) {
    let mut out = std::io::stdout();
    let text = match out.is_terminal() {
        true => Cow::Owned(print::visible(text)),
        false => Cow::Borrowed(text),
    };
    let written = out.write_all(text.as_bytes()).and_then(|()| out.flush());
    if let Err(error) = written.or_else(ignore_closed) {
        std::process::exit(Failure::File(format!("standard output: {error}")).report());
    }
}

fn ignore_closed(error: std::io::Error) -> std::io::Result<()> {
    match error.kind() {
        std::io::ErrorKind::BrokenPipe => {
            GONE.store(true, Ordering::Relaxed);
            Ok(())
        }
        _ => Err(error),
    }
}

fn write(path: &Path, bytes: &[u8]) -> Result<(), Failure> {
    std::fs::write(path, bytes).map_err(|e| Failure::file(path, e))
}

fn check(given: &Check) -> Result<i32, Failure> {
    let form = if given.json { Form::Json } else { given.format };
    let cases = cases(&given.input, &given.which.choice(), given.names.as_deref())?;
    let (mut attack, mut refused) = (false, false);
    let mut disagreements = Vec::new();
    for case in &cases {
        let answer = answer(case);
        match form {
            Form::Line => say(&format!("{}\n", answer.line())),
            Form::Json => say(&format!("{}\n", answer.json())),
            Form::Words => say_words(&answer),
        }
        disagreements.extend(answer.disagreement());
        attack |= answer.word() == "attack";
        refused |= answer.word() == "refused";
    }
    let code = FailOn::code(&given.fail_on, attack, refused);
    disagreed(&disagreements).map_or(Ok(code), Err)
}

/// Rules on a text each time it is saved. What is wrong with it is told, and watching goes on.
fn check_again(given: &Check) -> Result<i32, Failure> {
    let (input, name) = (&given.input, given.input.display());
    if input.is_dir() {
        let message = format!("{name}: a text is watched, and this is a folder");
        return Err(Failure::Arguments(message));
    }
    // The first that applies ends the program.
    let differed = Arc::new(AtomicBool::new(false));
    let ends = [
        (DISAGREEMENT, Arc::clone(&differed)),
        (DONE, Arc::new(AtomicBool::new(true))),
    ];
    for (code, applies) in ends {
        flag::register_conditional_shutdown(SIGINT, code, applies)
            .map_err(|e| Failure::File(format!("Ctrl-C cannot be waited for: {e}")))?;
    }
    let watch = Watch::new(input)?;
    loop {
        let said = check(given).unwrap_or_else(|failure| failure.report());
        differed.fetch_or(said == DISAGREEMENT, Ordering::Relaxed);
        if GONE.load(Ordering::Relaxed) {
            let code = match differed.load(Ordering::Relaxed) {
                true => DISAGREEMENT,
                false => DONE,
            };
            return Ok(code);
        }
        tell(&format!("watching {name}; Ctrl-C ends it"));
        watch.saved()?;
        tell("");
    }
}

fn say_words(answer: &Answer) {
    let case = answer.case;
    say(&format!(
        "{} / {}: {}\n",
        case.title,
        case.lemma,
        answer.line()
    ));
    if let (Some(error), Some(places)) = (answer.located(), &case.places) {
        say(&places.source.message(&error));
        return;
    }
    for line in answer.words() {
        say(&format!("  {line}\n"));
    }
}

/// The one case that is asked for.
fn only_case(input: &Path, choice: &Choice, names: Option<&Path>) -> Result<Case, Failure> {
    let mut all = cases(input, choice, names)?;
    if all.len() > 1 {
        let known: Vec<String> = all
            .iter()
            .map(|case| format!("--run {} --lemma {}", case.title, case.lemma))
            .collect();
        let message = format!("which of these?\n  {}", known.join("\n  "));
        return Err(Failure::Arguments(message));
    }
    Ok(all.remove(0))
}

fn build(text: &Path, folder: &Path, choice: &Choice) -> Result<i32, Failure> {
    if text.is_dir() {
        let message = format!("{}: a text is built, and this is a folder", text.display());
        return Err(Failure::Arguments(message));
    }
    let case = only_case(text, choice, None)?;
    let source = case
        .places
        .as_ref()
        .map_or("", |places| &places.source.text);
    std::fs::create_dir_all(folder).map_err(|e| Failure::file(folder, e))?;
    write(&folder.join(PROTOCOL_FILE), &case.protocol_bytes)?;
    write(&folder.join(PROPERTY_FILE), &case.property_bytes)?;
    write(&folder.join(STEPS_FILE), &bytes::encode_steps(&case.nodes))?;
    write(&folder.join(THEORY_FILE), source.as_bytes())?;
    let graph = folder.join(GRAPH_FILE);
    match case.undrawn {
        None => write(&graph, &case.graph_bytes)?,
        Some(_) => {
            // A graph that lies there from before is not that of these steps.
            let _ = std::fs::remove_file(&graph);
            say_words(&answer(&case));
        }
    }
    Ok(DONE)
}

fn draw(given: &Draw) -> Result<i32, Failure> {
    let output = given.output.as_deref();
    let cases = match given.input.is_dir() {
        true => vec![steps_case(&given.input, given.names.as_deref())?],
        false => text_runs(&given.input, given.run.clone())?,
    };
    if output.is_some() && cases.len() > 1 {
        let known: Vec<&str> = cases.iter().map(|case| case.title.as_str()).collect();
        let message = format!("which of these runs? --run {}", known.join(", --run "));
        return Err(Failure::Arguments(message));
    }
    for case in &cases {
        match (case.undrawn, output) {
            (Some(refusal), _) => say_undrawn(case, &refusal),
            (None, Some(path)) => write(path, &case.graph_bytes)?,
            (None, None) => {
                let edges = Some(case.edges());
                let mut kernel = case.kernel();
                say(&print::run(
                    &case.title,
                    &case.nodes,
                    edges,
                    &case.names,
                    &case.protocol,
                    &mut kernel,
                ));
            }
        }
    }
    Ok(DONE)
}

/// A refusal of drawing, which no property has part in.
fn say_undrawn(case: &Case, refusal: &Refusal) {
    say(&format!("{}: {}\n", case.title, refusal_line(refusal)));
    let answer = Answer {
        case,
        ruling: Err(*refusal),
        reading: crate::witness::Reading::Silent,
        diagnosis: Some(diagnose(case, refusal)),
        hint: None,
    };
    match (answer.located(), &case.places) {
        (Some(error), Some(places)) => say(&places.source.message(&error)),
        _ => answer
            .words()
            .iter()
            .for_each(|line| say(&format!("  {line}\n"))),
    }
}

/// The runs of a text, each as a case without a property.
fn text_runs(input: &Path, run: Option<String>) -> Result<Vec<Case>, Failure> {
    let (source, theory) = read_theory(input)?;
    let choice = Choice { lemma: None, run };
    let protocol_bytes = bytes::encode_protocol(&theory.protocol);
    let mut kernel = Kernel::new(&protocol_bytes);
    let runs = chosen_runs(&theory, &choice)?;
    let case = |run: &&text::Run| {
        let mut drawn = drawn(run, &theory, &mut kernel);
        if drawn.steps_bytes.is_none() {
            // A graph's own edges are not looked at.
            let steps = bytes::encode_steps(&drawn.nodes);
            drawn.graph = kernel.draw(&steps);
            drawn.steps_bytes = Some(steps);
        }
        case_without_property(&source, &theory, &protocol_bytes, &drawn)
    };
    Ok(runs.iter().map(case).collect())
}

fn canonical(term: &str, theory: Option<&Path>) -> Result<i32, Failure> {
    let theory = match theory {
        Some(path) => Some(read_theory(path)?.1),
        None => None,
    };
    let source = Source {
        name: "term".into(),
        text: term.into(),
    };
    let (term, names) = match text::parse_term(term, theory.as_ref()) {
        Ok(parsed) => parsed,
        Err(error) => return Err(Failure::Text(Box::new((source, error)))),
    };
    let protocol = theory.map(|theory| theory.protocol).unwrap_or_default();
    let mut kernel = Kernel::new(&bytes::encode_protocol(&protocol));
    match kernel.canonical(&term, &protocol) {
        Ok(Some(form)) => say(&format!("{}\n", Style::of(&names).term(&form))),
        Ok(None) => {
            let message = "the core's answer is no term".to_string();
            return Err(Failure::Disagreement(message));
        }
        Err(refusal) => {
            say(&format!("{}\n", refusal_line(&refusal)));
            if let Some(row) = table::row(refusal.number) {
                say(&format!("  Refused: {}.\n", row.cause.words()));
            }
        }
    }
    Ok(DONE)
}

fn draw_picture(given: &Picture) -> Result<i32, Failure> {
    let case = only_case(&given.input, &given.which.choice(), given.names.as_deref())?;
    let (output, simplify) = (&given.output, given.simplify);
    let answer = answer(&case);
    let ending = output.extension().map(|ending| ending.to_string_lossy());
    let picture = match ending.as_deref() {
        Some("json") => picture::json(&answer).into_bytes(),
        Some("dot") => picture::dot(&answer, simplify).into_bytes(),
        Some(format @ ("svg" | "png" | "pdf")) => {
            render::render(&picture::dot(&answer, simplify), format).map_err(Failure::File)?
        }
        _ => {
            let message = "a picture's file ends in .dot, .svg, .png, .pdf or .json";
            return Err(Failure::Arguments(message.into()));
        }
    };
    write(output, &picture)?;
    match answer.disagreement() {
        Some(message) => Err(Failure::Disagreement(message)),
        None => Ok(DONE),
    }
}

fn write_page(given: &Page) -> Result<i32, Failure> {
    let (choice, names) = (given.which.choice(), given.names.as_deref());
    let Some((output, inputs @ [_, ..])) = given.paths.split_last() else {
        let message = "a page is made of an INPUT, and written to an OUTPUT";
        return Err(Failure::Arguments(message.into()));
    };
    // So that a forgotten OUTPUT does not cost a text.
    if output.extension().is_none_or(|ending| ending != "html") {
        return Err(Failure::Arguments("a page's file ends in .html".into()));
    }
    let mut cases = Vec::new();
    for input in inputs {
        cases.extend(page::all_cases(input, &choice, names)?);
    }
    let answers: Vec<Answer> = cases.iter().map(answer).collect();
    let (html, missing) = page::html(&answers);
    if let Some(why) = missing.first() {
        tell(&format!(
            "note: {} of {} pictures are missing: {why}",
            missing.len(),
            cases.len()
        ));
    }
    write(output, html.as_bytes())?;
    let disagreements: Vec<String> = answers.iter().filter_map(Answer::disagreement).collect();
    disagreed(&disagreements).map_or(Ok(DONE), Err)
}

/// The failure that the tool reads properties otherwise than the core.
fn disagreed(sentences: &[String]) -> Option<Failure> {
    (!sentences.is_empty()).then(|| Failure::Disagreement(sentences.join("\n")))
}

fn rules(path: &Path) -> Result<i32, Failure> {
    let (_, theory) = read_theory(path)?;
    let (protocol, names) = (&theory.protocol, &theory.names);
    for number in protocol.rule_numbers() {
        let Some(rule) = protocol.rule(number) else {
            continue;
        };
        let variables = names.rule_variables(number, rule.sorts.len());
        let style = Style {
            names,
            variables: Some((&variables, &rule.sorts)),
        };
        let parameters = (0..rule.sorts.len() as u32).map(|n| style.term(&Term::Variable(n)));
        let parameters: Vec<String> = parameters.collect();
        let part = |facts: &[Fact]| style.facts(facts, protocol);
        say(&format!(
            "{number:>3} {}({}): [{}] --[{}]-> [{}]\n",
            names.rule(number),
            parameters.join(", "),
            part(&rule.premises),
            part(&rule.actions),
            part(&rule.conclusions)
        ));
    }
    Ok(DONE)
}

fn explain(number: u32) -> Result<i32, Failure> {
    let Some(row) = table::row(number) else {
        let message = format!(
            "there is no refusal {number}; the table has 1 to {}",
            table::ROWS.len()
        );
        return Err(Failure::Arguments(message));
    };
    say(&format!("refused {number}: {}\n", row.cause.words()));
    say(&format!("The item is {}.\n{}\n", row.item, (row.advice)()));
    if !row.example.is_empty() {
        say("\nFor example, this text is refused so:\n\n");
        row.example
            .lines()
            .for_each(|line| say(&format!("    {line}\n")));
    }
    Ok(DONE)
}

fn fmt(path: &Path, in_place: bool) -> Result<i32, Failure> {
    let (source, _) = read_theory(path)?;
    let laid_out = match layout::layout(&source.text) {
        Ok(text) => text,
        Err(error) => return Err(Failure::Text(Box::new((source, error)))),
    };
    match in_place {
        true => write(path, laid_out.as_bytes())?,
        false => say(&laid_out),
    }
    Ok(DONE)
}
