//! One HTML file for a browser: verdicts in words, properties, pictures and steps, of one case or of many. It has no script and refers
//! to nothing outside itself; its policy forbids both, and any style but its own.

mod steps;

use crate::answer::{Answer, UNREAD};
use crate::case::{cases, Case, Choice, PROTOCOL_FILE};
use crate::failure::Failure;
use crate::picture;
use crate::print::{self, visible};
use crate::render;
use crate::table;
use crate::witness::{Reading, Witness};
use std::collections::HashSet;
use std::path::{Path, PathBuf};
use std::thread;

const STYLE: &str = include_str!("page.css");
/// The digest of `STYLE`, by which the policy lets it through.
const STYLE_DIGEST: &str = "sha256-WXijxKupfO5HQWat2i20fS2gffyqJOGJyXVXteQJrwQ=";

/// The cases of an input: those of a text, the one of a folder, or those of the folders in it.
pub fn all_cases(
    input: &Path,
    choice: &Choice,
    names: Option<&Path>,
) -> Result<Vec<Case>, Failure> {
    let inside = match input.is_dir() && !input.join(PROTOCOL_FILE).exists() {
        true => folders(input)?,
        false => Vec::new(),
    };
    if inside.is_empty() {
        return cases(input, choice, names);
    }
    let mut all = Vec::new();
    for folder in inside {
        all.extend(cases(&folder, choice, names)?);
    }
    Ok(all)
}

/// The folders in a folder that have a protocol, by name.
fn folders(folder: &Path) -> Result<Vec<PathBuf>, Failure> {
    let unread = |e: std::io::Error| Failure::File(format!("{}: {e}", folder.display()));
    let mut all = Vec::new();
    for entry in std::fs::read_dir(folder).map_err(unread)? {
        all.push(entry.map_err(unread)?.path());
    }
    all.retain(|path| path.join(PROTOCOL_FILE).exists());
    all.sort();
    Ok(all)
}

/// The page, and why pictures are missing from it.
pub fn html(answers: &[Answer]) -> (String, Vec<String>) {
    let pictures = pictures(answers);
    let page = with_pictures(answers, &pictures);
    (page, pictures.into_iter().filter_map(Result::err).collect())
}

/// The page with the picture of each case, or with why there is none.
pub fn with_pictures(answers: &[Answer], pictures: &[Result<String, String>]) -> String {
    let titles = titles(answers);
    let mut protocols: Vec<String> = Vec::new();
    let mut body = match answers {
        [_] => String::new(),
        _ => index(answers, &titles),
    };
    for (i, (answer, picture)) in answers.iter().zip(pictures).enumerate() {
        let text = print::protocol(&answer.case.protocol, &answer.case.names);
        let known = protocols.iter().position(|protocol| *protocol == text);
        let protocol = known.unwrap_or_else(|| {
            protocols.push(text);
            protocols.len() - 1
        });
        let section = Section {
            answer,
            case: answer.case,
            title: &titles[i],
            id: case_id(i + 1),
            alone: answers.len() == 1,
        };
        body += &section.html(picture, protocol + 1);
    }
    for (i, protocol) in protocols.iter().enumerate() {
        body += &protocol_section(i + 1, protocols.len(), protocol);
    }
    document(&title(answers), &body)
}

fn document(title: &str, body: &str) -> String {
    let policy = format!(
        "default-src 'none'; style-src '{STYLE_DIGEST}'; base-uri 'none'; form-action 'none'"
    );
    format!(
        "<!doctype html>
<html lang=\"en\">
<head>
<meta charset=\"utf-8\">
<meta http-equiv=\"Content-Security-Policy\" content=\"{policy}\">
<meta name=\"viewport\" content=\"width=device-width, initial-scale=1\">
<title>{}</title>
<style>{STYLE}</style>
</head>
<body>
<main>
{body}</main>
</body>
</html>
",
        escape(title)
    )
}

/// Text as HTML takes it, in attributes too.
fn escape(text: &str) -> String {
    let mut out = String::with_capacity(text.len());
    for c in visible(text).chars() {
        match c {
            '&' => out += "&amp;",
            '<' => out += "&lt;",
            '>' => out += "&gt;",
            '"' => out += "&quot;",
            '\'' => out += "&#39;",
            c => out.push(c),
        }
    }
    out
}

/// A sentence, in which names stand between backticks.
fn sentence(text: &str) -> String {
    let parts: Vec<String> = text.split('`').map(escape).collect();
    if parts.len().is_multiple_of(2) {
        return escape(text);
    }
    let quoted = |(i, part): (usize, &String)| match i % 2 {
        0 => part.clone(),
        _ => format!("<code>{part}</code>"),
    };
    parts.iter().enumerate().map(quoted).collect()
}

fn title(answers: &[Answer]) -> String {
    match answers {
        [one] => format!("{} / {}: {}", one.case.title, one.case.lemma, one.line()),
        _ => counts(answers),
    }
}

/// "3 cases: 1 attack, 1 run, 1 refused"
fn counts(answers: &[Answer]) -> String {
    let count = |word: &str| answers.iter().filter(|a| a.word() == word).count();
    let plural = |n: usize, word: &str| format!("{n} {word}{}", if n == 1 { "" } else { "s" });
    format!(
        "{}: {}, {}, {} refused",
        plural(answers.len(), "case"),
        plural(count("attack"), "attack"),
        plural(count("run"), "run"),
        count("refused")
    )
}

/// What the cases are called: behind the name of their text, where there are several.
fn titles(answers: &[Answer]) -> Vec<String> {
    let text = |answer: &Answer| {
        let places = answer.case.places.as_ref()?;
        let name = Path::new(&places.source.name).file_name()?;
        Some((
            places.source.name.clone(),
            name.to_string_lossy().into_owned(),
        ))
    };
    let texts: HashSet<_> = answers.iter().map(text).collect();
    let title = |answer: &Answer| match text(answer) {
        Some((_, name)) if texts.len() > 1 => format!("{name}: {}", answer.case.title),
        _ => answer.case.title.clone(),
    };
    answers.iter().map(title).collect()
}

/// The counts, and a row for each case.
fn index(answers: &[Answer], titles: &[String]) -> String {
    let mut out = format!("<h1 id=\"index\">{}</h1>\n<table class=\"index\">\n<thead><tr><th scope=\"col\">Case</th><th scope=\"col\">Property</th><th scope=\"col\">Ruling</th></tr></thead>\n<tbody>\n", counts(answers));
    for (i, answer) in answers.iter().enumerate() {
        out += &format!(
            "<tr class=\"{}\"><td><a href=\"#case{}\">{}</a></td><td>{}</td><td><span class=\"ruling\">{}</span></td></tr>\n",
            answer.word(),
            i + 1,
            escape(&titles[i]),
            escape(&answer.case.lemma),
            answer.line()
        );
    }
    out + "</tbody>\n</table>\n"
}

/// The picture of each case as SVG, or why there is none. Graphviz is another program, so several are made at a time.
fn pictures(answers: &[Answer]) -> Vec<Result<String, String>> {
    let dot = |(i, answer): (usize, &Answer)| picture::dot_on_page(answer, &case_id(i + 1));
    let dots: Vec<String> = answers.iter().enumerate().map(dot).collect();
    let threads = thread::available_parallelism().map_or(1, usize::from);
    let share = |k: usize| -> Vec<Result<String, String>> {
        let dots = dots.iter().skip(k).step_by(threads);
        dots.map(|dot| svg(dot)).collect()
    };
    let mut shares: Vec<_> = thread::scope(|scope| {
        let share = &share;
        let start = |k| scope.spawn(move || share(k));
        let running: Vec<_> = (0..threads).map(start).collect();
        let made = running.into_iter().map(|share| share.join());
        made.map(|share| share.unwrap_or_default().into_iter())
            .collect()
    });
    let none = || Err("no picture was made".into());
    (0..dots.len())
        .map(|i| shares[i % threads].next().unwrap_or_else(none))
        .collect()
}

/// The picture's element, without what stands before it in a file.
fn svg(dot: &str) -> Result<String, String> {
    let file = String::from_utf8_lossy(&render::render(dot, "svg")?).into_owned();
    match file.find("<svg") {
        Some(start) => Ok(file[start..].to_string()),
        None => Err("Graphviz made no SVG".into()),
    }
}

/// What the ids of a case on the page begin with.
fn case_id(number: usize) -> String {
    format!("case{number}")
}

fn protocol_section(number: usize, of: usize, protocol: &str) -> String {
    let heading = match of {
        1 => "Protocol".to_string(),
        _ => format!("Protocol {number}"),
    };
    format!(
        "<section id=\"protocol{number}\">\n<h2>{heading}</h2>\n<pre tabindex=\"0\">{}</pre>\n</section>\n",
        escape(protocol)
    )
}

/// One case on the page.
struct Section<'a> {
    answer: &'a Answer<'a>,
    case: &'a Case,
    title: &'a str,
    id: String,
    /// Whether it is the only one.
    alone: bool,
}

impl Section<'_> {
    fn html(&self, picture: &Result<String, String>, protocol: usize) -> String {
        let id = &self.id;
        let (level, below, index) = match self.alone {
            true => (1, 2, ""),
            false => (2, 3, " · <a href=\"#index\">All cases</a>"),
        };
        let drawn = self.case.refused_step().unwrap_or(self.case.nodes.len());
        let in_picture = if picture.is_ok() { drawn } else { 0 };
        format!(
            "<section id=\"{id}\" class=\"{}\">
<h{level}>{} <small>/ {}</small></h{level}>
<div class=\"verdict\">
{}<p><span class=\"ruling\">{}</span></p>
</div>
<h{below}>Property</h{below}>
{}<h{below}>Graph</h{below}>
{}<h{below}>Steps</h{below}>
{}<p><a href=\"#protocol{protocol}\">The protocol&#39;s rules</a>{index}</p>
</section>
",
            self.answer.word(),
            escape(self.title),
            escape(&self.case.lemma),
            self.verdict(),
            self.answer.line(),
            self.property(),
            self.picture(picture),
            steps::table(self.answer, id, in_picture)
        )
    }

    fn verdict(&self) -> String {
        let paragraph = |text: &str| format!("<p>{}</p>\n", sentence(text));
        if let Some(disagreement) = self.answer.disagreement() {
            return paragraph(&disagreement);
        }
        let ruling = self.answer.sentence();
        let mut out = ruling.map_or(String::new(), |ruling| {
            format!("<p><strong>{}</strong></p>\n", sentence(&ruling))
        });
        match &self.answer.reading {
            _ if self.answer.refusal().is_some() => out += &self.reasons(),
            Reading::Agrees(Some(witness)) => out += &self.witness(witness),
            Reading::Silent => out += &paragraph(UNREAD),
            _ => {}
        }
        if let Some(hint) = &self.answer.hint {
            out += &paragraph(hint);
        }
        out
    }

    /// The actions that make the property false, each with its step.
    fn witness(&self, witness: &Witness) -> String {
        let mut rows = Vec::new();
        for found in &witness.matches {
            rows.push(format!(
                "{} ({}): <code>{}</code>",
                steps::link(&self.id, found.node, &format!("step {}", found.node)),
                steps::rule(&self.case.names, &self.case.nodes[found.node - 1]),
                escape(&found.fact)
            ));
        }
        for missing in &witness.missing {
            let missing = escape(missing);
            rows.push(format!("there is no <code>{missing}</code> as it asks for"));
        }
        match rows.is_empty() {
            true => String::new(),
            false => format!("<p>It is false by:</p>\n{}", list(&rows)),
        }
    }

    /// Why a case is refused, and where in its text.
    fn reasons(&self) -> String {
        let reasons = self.answer.diagnosis.iter().flat_map(|d| &d.reasons);
        let reasons: Vec<String> = reasons.map(|reason| escape(reason)).collect();
        let mut out = list(&reasons);
        if let (Some(error), Some(places)) = (self.answer.located(), &self.case.places) {
            let message = places.source.message(&error);
            let message = escape(message.trim_end());
            out += &format!("<pre tabindex=\"0\">{message}</pre>\n");
        }
        let row = self.answer.refusal().and_then(|r| table::row(r.number));
        if let Some(row) = row {
            out += &format!("<p>{}</p>\n", escape(&(row.advice)()));
        }
        out
    }

    /// The property as written, and as judged where that differs.
    fn property(&self) -> String {
        let pre = |text: &str| format!("<pre tabindex=\"0\">{}</pre>\n", escape(text));
        let (written, judged) = (self.answer.written(), self.answer.judged());
        let differs = written != judged;
        let mut out = self.case.as_written.as_deref().map_or(String::new(), pre);
        if let Some(judged) = judged.filter(|_| differs) {
            if written.is_some() {
                out += "<p>It is judged in this form:</p>\n";
            }
            out += &pre(&judged);
        }
        match out.is_empty() {
            true => "<p>There is no property that can be read.</p>\n".into(),
            false => out,
        }
    }

    fn picture(&self, picture: &Result<String, String>) -> String {
        let id = &self.id;
        match picture {
            Err(why) => format!("<p>There is no picture: {}.</p>\n", escape(why)),
            Ok(svg) => format!(
                "<div class=\"graph\">
<input type=\"checkbox\" id=\"{id}fit\"><label for=\"{id}fit\">fit to the width</label>
<div class=\"picture\" tabindex=\"0\" role=\"group\" aria-label=\"the graph&#39;s picture; its steps stand in the table below\">
{svg}</div>
</div>
"
            ),
        }
    }
}

fn list(rows: &[String]) -> String {
    match rows.is_empty() {
        true => String::new(),
        false => format!("<ul>\n<li>{}</li>\n</ul>\n", rows.join("</li>\n<li>")),
    }
}
