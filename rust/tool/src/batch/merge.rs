//! Reports to one: those of shards line by line in turn, others one behind another. The result is the report that one run over all inputs writes.

use super::arguments::Merge;
use super::input::listed;
use super::report::*;
use crate::arguments::FailOn;
use crate::failure::{tell, Failure};
use std::collections::HashSet;
use std::path::{Path, PathBuf};

pub fn merge(given: &Merge) -> Result<i32, Failure> {
    let header = Header::by(&tool(&given.reports)?);
    let groups = groups(&given.reports)?;
    let output = Output::create(given.report.as_deref())?;
    let merged = Merged::of(&header, &groups, given.list.as_deref(), output);
    if let (Err(_), Some(path)) = (&merged, &given.report) {
        // Half of a merged report is of no use.
        let _ = std::fs::remove_file(path);
    }
    let totals = merged?.totals;
    if let Some(path) = &given.summary {
        Summary::new(&header, &totals, None).write(path)?;
    }
    tell(&words(&totals));
    let (attack, refused) = (totals.attack > 0, totals.refused > 0);
    Ok(FailOn::code(&given.fail_on, attack, refused))
}

/// The version of the tool that all reports are by: none is to hold rulings of two.
fn tool(reports: &[PathBuf]) -> Result<String, Failure> {
    let mut first: Option<(&Path, String)> = None;
    for path in reports {
        let (reader, Header { tool, .. }) = Reader::open(path)?;
        match &first {
            None => first = Some((path, tool)),
            Some((_, before)) if *before == tool => {}
            Some((other, before)) => {
                let other = other.display();
                let message = format!("this report is by {tool}, and {other} is by {before}; a report has rulings of one version");
                return Err(reader.failure(&message));
            }
        }
    }
    Ok(first.map_or(TOOL.into(), |(_, tool)| tool))
}

/// The reports whose lines stand in turn, in the order of their shards. Most groups have one.
type Group<'a> = Vec<&'a Path>;

fn groups(reports: &[PathBuf]) -> Result<Vec<Group<'_>>, Failure> {
    let mut groups = Vec::new();
    let mut rest = reports;
    while let Some(first) = rest.first() {
        let (_, header) = Reader::open(first)?;
        let parts = header.shard().map_or(1, |shard| shard.parts as usize);
        let (these, others) = rest.split_at(parts.min(rest.len()));
        groups.push(match header.shard {
            Some(_) => shards(these, parts)?,
            None => vec![first.as_path()],
        });
        rest = others;
    }
    Ok(groups)
}

/// The shards of one input, each once.
fn shards(reports: &[PathBuf], parts: usize) -> Result<Group<'_>, Failure> {
    let mut group = vec![None; parts];
    for path in reports {
        let (reader, header) = Reader::open(path)?;
        let shard = header.shard();
        let shard = shard.filter(|shard| shard.parts == parts as u64);
        let message = match shard.map(|shard| &mut group[shard.part as usize - 1]) {
            Some(place @ None) => {
                *place = Some(path.as_path());
                continue;
            }
            Some(Some(other)) => format!("{} is of the same shard", other.display()),
            None => format!(
                "this is no shard of {parts}, as {} is",
                reports[0].display()
            ),
        };
        return Err(reader.failure(&message));
    }
    let whole = group.into_iter().enumerate().map(|(place, path)| {
        let missing = || format!("shard {}/{parts} of its input is not given", place + 1);
        path.ok_or_else(|| Failure::file(&reports[0], missing()))
    });
    whole.collect()
}

struct Merged {
    output: Output,
    lines: Vec<u8>,
    totals: Totals,
    /// The inputs so far, and the one under way.
    inputs: HashSet<String>,
    input: Option<String>,
}

/// Written at once.
const MOST_BYTES: usize = 1 << 16;
const UNFINISHED: &str = "the report is unfinished; `levtosziv batch --resume` goes on with it";
const OTHER_SHARDS: &str = "the shards are not of one input: another one ended before";

impl Merged {
    fn of(
        header: &Header,
        groups: &[Group],
        list: Option<&Path>,
        output: Output,
    ) -> Result<Self, Failure> {
        let mut merged = Merged {
            output,
            lines: line(header),
            totals: Totals::default(),
            inputs: HashSet::new(),
            input: None,
        };
        for group in groups {
            merged.input = None;
            merged.group(group)?;
        }
        same_inputs(list, &merged.inputs)?;
        merged.lines.extend(end_line(&merged.totals));
        merged.flush()?;
        Ok(merged)
    }

    /// Takes a line of each report in turn, until one has ended; then all others have.
    fn group(&mut self, group: &Group) -> Result<(), Failure> {
        let readers = group.iter().map(|path| Ok(Reader::open(path)?.0));
        let mut readers = readers.collect::<Result<Vec<_>, Failure>>()?;
        let mut ended = 0;
        for place in 0.. {
            let reader = &mut readers[place % group.len()];
            match reader.next()? {
                Next::Unfinished => return Err(reader.failure(UNFINISHED)),
                Next::End => ended += 1,
                Next::Case(..) if ended > 0 => return Err(reader.failure(OTHER_SHARDS)),
                Next::Case(case, line) => {
                    let taken = self.case(&case, line);
                    taken.map_err(|message| reader.failure(&message))?;
                }
            }
            if self.lines.len() >= MOST_BYTES {
                self.flush()?;
            }
            if ended == group.len() {
                break;
            }
        }
        Ok(())
    }

    fn case(&mut self, case: &CaseLine, line: &[u8]) -> Result<(), String> {
        if self.input.as_deref() != Some(&*case.input) {
            let input = case.input.to_string();
            if !self.inputs.insert(input.clone()) {
                return Err(format!("cases of {input} stand in another place already"));
            }
            self.input = Some(input);
        }
        self.totals.add(&case.ruling, case.refusal);
        self.lines.extend_from_slice(line);
        Ok(())
    }

    fn flush(&mut self) -> Result<(), Failure> {
        self.output.write(&self.lines)?;
        self.lines.clear();
        Ok(())
    }
}

/// The inputs are those of the list.
fn same_inputs(list: Option<&Path>, inputs: &HashSet<String>) -> Result<(), Failure> {
    let Some(list) = list else {
        return Ok(());
    };
    let mut wanted = HashSet::new();
    for (number, path) in listed(Some(list))? {
        let name = path.to_string_lossy().into_owned();
        if !inputs.contains(&name) {
            let message = format!(
                "{}:{number}: no report has a case of {name}",
                list.display()
            );
            return Err(Failure::File(message));
        }
        wanted.insert(name);
    }
    match inputs.difference(&wanted).min() {
        Some(other) => {
            let message = format!("{other} has cases in the reports, and is not in the list");
            Err(Failure::file(list, message))
        }
        None => Ok(()),
    }
}
