//! Graphviz as a program: dot, and where dot takes too long, levels without a search for the best places.

use std::collections::HashMap;
use std::io::{Read, Write};
use std::process::{Child, Command, Stdio};
use std::sync::mpsc;
use std::thread;
use std::time::Duration;

/// How long each program gets.
const PATIENCE: Duration = Duration::from_secs(10);
/// In points: from level to level, for each character of a label, and between two nodes.
const LEVEL_HEIGHT: f64 = 110.0;
const CHARACTER_WIDTH: f64 = 4.5;
const GAP: f64 = 24.0;

/// The picture of a DOT text, in one of Graphviz' formats.
pub fn render(dot: &str, format: &str) -> Result<Vec<u8>, String> {
    if let Some(picture) = graphviz("dot", &[], dot, format)? {
        return Ok(picture);
    }
    let picture = graphviz("neato", &["-n2", "-Gsplines=line"], &placed(dot), format)?;
    picture.ok_or_else(|| "the graph is too large for a picture; .dot and .json hold it".into())
}

/// The picture, or nothing where that takes too long.
fn graphviz(
    program: &str,
    arguments: &[&str],
    dot: &str,
    format: &str,
) -> Result<Option<Vec<u8>>, String> {
    let mut child = Command::new(program)
        .args(arguments)
        .arg(format!("-T{format}"))
        .stdin(Stdio::piped())
        .stdout(Stdio::piped())
        .stderr(Stdio::null())
        .spawn()
        .map_err(|e| {
            format!(
                "Graphviz' {program} cannot be run ({e}); Debian has it in the package graphviz"
            )
        })?;
    let output = read_all(&mut child, dot);
    match output.recv_timeout(PATIENCE) {
        Ok(picture) => match child.wait() {
            Ok(status) if status.success() => Ok(Some(picture)),
            _ => Err(format!("{program} made no picture")),
        },
        Err(_) => {
            // It may have ended by itself just then.
            let _ = child.kill();
            let _ = child.wait();
            Ok(None)
        }
    }
}

/// Feeds the child and reads it, each on a thread, so that neither waits for the other.
fn read_all(child: &mut Child, dot: &str) -> mpsc::Receiver<Vec<u8>> {
    let (send, receive) = mpsc::channel();
    if let Some(mut input) = child.stdin.take() {
        let text = dot.to_string();
        // A child that ends early says so by its status.
        thread::spawn(move || input.write_all(text.as_bytes()));
    }
    if let Some(mut output) = child.stdout.take() {
        thread::spawn(move || {
            let mut all = Vec::new();
            if output.read_to_end(&mut all).is_ok() {
                let _ = send.send(all);
            }
        });
    }
    receive
}

/// The nodes that an edge's line joins.
fn ends(line: &str) -> Option<(u32, u32)> {
    let (source, target) = line.trim().split_once(" -> ")?;
    let number = |end: &str| end.strip_prefix('n')?.split(':').next()?.parse().ok();
    Some((number(source)?, number(target)?))
}

/// A node's line: its number, and what stands behind the opening bracket.
fn node(line: &str) -> Option<(u32, &str)> {
    let (number, rest) = line.strip_prefix("  n")?.split_once(" [")?;
    Some((number.parse().ok()?, rest))
}

/// The width of a node in points, by the longest row of its label.
fn width(rest: &str) -> f64 {
    let label = rest.split("label=").last().unwrap_or_default();
    let longest = label.split("}|{").map(str::len).max().unwrap_or(0);
    longest as f64 * CHARACTER_WIDTH + GAP
}

/// The level of each node that has an edge into it: the longest way from a source.
fn levels(dot: &str) -> HashMap<u32, u32> {
    let mut edges: Vec<(u32, u32)> = dot.lines().filter_map(ends).collect();
    edges.sort_by_key(|(_, target)| *target);
    let mut levels: HashMap<u32, u32> = HashMap::new();
    for (source, target) in edges {
        let below = levels.get(&source).map_or(1, |level| level + 1);
        let here = levels.entry(target).or_insert(0);
        *here = (*here).max(below);
    }
    levels
}

/// The DOT text with a place for each node: its level, and side by side there, about the middle.
fn placed(dot: &str) -> String {
    let levels = levels(dot);
    let level = |number: u32| levels.get(&number).copied().unwrap_or(0);
    let mut next: HashMap<u32, f64> = HashMap::new();
    for (number, rest) in dot.lines().filter_map(node) {
        *next.entry(level(number)).or_default() -= width(rest) / 2.0;
    }
    let mut out = String::new();
    for line in dot.lines() {
        let Some((number, rest)) = node(line) else {
            out += &format!("{line}\n");
            continue;
        };
        let x = next.entry(level(number)).or_default();
        let (middle, y) = (
            *x + width(rest) / 2.0,
            -LEVEL_HEIGHT * f64::from(level(number)),
        );
        *x += width(rest);
        out += &format!("  n{number} [pos=\"{middle},{y}\", {rest}\n");
    }
    out
}
