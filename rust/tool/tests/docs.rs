//! The examples of docs/TOOL.md and README.md. A block "lev NAME" is a file; a block "console" has commands and what they print:
//! standard output, then standard error.

mod common;

use common::*;
use std::path::Path;
use std::process::Command;

/// The fenced blocks of a page: what stands behind the fence, and the text.
fn blocks(page: &str) -> Vec<(String, String)> {
    let mut blocks = Vec::new();
    let mut lines = page.lines();
    while let Some(line) = lines.next() {
        if let Some(kind) = line.strip_prefix("```") {
            let text: Vec<&str> = lines.by_ref().take_while(|line| *line != "```").collect();
            blocks.push((kind.to_string(), text.join("\n") + "\n"));
        }
    }
    blocks
}

/// Runs the commands of a block, and compares what each prints.
fn console(block: &str, folder: &Path) {
    for part in format!("\n{block}").split("\n$ ").skip(1) {
        let (command, expected) = part.split_once('\n').unwrap_or((part, ""));
        let output = Command::new("sh")
            .args(["-c", command])
            .current_dir(folder)
            .output();
        let output = output.unwrap();
        let said = stdout(&output) + &String::from_utf8_lossy(&output.stderr);
        assert_eq!(said.trim_end(), expected.trim_end(), "{command}");
    }
}

/// The number of commands that were run.
fn run(page: &str, name: &str) -> usize {
    let folder = folder(name);
    let program = Path::new(env!("CARGO_BIN_EXE_levtosziv"));
    std::os::unix::fs::symlink(program, folder.join("levtosziv")).unwrap();
    let page = std::fs::read_to_string(root().join(page)).unwrap();
    let mut commands = 0;
    for (kind, text) in blocks(&page) {
        match kind.split_once(' ') {
            Some(("lev", file)) => std::fs::write(folder.join(file), text).unwrap(),
            _ if kind == "console" => {
                console(&text, &folder);
                commands += text.matches("$ ").count();
            }
            _ => {}
        }
    }
    commands
}

#[test]
fn the_page_of_the_tool() {
    assert!(run("docs/TOOL.md", "docs-tool") >= 20);
}

#[test]
fn the_first_page() {
    assert!(run("README.md", "docs-readme") >= 3);
}
