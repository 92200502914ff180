//! Makes the expected text of the test programs from the cases under `tests/cases`.

use reference::calls::{check, WORK_AREA};
use reference::cases::{
    bytes_cases, data, expected, facts_cases, graphs_cases, hexadecimal, message_cases,
    properties_cases, steps_cases, Case,
};
use std::path::Path;
use std::process::ExitCode;

const HELP: &str = "\
expect NAME           the expected text of the program cases_NAME, from tests/cases/NAME.txt
expect data NAME      the bytes of those cases for that program
expect line FOLDER    the program's line for the files of a folder
expect --help         this text

NAME is bytes, messages, steps, facts, graphs or properties. The expected text has a line for each case: the case's
number (from 1, in the file's order), a blank, and the outcome:
  a number     `value V next E` (E: bytes read) or `fault`
  a term       `end E symbols N` (E: bytes read) or `fault`
  a message    the bytes of its canonical form, two capital hexadecimal digits each, a blank between two
  a step list  `good N` (N: nodes) or `refused NUMBER ITEM`, by causes 3 to 9 of document 01
  facts        of the facts of a step list's nodes, node by node, premises, actions, conclusions: for each the
               number (from 1) of the first one that is the same; `|`; for each argument of these facts the
               number of the first one that is the same message; `|`; for each argument 1, 2 or 3 where it is
               the public name 0, 128 or 16384, else 0. Or `refused NUMBER ITEM`
  a graph      `good N E` (N: nodes, E: edges) or `refused NUMBER ITEM`, by causes 3, 4 and 6 to 13
  a property   `true A` or `false A` over the trace of a step list (A: nodes with an action), or
               `refused NUMBER ITEM`, by causes 3 to 9

The data has for each case: 0 for a number, 1 for a term or message, 2 for a step list, 3 for a graph, 4 for a
property; the length of what the case is read under, and that: the arity of each free function, or the protocol
file; the length of the bytes; the bytes. Those of a property are the length of its file, its file, and the step
list. A length is two bytes, low byte first. It is printed in hexadecimal, a line for each case.
";

fn main() -> ExitCode {
    let words: Vec<String> = std::env::args().skip(1).collect();
    let words: Vec<&str> = words.iter().map(String::as_str).collect();
    match words[..] {
        ["--help"] => print!("{HELP}"),
        ["data", name] => match cases(name) {
            Some(cases) => {
                for case in cases {
                    println!("{}", hexadecimal(&data(&[case])));
                }
            }
            None => return wrong_use(),
        },
        ["line", folder] => println!("{}", line(Path::new(folder))),
        [name] => match cases(name) {
            Some(cases) => print!("{}", expected(&cases)),
            None => return wrong_use(),
        },
        _ => return wrong_use(),
    }
    ExitCode::SUCCESS
}

fn cases(name: &str) -> Option<Vec<Case>> {
    match name {
        "bytes" => Some(bytes_cases(&text("bytes.txt"))),
        "messages" => Some(message_cases(&text("messages.txt"))),
        "steps" => Some(steps_cases(&text("steps.txt"))),
        "facts" => Some(facts_cases(&text("facts.txt"))),
        "graphs" => Some(graphs_cases(&text("graphs.txt"))),
        "properties" => Some(properties_cases(&text("properties.txt"))),
        _ => None,
    }
}

/// A case file, found from this crate's own place in the tree.
fn text(name: &str) -> String {
    let folder = Path::new(env!("CARGO_MANIFEST_DIR")).join("../../tests/cases");
    std::fs::read_to_string(folder.join(name)).expect("the case file")
}

/// "A file that cannot be opened counts as empty."
fn line(folder: &Path) -> String {
    let file = |name| std::fs::read(folder.join(name)).unwrap_or_default();
    let (protocol, property, graph) = (
        file("protocol.bin"),
        file("property.bin"),
        file("graph.bin"),
    );
    check(&protocol, &property, &graph, &mut [0; WORK_AREA]).to_string()
}

fn wrong_use() -> ExitCode {
    eprint!("{HELP}");
    ExitCode::from(2)
}
