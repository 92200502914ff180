//! `merge`: the reports of shards and of several inputs are, together, the report of one run.

mod common;

use common::archive::*;
use common::*;
use std::path::Path;
use std::process::Output;

fn merge(arguments: &[&str], directory: &Path) -> Output {
    levtosziv(&[&["merge"], arguments].concat(), directory)
}

fn fails(output: &Output, said: &str) {
    let message = stderr(output);
    assert_eq!(output.status.code(), Some(4), "{message}");
    assert!(message.contains(said), "{message}");
}

/// Runs `batch` into a report of this name.
fn batch(report: &str, arguments: &[&str], directory: &Path) {
    let given = [&["batch", "--report", report], arguments].concat();
    let output = levtosziv(&given, directory);
    assert!(output.status.success(), "{}", stderr(&output));
}

#[test]
fn shards_are_the_whole() {
    let folder = folder("merge-shards");
    // Fewer cases than shards, as many, one more, and many.
    for count in [0, 2, 3, 4, 1_000] {
        put(&folder, &[("a.tar", &archive(&many(count)))]);
        let _ = std::fs::remove_file(folder.join("whole"));
        batch("whole", &["a.tar"], &folder);
        for part in ["1", "2", "3"] {
            let _ = std::fs::remove_file(folder.join(part));
            batch(part, &["a.tar", "--shard", &format!("{part}/3")], &folder);
        }
        for order in [["1", "2", "3"], ["3", "1", "2"]] {
            let merged = merge(&order, &folder);
            assert_eq!(merged.status.code(), Some(0), "{}", stderr(&merged));
            let whole = std::fs::read_to_string(folder.join("whole")).unwrap();
            assert!(stdout(&merged) == whole, "{count}");
        }
    }
    fails(
        &merge(&["1", "3"], &folder),
        "1: shard 2/3 of its input is not given",
    );
    fails(
        &merge(&["1", "2", "1"], &folder),
        "1:1: 1 is of the same shard",
    );
    fails(
        &merge(&["1", "2", "whole"], &folder),
        "whole:1: this is no shard of 3, as 1 is",
    );
    put(&folder, &[("a.tar", &archive(&many(900)))]);
    batch("other", &["a.tar", "--shard", "3/3"], &folder);
    fails(
        &merge(&["1", "2", "other"], &folder),
        ": the shards are not of one input",
    );
}

#[test]
fn reports_of_several_inputs_are_one() {
    let folder = folder("merge-inputs");
    put(
        &folder,
        &[
            ("a.tar", &archive(&many(400))),
            ("b.tar", &archive(&many(300))),
        ],
    );
    batch("whole", &["a.tar", "b.tar"], &folder);
    batch("a", &["a.tar"], &folder);
    for part in ["1", "2"] {
        batch(part, &["b.tar", "--shard", &format!("{part}/2")], &folder);
    }
    put(
        &folder,
        &[
            ("list", b"a.tar\nb.tar\n"),
            ("short", b"a.tar\n"),
            ("long", b"a.tar\nb.tar\nc.tar\n"),
        ],
    );
    let given = [
        "a",
        "2",
        "1",
        "--report",
        "merged",
        "--summary",
        "summary",
        "--list",
        "list",
    ];
    let merged = merge(&[&given[..], &["--fail-on", "attack"]].concat(), &folder);
    assert_eq!(merged.status.code(), Some(10), "{}", stderr(&merged));
    assert!(stderr(&merged).starts_with("700 cases: "));
    let read = |name: &str| std::fs::read_to_string(folder.join(name)).unwrap();
    assert!(read("merged") == read("whole"));
    let summary: serde_json::Value = serde_json::from_str(&read("summary")).unwrap();
    assert_eq!(summary["cases"], 700);
    fails(
        &merge(&["a", "2", "1", "--list", "short"], &folder),
        "short: b.tar has cases in the reports, and is not in the list",
    );
    fails(
        &merge(&["a", "2", "1", "--list", "long"], &folder),
        "long:3: no report has a case of c.tar",
    );
    fails(
        &merge(&["a", "a"], &folder),
        "a:2: cases of a.tar stand in another place already",
    );
    fails(
        &merge(&["a", "whole"], &folder),
        "whole:2: cases of a.tar stand in another place already",
    );
    fails(
        &merge(&given, &folder),
        "merged: it is there already and is not written over",
    );
}

#[test]
fn a_merged_report_is_by_one_version() {
    let folder = folder("merge-versions");
    put(
        &folder,
        &[
            ("a.tar", &archive(&many(40))),
            ("b.tar", &archive(&many(30))),
        ],
    );
    batch("whole", &["a.tar", "b.tar"], &folder);
    let read = |name: &str| std::fs::read_to_string(folder.join(name)).unwrap();
    let old = |report: String| report.replacen(VERSION, "0.1.0", 1);
    for (report, input) in [("a", "a.tar"), ("b", "b.tar")] {
        batch(report, &[input], &folder);
        let name = format!("old-{report}");
        put(&folder, &[(&name, old(read(report)).as_bytes())]);
    }
    fails(
        &merge(&["old-a", "b", "--report", "merged"], &folder),
        &format!("b:1: this report is by levtosziv {VERSION}, and old-a is by levtosziv 0.1.0; a report has rulings of one version"),
    );
    assert!(!folder.join("merged").exists());
    // What another version has ruled stays its own.
    let merged = merge(&["old-a", "old-b", "--summary", "summary"], &folder);
    assert_eq!(merged.status.code(), Some(0), "{}", stderr(&merged));
    assert!(stdout(&merged) == old(read("whole")));
    assert!(read("summary").contains("\"tool\":\"levtosziv 0.1.0\""));
}

#[test]
fn reports_that_are_unfinished_or_none() {
    let folder = folder("merge-unfinished");
    put(&folder, &[("a.tar", &archive(&many(40)))]);
    batch("whole", &["a.tar"], &folder);
    let whole = std::fs::read_to_string(folder.join("whole")).unwrap();
    let lines: Vec<&str> = whole.split_inclusive('\n').collect();
    let half = lines[..20].concat();
    let said = |report: &str, said: &str| {
        put(&folder, &[("report", report.as_bytes())]);
        fails(&merge(&["report", "--report", "merged"], &folder), said);
        assert!(!folder.join("merged").exists());
    };
    said(
        &half,
        "report:21: the report is unfinished; `levtosziv batch --resume` goes on with it",
    );
    said(
        &half[..half.len() - 9],
        "report:20: the report is unfinished",
    );
    said(&lines[..41].concat(), "report:42: the report is unfinished");
    said("", "report:1: this is no report");
    said("{}\n", "report:1: this is no report");
    said(
        &whole.replace("\"report\":1", "\"report\":2"),
        "report:1: this is no report of `levtosziv batch` that this version can read",
    );
    said(
        &(half.clone() + lines[41]),
        "report:21: the counts are not those of the lines before",
    );
    said(
        &(half + "{\"case\":1}\n"),
        "report:21: this is no line of a case",
    );
    fails(&merge(&["none"], &folder), "none: No such file");
}
