//! `batch` as a user runs it: what the report says, that it does not depend on how it was made, and what becomes of inputs that are not right.

mod common;

use common::archive::*;
use common::*;
use reference::calls::WORK_AREA;
use reference::corpus;
use reference::random::Random;
use serde_json::Value;
use std::io::{BufRead, BufReader, Read, Write};
use std::os::unix::fs::symlink;
use std::path::Path;
use std::process::{Child, Command, Output, Stdio};

fn batch(arguments: &[&str], directory: &Path) -> Output {
    levtosziv(&[&["batch"], arguments].concat(), directory)
}

/// The whole report of an input.
fn report(input: &str, directory: &Path) -> String {
    let output = batch(&[input], directory);
    assert_eq!(output.status.code(), Some(0), "{}", stderr(&output));
    stdout(&output)
}

/// It ends with 4, and says this.
fn fails(output: &Output, said: &str) {
    let message = stderr(output);
    assert_eq!(output.status.code(), Some(4), "{message}");
    assert!(message.contains(said), "{message}");
}

/// The lines of the cases.
fn cases(report: &str) -> Vec<Value> {
    let lines = report
        .lines()
        .map(|line| serde_json::from_str(line).unwrap());
    lines
        .filter(|line: &Value| line.get("case").is_some())
        .collect()
}

fn field(report: &str, name: &str) -> Vec<String> {
    let cases = cases(report);
    cases
        .iter()
        .map(|case| case[name].as_str().unwrap().to_string())
        .collect()
}

fn spawn(arguments: &[&str], directory: &Path) -> Child {
    Command::new(env!("CARGO_BIN_EXE_levtosziv"))
        .arg("batch")
        .args(arguments)
        .current_dir(directory)
        .stdin(Stdio::piped())
        .stdout(Stdio::piped())
        .stderr(Stdio::piped())
        .spawn()
        .unwrap()
}

/// Waits until a file has so many bytes.
fn wait_for(path: &Path, length: u64) {
    while std::fs::metadata(path).map_or(0, |there| there.len()) < length {
        std::thread::sleep(std::time::Duration::from_millis(1));
    }
}

fn gzip(bytes: &[u8]) -> Vec<u8> {
    let mut packed = flate2::write::GzEncoder::new(Vec::new(), flate2::Compression::fast());
    packed.write_all(bytes).unwrap();
    packed.finish().unwrap()
}

#[test]
fn each_line_is_that_of_the_report_program_and_of_check() {
    let folder = folder("batch-lines");
    let folders = folders();
    assert!(folders.len() > 30);
    let all: Vec<Files> = folders.iter().map(|folder| Files::of(folder)).collect();
    put(&folder, &[("all.tar", &archive(&all))]);
    let report = report("all.tar", &folder);
    for (path, line) in folders.iter().zip(cases(&report)) {
        let expected = std::fs::read_to_string(path.join("expected.txt")).unwrap();
        assert_eq!(line["line"], expected.trim_end(), "{path:?}");
        let checked = stdout(&levtosziv(
            &["check", path.to_str().unwrap(), "--json"],
            &folder,
        ));
        let checked: Value = serde_json::from_str(&checked).unwrap();
        for field in [
            "case",
            "line",
            "ruling",
            "nodes",
            "with_action",
            "edges",
            "refusal",
            "item",
        ] {
            assert_eq!(line.get(field), checked.get(field), "{path:?}, {field}");
        }
    }
    let header = report.lines().next().unwrap();
    let by = format!("{{\"report\":1,\"tool\":\"levtosziv {VERSION}\"}}");
    assert_eq!(header, by);
    let end: Value = serde_json::from_str(report.lines().last().unwrap()).unwrap();
    assert_eq!(end["cases"], folders.len());
}

#[test]
fn the_cases_of_the_corpus() {
    let folder = folder("batch-corpus");
    let cases = corpus::cases().into_iter();
    let checked: Vec<corpus::Case> = cases
        .filter(|case| case.kind == 0 && case.work >= WORK_AREA)
        .collect();
    let files = checked.iter().enumerate().map(|(i, case)| Files {
        name: format!("c{i:03}"),
        bytes: [0, 1, 2].map(|file| case.files[file].to_vec()),
    });
    let all: Vec<Files> = files.collect();
    put(&folder, &[("all.tar", &archive(&all))]);
    all.iter()
        .for_each(|case| case.write(&folder.join("all").join(&case.name)));
    let expected: Vec<String> = checked
        .iter()
        .map(|case| case.outcome.to_string())
        .collect();
    assert!(expected.len() >= 280);
    assert_eq!(field(&report("all.tar", &folder), "line"), expected);
    assert_eq!(field(&report("all", &folder), "line"), expected);
}

#[test]
fn all_inputs_and_numbers_of_jobs_give_the_same() {
    let folder = folder("batch-inputs");
    let all = many(2_000);
    let tar = archive(&all);
    put(&folder, &[("all.tar", &tar), ("all.tgz", &gzip(&tar))]);
    let whole = report("all.tar", &folder);
    for jobs in ["1", "2", "5"] {
        assert_eq!(stdout(&batch(&["all.tar", "--jobs", jobs], &folder)), whole);
    }
    assert_eq!(
        report("all.tgz", &folder),
        whole.replace("all.tar", "all.tgz")
    );
    for bytes in [tar, gzip(&archive(&all))] {
        let mut child = spawn(&["-"], &folder);
        child.stdin.take().unwrap().write_all(&bytes).unwrap();
        let output = child.wait_with_output().unwrap();
        assert_eq!(stdout(&output), whole.replace("all.tar", "-"));
    }
    let all = &all[..50];
    let list: Vec<String> = all
        .iter()
        .map(|case| format!("cases/{}", case.name))
        .collect();
    all.iter()
        .for_each(|case| case.write(&folder.join("cases").join(&case.name)));
    put(
        &folder,
        &[("list", (list.join("\n") + "\r\n\n").as_bytes())],
    );
    let lines = &field(&whole, "line")[..50];
    let of_folder = report("cases", &folder);
    assert_eq!(field(&of_folder, "line"), lines);
    assert_eq!(field(&of_folder, "case")[7], "g00007");
    let of_list = stdout(&batch(&["--list", "list"], &folder));
    assert_eq!(field(&of_list, "line"), lines);
    let mut child = spawn(&["--list", "-"], &folder);
    let list = list.join("\n");
    child
        .stdin
        .take()
        .unwrap()
        .write_all(list.as_bytes())
        .unwrap();
    assert!(stdout(&child.wait_with_output().unwrap()) == of_list);
    assert_eq!(field(&of_list, "input")[7], "cases/g00007");
    assert_eq!(field(&of_list, "crc"), field(&of_folder, "crc"));
}

#[test]
fn graphs_under_one_protocol() {
    let folder = folder("batch-graphs");
    let case = Files::of(&root().join("examples/printed-case"));
    let [protocol, property, graph] = &case.bytes;
    let mut tar = member("a.bin", graph);
    tar.extend(member("b/c.bin", &graph[..5]));
    tar.extend([0; 1024]);
    put(
        &folder,
        &[
            ("graphs.tar", &tar),
            ("protocol.bin", protocol),
            ("property.bin", property),
        ],
    );
    let given = ["--protocol", "protocol.bin", "--property", "property.bin"];
    let output = batch(&[&["graphs.tar"][..], &given].concat(), &folder);
    assert_eq!(field(&stdout(&output), "case"), ["a.bin", "b/c.bin"]);
    assert_eq!(
        field(&stdout(&output), "line"),
        ["attack 4 2 3", "refused 3 3"]
    );
    fails(
        &batch(&["graphs.tar"], &folder),
        ": there is no case in it; a case is a folder",
    );
    std::fs::create_dir(folder.join("graphs")).unwrap();
    put(&folder.join("graphs"), &[("z.bin", graph), ("y.bin", &[])]);
    let output = batch(&[&["graphs"][..], &given].concat(), &folder);
    assert_eq!(field(&stdout(&output), "case"), ["y.bin", "z.bin"]);
    fails(
        &batch(&["graphs"], &folder),
        "graphs: there is no case in it",
    );
}

#[test]
fn a_report_is_resumed_wherever_it_was_cut() {
    let folder = folder("batch-cut");
    put(&folder, &[("all.tar", &archive(&many(20)))]);
    let whole = report("all.tar", &folder).into_bytes();
    let path = folder.join("report");
    let last = whole.len() - 400..whole.len() + 1;
    let mut random = Random::new(41);
    let others: Vec<usize> = (0..40).map(|_| random.below(whole.len())).collect();
    for cut in (0..60).chain(last).chain(others) {
        std::fs::write(&path, &whole[..cut]).unwrap();
        let output = batch(&["all.tar", "--resume", "--report", "report"], &folder);
        assert_eq!(output.status.code(), Some(0), "{cut}: {}", stderr(&output));
        assert!(std::fs::read(&path).unwrap() == whole, "{cut}");
    }
    std::fs::remove_file(&path).unwrap();
    batch(&["all.tar", "--resume", "--report", "report"], &folder);
    assert!(std::fs::read(&path).unwrap() == whole);
}

#[test]
fn a_killed_run_is_resumed() {
    let folder = folder("batch-killed");
    put(&folder, &[("all.tar", &archive(&many(6_000)))]);
    let whole = report("all.tar", &folder);
    let path = folder.join("report");
    let arguments = [
        "all.tar",
        "--resume",
        "--report",
        "report",
        "--keep",
        "attack=kept",
    ];
    for part in 1..4 {
        let mut child = spawn(&arguments, &folder);
        wait_for(&path, (whole.len() / 5 * part) as u64);
        child.kill().unwrap();
        child.wait().unwrap();
        assert!(std::fs::metadata(&path).unwrap().len() < whole.len() as u64);
    }
    let output = batch(&arguments, &folder);
    assert_eq!(output.status.code(), Some(0), "{}", stderr(&output));
    assert!(std::fs::read_to_string(&path).unwrap() == whole);
    let attacks = cases(&whole)
        .into_iter()
        .filter(|case| case["ruling"] == "attack");
    let attacks: Vec<String> = attacks
        .map(|case| case["case"].as_str().unwrap().into())
        .collect();
    let kept = std::fs::read_dir(folder.join("kept/all.tar")).unwrap();
    assert_eq!(kept.count(), attacks.len());
    let place = format!("kept/all.tar/{}", attacks[17]);
    let said = stdout(&levtosziv(&["check", &place, "--format", "line"], &folder));
    assert!(said.starts_with("attack "), "{said}");
}

#[test]
fn an_interrupted_run_keeps_its_lines() {
    let folder = folder("batch-interrupted");
    let all = many(3_000);
    let tar = archive(&all);
    let path = folder.join("report");
    for (signal, code) in [("-INT", 130), ("-TERM", 143)] {
        let _ = std::fs::remove_file(&path);
        let mut child = spawn(&["-", "--report", "report"], &folder);
        // The stream stays open behind its first half.
        child
            .stdin
            .as_mut()
            .unwrap()
            .write_all(&tar[..tar.len() / 2])
            .unwrap();
        wait_for(&path, 100_000);
        let id = child.id().to_string();
        assert!(Command::new("kill")
            .args([signal, &id])
            .status()
            .unwrap()
            .success());
        let mut message = String::new();
        child
            .stderr
            .take()
            .unwrap()
            .read_to_string(&mut message)
            .unwrap();
        assert_eq!(child.wait().unwrap().code(), Some(code), "{message}");
        assert!(
            message.contains("interrupted: --resume goes on"),
            "{message}"
        );
        let cut = std::fs::read_to_string(&path).unwrap();
        assert!(cut.ends_with("}\n") && cases(&cut).len() > 500);
        let mut child = spawn(&["-", "--report", "report", "--resume"], &folder);
        child.stdin.take().unwrap().write_all(&tar).unwrap();
        assert!(child.wait_with_output().unwrap().status.success());
        put(&folder, &[("all.tar", &tar)]);
        let whole = report("all.tar", &folder).replace("all.tar", "-");
        assert!(std::fs::read_to_string(&path).unwrap() == whole);
    }
}

#[test]
fn a_report_has_one_writer() {
    let folder = folder("batch-writers");
    let tar = archive(&many(1_000));
    put(&folder, &[("all.tar", &tar)]);
    let mut first = spawn(&["-", "--report", "report"], &folder);
    let half = &tar[..tar.len() / 2];
    first.stdin.as_mut().unwrap().write_all(half).unwrap();
    wait_for(&folder.join("report"), 1_000);
    let second = ["all.tar", "--report", "report", "--resume"];
    let said = "report: another run is writing this report";
    fails(&batch(&second, &folder), said);
    let rest = &tar[tar.len() / 2..];
    first.stdin.take().unwrap().write_all(rest).unwrap();
    assert!(first.wait().unwrap().success());
    let whole = report("all.tar", &folder).replace("all.tar", "-");
    assert!(std::fs::read_to_string(folder.join("report")).unwrap() == whole);
}

#[test]
fn a_report_of_another_input_is_left_alone() {
    let folder = folder("batch-other");
    let all = many(600);
    let mut other = all.clone();
    other[311].bytes[2] = all[312].bytes[2].clone();
    let mut renamed = all.clone();
    renamed[3].name = "other".into();
    put(&folder, &[("a.tar", &archive(&all))]);
    let whole = report("a.tar", &folder);
    let unfinished: String = whole.split_inclusive('\n').take(500).collect();
    let resume = |input: &[Files], report: &str, said: &str| {
        put(
            &folder,
            &[("a.tar", &archive(input)), ("report", report.as_bytes())],
        );
        fails(
            &batch(&["a.tar", "--report", "report", "--resume"], &folder),
            said,
        );
        assert!(std::fs::read_to_string(folder.join("report")).unwrap() == report);
    };
    let said = "report:313: the report is of another input, whose case here is {\"input\":\"a.tar\",\"case\":\"g00311\"";
    resume(&other, &unfinished, said);
    resume(&other, &whole, said);
    resume(&renamed, &unfinished, "report:5: the report is of another input, whose case here is {\"input\":\"a.tar\",\"case\":\"other\"");
    resume(
        &all[..300],
        &unfinished,
        "report:301: the report goes on behind this case, and the input ends",
    );
    resume(
        &all[..599],
        &whole,
        "report:600: the report goes on behind this case",
    );
    resume(
        &many(601),
        &whole,
        "report:601: the report ends behind this case, and the input goes on",
    );
    resume(
        &all,
        &whole.replacen(VERSION, "0.1.0", 1),
        &format!("report:1: this report is by levtosziv 0.1.0, and this is levtosziv {VERSION}; a report has rulings of one version, so a new one is to be begun"),
    );
    let mark = format!("{VERSION}\"");
    resume(
        &all,
        &whole.replacen(&mark, &format!("{mark},\"shard\":\"1/3\""), 1),
        "report:1: a report that begins with",
    );
    resume(
        &all,
        "a text\nof two lines\n",
        "report:1: this is no report",
    );
    resume(&all, "no line", "report:1: this is no report");
    resume(
        &all,
        &whole.replace("\"refused\":", "\"refused\":1"),
        "report:602: the counts are not",
    );
    let damaged = unfinished.replacen("\"ruling\":\"run\"", "\"ruling\":\"rum\"", 1);
    resume(&all, &damaged, "this is no line of a case");
}

#[test]
fn archives_that_are_cut_off_or_damaged() {
    let folder = folder("batch-damaged");
    let all = many(6);
    let tar = archive(&all);
    put(&folder, &[("a.tar", &tar)]);
    let whole = report("a.tar", &folder);
    let check = |bytes: &[u8], said: &str| {
        put(&folder, &[("a.tar", bytes)]);
        let output = batch(&["a.tar"], &folder);
        fails(&output, said);
        let lines = stdout(&output);
        assert!(
            whole.starts_with(&lines) && !lines.contains("\"end\""),
            "{lines}"
        );
    };
    let end = tar.len() - 1024;
    for cut in (0..=end).step_by(256).chain([1, 511, 513, end - 1]) {
        check(
            &tar[..cut],
            &format!("a.tar: byte {cut}: the archive ends in the middle"),
        );
    }
    for header in (0..tar.len() / 512).map(|block| block * 512) {
        if &tar[header + 257..][..5] == b"ustar" {
            let mut damaged = tar.clone();
            damaged[header + 1] ^= 1;
            check(
                &damaged,
                &format!("a.tar: byte {header}: this is no tar archive, or a damaged one"),
            );
            // A header of zeros is an end, and what is behind it is not.
            damaged[header..header + 512].fill(0);
            check(&damaged, ": there are bytes behind the end");
        }
    }
    check(
        &[&tar[..], &tar[..]].concat(),
        &format!("a.tar: byte {}: there are bytes behind the end", tar.len()),
    );
    check(
        "rule A: [ ] --> [ ]\n".repeat(50).as_bytes(),
        "a.tar: byte 0: this is no tar archive",
    );
    check(
        b"\x28\xB5\x2F\xFD\x00\x00",
        "a.tar: this is packed by zstd; `zstd -dc a.tar | levtosziv batch -`",
    );
    let packed = gzip(&tar);
    for cut in (2..packed.len()).step_by(11).chain([packed.len() - 1]) {
        check(
            &packed[..cut],
            " of what gzip unpacks: it is cut off or damaged: ",
        );
    }
    let mut damaged = packed.clone();
    let checksum = damaged.len() - 6;
    damaged[checksum] ^= 1;
    check(&damaged, "does not have a matching checksum");
    check(
        &[&packed[..], b"behind"].concat(),
        "it is cut off or damaged",
    );
    put(
        &folder,
        &[(
            "a.tar",
            &[&gzip(&tar[..700])[..], &gzip(&tar[700..])].concat(),
        )],
    );
    assert_eq!(report("a.tar", &folder), whole);
}

/// Bytes of headers changed at random, with checksums that agree: whatever they say then, the tool ends by itself.
#[test]
fn damaged_headers_do_not_end_it_otherwise() {
    let folder = folder("batch-headers");
    let whole = open_archive(&many(3));
    let headers = (0..whole.len()).step_by(512);
    let headers = headers.filter(|at| &whole[at + 257..][..5] == b"ustar");
    let headers: Vec<usize> = headers.collect();
    let mut random = Random::new(42);
    let mut ended = [0; 2];
    for _ in 0..300 {
        let mut tar = [&whole[..], &[0; 1024]].concat();
        let header = *random.choose(&headers);
        // The size, the kind, and what follows.
        let place = header + [124 + random.below(12), 156, random.below(512)][random.below(3)];
        tar[place] = *random.choose(b"01234567LKxgS5\0\x80\xFF ");
        tar[header + 148..header + 156].fill(b' ');
        let block = &tar[header..header + 512];
        let sum: u32 = block.iter().map(|byte| u32::from(*byte)).sum();
        tar[header + 148..header + 155].copy_from_slice(format!("{sum:06o}\0").as_bytes());
        put(&folder, &[("a.tar", &tar)]);
        let output = batch(&["a.tar"], &folder);
        match output.status.code() {
            Some(0) => ended[0] += 1,
            Some(4) => ended[1] += 1,
            other => panic!("{other:?}: {}", stderr(&output)),
        }
    }
    assert!(ended.iter().all(|count| *count > 30), "{ended:?}");
}

#[test]
fn long_names_links_and_other_members() {
    let folder = folder("batch-members");
    let case = Files::of(&root().join("examples/printed-case"));
    let long = format!("{}/{}", "d".repeat(90), "e".repeat(60));
    let longer = vec!["f".repeat(120); 3].join("/");
    let names = ["./short", &format!("./{long}"), &format!("./{longer}")];
    for name in names {
        case.write(&folder.join("cases").join(name));
    }
    std::fs::write(folder.join("cases/short/theory.lev"), "lemma l: F").unwrap();
    let tar = |arguments: &[&str]| {
        let made = Command::new("tar")
            .args(arguments)
            .current_dir(&folder)
            .status();
        assert!(made.unwrap().success());
    };
    for format in ["gnu", "pax"] {
        tar(&[
            "--sort=name",
            "-cf",
            "a.tar",
            "-C",
            "cases",
            "--format",
            format,
            ".",
        ]);
        let report = report("a.tar", &folder);
        assert_eq!(
            field(&report, "case"),
            [&long, &longer, "short"],
            "{format}"
        );
        assert_eq!(field(&report, "line"), ["attack 4 2 3"; 3]);
    }
    tar(&[
        "-cf",
        "a.tar",
        "-C",
        "cases",
        "--format",
        "ustar",
        "--sort=name",
        names[0],
        names[1],
    ]);
    assert_eq!(field(&report("a.tar", &folder), "case"), ["short", &long]);
    tar(&["-cf", "a.tar", "-C", "cases/short", "."]);
    assert_eq!(field(&report("a.tar", &folder), "case"), ["."]);
    for (link, name) in [("ln", "hard"), ("ln -s", "symbolic")] {
        let place = format!("links/{name}");
        std::fs::create_dir_all(folder.join(&place)).unwrap();
        let command =
            format!("cd {place} && cp ../../cases/short/graph.bin a && {link} a graph.bin");
        assert!(Command::new("sh")
            .args(["-c", &command])
            .current_dir(&folder)
            .status()
            .unwrap()
            .success());
        tar(&["-cf", "a.tar", "-C", "links", "--sort=name", name]);
        fails(&batch(&["a.tar"], &folder), "graph.bin is a link");
    }
}

/// What the tool reads by itself, and what the library reads from a long name on, are one archive.
#[test]
fn a_long_name_among_short_ones() {
    let folder = folder("batch-long");
    let all = many(700);
    let long = "n".repeat(200);
    let mut middle = tar::Builder::new(Vec::new());
    for (name, bytes) in NAMES.iter().zip(&all[0].bytes) {
        let mut header = tar::Header::new_gnu();
        header.set_size(bytes.len() as u64);
        let path = format!("{long}/{name}");
        middle.append_data(&mut header, path, &bytes[..]).unwrap();
    }
    let mut tar = open_archive(&all[..300]);
    tar.extend(middle.get_ref());
    tar.extend(open_archive(&all[300..]));
    let end = tar.len();
    put(&folder, &[("a.tar", &[&tar[..], &[0; 1024]].concat())]);
    let whole = report("a.tar", &folder);
    let mut names: Vec<&str> = all.iter().map(|case| case.name.as_str()).collect();
    names.insert(300, &long);
    assert_eq!(field(&whole, "case"), names);
    put(&folder, &[("b.tar", &archive(&all))]);
    let mut lines = field(&report("b.tar", &folder), "line");
    lines.insert(300, lines[0].clone());
    assert_eq!(field(&whole, "line"), lines);
    // Places are those of the whole archive.
    for (behind, said) in [
        (archive(&all[7..8]), "the case g00007 was there before"),
        (vec![b'x'; 512], "this is no tar archive, or a damaged one"),
        (vec![0; 100], "the archive ends in the middle"),
    ] {
        let place = if behind.len() == 100 { end + 100 } else { end };
        put(&folder, &[("a.tar", &[&tar[..], &behind].concat())]);
        let output = batch(&["a.tar"], &folder);
        fails(&output, &format!("a.tar: byte {place}: {said}"));
    }
}

#[test]
fn names_that_stand_twice() {
    let folder = folder("batch-twice");
    let mut all = many(4);
    all[3].name = all[1].name.clone();
    let tar = archive(&all);
    let place = open_archive(&all[..3]).len();
    put(&folder, &[("a.tar", &tar)]);
    let output = batch(&["a.tar"], &folder);
    fails(
        &output,
        &format!("a.tar: byte {place}: the case g00001 was there before"),
    );
    assert_eq!(cases(&stdout(&output)).len(), 3);
    // A case whose files are apart is two.
    let [protocol, property, graph] = &all[0].bytes;
    let mut apart = member("a/protocol.bin", protocol);
    apart.extend(
        [
            member("b/protocol.bin", protocol),
            member("a/graph.bin", graph),
            member("a/property.bin", property),
        ]
        .concat(),
    );
    apart.extend([0; 1024]);
    put(&folder, &[("a.tar", &apart)]);
    fails(
        &batch(&["a.tar"], &folder),
        "the case a was there before; each name stands once, and a case's files in a row",
    );
    put(&folder, &[("list", b"a.tar\n\na.tar\n")]);
    fails(
        &batch(&["--list", "list"], &folder),
        "list:3: a.tar: it is given twice",
    );
}

#[test]
fn files_and_paths_that_are_missing() {
    let folder = folder("batch-missing");
    let case = Files::of(&root().join("examples/printed-case"));
    for name in NAMES {
        let place = folder.join("cases").join(format!("without-{name}"));
        case.write(&place);
        std::fs::remove_file(place.join(name)).unwrap();
    }
    let of_folder = report("cases", &folder);
    for (line, name) in cases(&of_folder)
        .iter()
        .zip(["graph.bin", "property.bin", "protocol.bin"])
    {
        assert_eq!(line["missing"], serde_json::json!([name]));
        let place = format!("cases/without-{name}");
        let checked = stdout(&levtosziv(&["check", &place, "--format", "line"], &folder));
        assert_eq!(line["line"], checked.trim_end());
    }
    let tar = Command::new("tar")
        .args(["--sort=name", "-cf", "a.tar", "-C", "cases", "."])
        .current_dir(&folder)
        .status();
    assert!(tar.unwrap().success());
    let of_archive = report("a.tar", &folder);
    assert_eq!(field(&of_archive, "line"), field(&of_folder, "line"));
    assert_eq!(
        cases(&of_archive)[0]["missing"],
        serde_json::json!(["graph.bin"])
    );
    put(&folder, &[("list", b"cases\nno/such\n")]);
    fails(
        &batch(&["--list", "list"], &folder),
        "list:2: no/such: No such file",
    );
    fails(&batch(&["no.tar"], &folder), "no.tar: No such file");
    fails(
        &batch(&["--list", "nolist"], &folder),
        "nolist: No such file",
    );
    fails(
        &batch(&["cases", "--protocol", "none"], &folder),
        "none: No such file",
    );
    std::fs::create_dir_all(folder.join("empty/sub")).unwrap();
    let none = &cases(&report("empty", &folder))[0];
    assert_eq!(none["missing"], serde_json::json!(NAMES));
    // A file that is there and cannot be read is no empty one.
    std::fs::create_dir_all(folder.join("unread/a/graph.bin")).unwrap();
    fails(
        &batch(&["unread"], &folder),
        "unread/a/graph.bin: Is a directory",
    );
}

#[test]
fn steps_are_drawn_where_there_is_no_graph() {
    let folder = folder("batch-steps");
    let text = "rule A: [ Fr(~a) ] --[ S(~a) ]-> [ Out(~a) ]\nlemma l: \"not (Ex x #i. K(x) @ #i)\"\nrun good [fill]: A(~a) isend(~a)\nrun bad: A(~a)\n";
    put(&folder, &[("t.lev", text.as_bytes())]);
    for run in ["good", "bad"] {
        let place = format!("cases/{run}");
        levtosziv(&["build", "t.lev", &place, "--run", run], &folder);
        let _ = std::fs::remove_file(folder.join(place).join("graph.bin"));
    }
    let report = report("cases", &folder);
    assert_eq!(field(&report, "line"), ["refused 14 1", "attack 4 2 3"]);
    let tar = Command::new("tar")
        .args(["--sort=name", "-cf", "a.tar", "-C", "cases", "."])
        .current_dir(&folder)
        .status();
    assert!(tar.unwrap().success());
    assert_eq!(
        field(&common::stdout(&batch(&["a.tar"], &folder)), "line"),
        field(&report, "line")
    );
}

#[test]
fn arguments_and_places_that_are_wrong() {
    let folder = folder("batch-arguments");
    put(&folder, &[("a.tar", &archive(&many(300))), ("there", b"x")]);
    let code = |arguments: &[&str]| {
        batch(&[&["a.tar"], arguments].concat(), &folder)
            .status
            .code()
    };
    for shard in ["0/3", "4/3", "3", "a/3", "1/0", "/", "-1/3"] {
        let output = batch(&["a.tar", &format!("--shard={shard}")], &folder);
        assert_eq!(output.status.code(), Some(2), "{shard}");
        assert!(
            stderr(&output).contains("a shard is K/N with numbers, K from 1 to N"),
            "{shard}"
        );
    }
    assert_eq!(code(&["--shard", "3/3"]), Some(0));
    assert_eq!(code(&["--jobs", "0"]), Some(2));
    assert_eq!(code(&["--keep", "attacks=x"]), Some(2));
    assert_eq!(code(&["--keep", "attack="]), Some(2));
    assert_eq!(code(&["--resume"]), Some(2));
    assert_eq!(code(&["--list", "-", "-"]), Some(2));
    assert_eq!(batch(&[], &folder).status.code(), Some(2));
    assert_eq!(levtosziv(&["merge"], &folder).status.code(), Some(2));
    let said = |arguments: &[&str], said: &str| {
        fails(&batch(&[&["a.tar"], arguments].concat(), &folder), said)
    };
    said(&["--report", "no/report"], "no/report: No such file");
    said(
        &["--report", "there"],
        "there: it is there already and is not written over",
    );
    said(&["--report", "/dev/full"], "/dev/full: No space left");
    said(&["--report", "/proc/report"], "/proc/report: ");
    said(&["--keep", "attack=there"], "there: File exists");
    said(&["--keep", "attack=/proc/kept"], "/proc/kept: ");
    said(&["--summary", "no/summary"], "no/summary: No such file");
    assert_eq!(code(&["--fail-on", "attack,refused"]), Some(10));
    assert_eq!(code(&["--fail-on", "refused"]), Some(11));
    put(
        &folder,
        &[(
            "a.tar",
            &archive(&[Files::of(&root().join("examples/printed-case"))]),
        )],
    );
    assert_eq!(code(&["--fail-on", "refused"]), Some(0));
}

#[test]
fn a_reader_that_goes_away_ends_it() {
    let folder = folder("batch-pipe");
    put(&folder, &[("a.tar", &archive(&many(20_000)))]);
    let mut child = spawn(&["a.tar"], &folder);
    let mut first = String::new();
    BufReader::new(child.stdout.take().unwrap())
        .read_line(&mut first)
        .unwrap();
    assert!(first.starts_with("{\"report\":1"));
    let output = child.wait_with_output().unwrap();
    fails(&output, "standard output: Broken pipe");
}

#[test]
fn kept_files_stay_in_their_folder() {
    let folder = folder("batch-kept");
    let case = Files::of(&root().join("examples/printed-case"));
    let names = ["../../a", "/b", "c/../d", "."];
    let named = names.map(|name| Files {
        name: name.into(),
        ..case.clone()
    });
    std::fs::create_dir_all(folder.join("in")).unwrap();
    put(&folder, &[("in/a.tar", &archive(&named))]);
    let output = batch(
        &[
            "in/../in/a.tar",
            "--keep",
            "attack=kept",
            "--keep",
            "run=runs",
        ],
        &folder,
    );
    assert_eq!(output.status.code(), Some(0), "{}", stderr(&output));
    let found = Command::new("find")
        .args([".", "-name", "graph.bin"])
        .current_dir(&folder)
        .output()
        .unwrap();
    let mut found: Vec<String> = stdout(&found).lines().map(String::from).collect();
    found.sort();
    let expected = ["/a", "/b", "/c/d", ""];
    let mut expected = expected.map(|name| format!("./kept/in/in/a.tar{name}/graph.bin"));
    expected.sort();
    assert_eq!(found, expected);
    // Other bytes are not written over; the same ones are left.
    let again = batch(&["in/../in/a.tar", "--keep", "attack=kept"], &folder);
    assert_eq!(again.status.code(), Some(0));
    put(&folder, &[("kept/in/in/a.tar/b/graph.bin", b"other")]);
    fails(
        &batch(&["in/../in/a.tar", "--keep", "attack=kept"], &folder),
        "b/graph.bin: other bytes are there already",
    );
}

#[test]
fn attacks_of_a_report_that_is_resumed_are_kept_too() {
    let folder = folder("batch-kept-later");
    put(&folder, &[("a.tar", &archive(&many(300)))]);
    let report = ["a.tar", "--report", "report"];
    assert!(batch(&report, &folder).status.success());
    let whole = std::fs::read(folder.join("report")).unwrap();
    let again = batch(
        &[
            &report[..],
            &["--resume", "--keep", "attack=kept", "--summary", "summary"],
        ]
        .concat(),
        &folder,
    );
    assert!(again.status.success(), "{}", stderr(&again));
    assert!(std::fs::read(folder.join("report")).unwrap() == whole);
    let summary: Value =
        serde_json::from_slice(&std::fs::read(folder.join("summary")).unwrap()).unwrap();
    let kept = std::fs::read_dir(folder.join("kept/a.tar"))
        .unwrap()
        .count();
    assert!(kept > 50);
    assert_eq!(summary["attack"], kept);
    assert_eq!(
        (&summary["cases"], &summary["resumed"]),
        (&300.into(), &300.into())
    );
    let by_number = summary["refused_by_number"].as_object().unwrap().values();
    assert_eq!(
        by_number.map(|n| n.as_u64().unwrap()).sum::<u64>(),
        summary["refused"].as_u64().unwrap()
    );
}

#[test]
fn progress_is_for_terminals() {
    let folder = folder("batch-progress");
    put(&folder, &[("a.tar", &archive(&many(5_000)))]);
    symlink(env!("CARGO_BIN_EXE_levtosziv"), folder.join("levtosziv")).unwrap();
    let quiet = batch(&["a.tar", "--report", "quiet"], &folder);
    assert_eq!(stderr(&quiet).lines().count(), 1, "{}", stderr(&quiet));
    assert!(stderr(&quiet).starts_with("5,000 cases: "));
    let terminal = |arguments: &str| {
        let command = format!("stty cols 120; ./levtosziv batch a.tar --report drawn {arguments}");
        let output = Command::new("script")
            .args(["-qec", &command, "/dev/null"])
            .current_dir(&folder)
            .stdin(Stdio::null())
            .output();
        stdout(&output.unwrap())
    };
    for drawn in [terminal(""), terminal("--resume")] {
        for part in [
            " %  ",
            " cases, ",
            " a second, ",
            " attacks, ",
            " refused, ",
            " left",
        ] {
            assert!(drawn.contains(part), "{part}: {drawn}");
        }
        // More a second than there are cases would be a figure below zero.
        let rates = drawn
            .split(" a second")
            .map(|before| before.rsplit(' ').next().unwrap());
        assert!(rates.clone().count() > 1);
        assert!(rates.clone().all(|rate| rate.len() < 12), "{drawn}");
    }
    let reports = ["quiet", "drawn"].map(|name| std::fs::read(folder.join(name)).unwrap());
    assert!(reports[0] == reports[1]);
}
