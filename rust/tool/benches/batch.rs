//! What `levtosziv batch` costs beside the bare call of the core: processor time a case, both in one run, and their ratio; then the most memory
//! that it has at 10,000, 100,000 and 1,000,000 cases. `./bench batch` runs this.

use std::fs::File;
use std::hint::black_box;
use std::io::{self, BufWriter, Write};
use std::path::{Path, PathBuf};
use std::process::{Child, Command, Stdio};
use std::time::Duration;

/// The cases of a row, and how often it is run: the least counts.
const CASES: usize = 200_000;
const FOLDERS: usize = 20_000;
const RUNS: usize = 5;

/// The three files of the printed case.
struct Files([Vec<u8>; 3]);

const NAMES: [&str; 3] = ["protocol.bin", "property.bin", "graph.bin"];

fn printed_case() -> (PathBuf, Files) {
    let folder = Path::new(env!("CARGO_MANIFEST_DIR")).join("../../examples/printed-case");
    let files = NAMES.map(|name| std::fs::read(folder.join(name)).expect("a file of the tree"));
    (folder, Files(files))
}

/// Microseconds of processor time that this process, or its children that have ended, had so far.
fn processor_time(children: bool) -> f64 {
    let stat = std::fs::read_to_string("/proc/self/stat").expect("Linux says it");
    let fields = stat
        .rsplit(')')
        .next()
        .unwrap_or_default()
        .split_whitespace();
    let ticks: Vec<f64> = fields.filter_map(|field| field.parse().ok()).collect();
    // utime, stime, cutime, cstime; a tick is 10 ms. The process's state before them is no number.
    let at = if children { 12 } else { 10 };
    (ticks[at] + ticks[at + 1]) * 1e4
}

/// The processor time a case of what is run.
fn time(cases: usize, children: bool, run: impl FnOnce()) -> f64 {
    let before = processor_time(children);
    run();
    (processor_time(children) - before) / cases as f64
}

fn bare(files: &Files) -> f64 {
    let mut work = levtosziv::Work::new();
    let [protocol, property, graph] = &files.0;
    time(CASES, false, || {
        for _ in 0..CASES {
            let _ = black_box(work.check(protocol, property, graph));
        }
    })
}

fn member(to: &mut impl Write, name: &str, bytes: &[u8]) -> io::Result<()> {
    let mut header = tar::Header::new_ustar();
    header.set_path(name)?;
    header.set_size(bytes.len() as u64);
    header.set_mode(0o644);
    header.set_cksum();
    to.write_all(header.as_bytes())?;
    to.write_all(bytes)?;
    to.write_all(&vec![0; bytes.len().next_multiple_of(512) - bytes.len()])
}

/// An archive of so many cases: graphs only, or three files each.
fn archive(to: impl Write, cases: usize, bare: bool, files: &Files) -> io::Result<()> {
    let mut to = BufWriter::with_capacity(1 << 20, to);
    for case in 0..cases {
        if bare {
            member(&mut to, &format!("g{case:07}.bin"), &files.0[2])?;
            continue;
        }
        for (name, bytes) in NAMES.iter().zip(&files.0) {
            member(&mut to, &format!("g{case:07}/{name}"), bytes)?;
        }
    }
    to.write_all(&[0; 1024])?;
    to.flush()
}

fn batch(arguments: &[&str]) -> Command {
    let mut command = Command::new(env!("CARGO_BIN_EXE_levtosziv"));
    command
        .arg("batch")
        .args(arguments)
        .stdout(Stdio::null())
        .stderr(Stdio::null());
    command
}

/// Both in turn, the least of each.
fn row(name: &str, cases: usize, files: &Files, arguments: &[&str]) {
    let [mut alone, mut batched] = [f64::INFINITY; 2];
    for _ in 0..RUNS {
        alone = alone.min(bare(files));
        let run = || {
            let status = batch(arguments).args(["--jobs", "1"]).status();
            assert!(status.expect("it was built").success(), "{name}");
        };
        batched = batched.min(time(cases, true, run));
    }
    println!(
        "| {name} | {alone:.2} | {batched:.2} | {:.2} |",
        batched / alone
    );
}

/// The most memory of a process, in KB, as long as it runs.
fn most_memory(child: &mut Child) -> u64 {
    let status = format!("/proc/{}/status", child.id());
    let mut most = 0;
    while child.try_wait().expect("it is ours").is_none() {
        let status = std::fs::read_to_string(&status).unwrap_or_default();
        let line = status.lines().find_map(|line| line.strip_prefix("VmHWM:"));
        let size = line.and_then(|line| line.split_whitespace().next()?.parse().ok());
        most = most.max(size.unwrap_or(0));
        std::thread::sleep(Duration::from_millis(1));
    }
    most
}

fn memory(cases: usize, files: &Files) {
    let child = batch(&["-", "--jobs", "2"]).stdin(Stdio::piped()).spawn();
    let mut child = child.expect("it was built");
    let input = child.stdin.take().expect("it is piped");
    let most = std::thread::scope(|scope| {
        scope.spawn(|| archive(input, cases, false, files).expect("it is read to its end"));
        most_memory(&mut child)
    });
    println!(
        "| {cases} cases by a stream, two jobs | {:.1} MB |",
        most as f64 / 1024.0
    );
}

fn main() {
    let folder = Path::new(env!("CARGO_TARGET_TMPDIR")).join("batch-bench");
    let _ = std::fs::remove_dir_all(&folder);
    std::fs::create_dir_all(folder.join("cases")).expect("a folder of the build");
    std::env::set_current_dir(&folder).expect("it was made");
    let (example, files) = printed_case();
    for (name, bare) in [("graphs.tar", true), ("cases.tar", false)] {
        let file = File::create(name).expect("a file of the build");
        archive(file, CASES, bare, &files).expect("there is room");
    }
    let packed = Command::new("gzip")
        .args(["-1", "-k", "cases.tar"])
        .status();
    assert!(packed.expect("gzip is there").success());
    for case in 0..FOLDERS {
        let place = format!("cases/g{case:07}");
        std::fs::create_dir(&place).expect("there is room");
        for (name, bytes) in NAMES.iter().zip(&files.0) {
            std::fs::write(format!("{place}/{name}"), bytes).expect("there is room");
        }
    }
    println!("\n| processor time a case, µs; the printed case | bare call | batch | ratio |\n|---|---|---|---|");
    let [protocol, property] = [0, 1].map(|file| example.join(NAMES[file]).display().to_string());
    let given = [
        "graphs.tar",
        "--protocol",
        &protocol,
        "--property",
        &property,
    ];
    row("tar, graphs only", CASES, &files, &given);
    row("tar, three files a case", CASES, &files, &["cases.tar"]);
    row("the same by gzip", CASES, &files, &["cases.tar.gz"]);
    row(
        "folders, in the system's memory",
        FOLDERS,
        &files,
        &["cases"],
    );
    println!("\n| batch | most memory |\n|---|---|");
    for cases in [10_000, 100_000, 1_000_000] {
        memory(cases, &files);
    }
    let _ = std::fs::remove_dir_all(&folder);
}
