//! `check --watch`: a text is ruled on again whenever and however it is saved, until Ctrl-C.

mod common;

use common::*;
use std::io::{BufRead, BufReader, Read};
use std::path::{Path, PathBuf};
use std::process::{Child, Command, Stdio};
use std::sync::mpsc::{channel, Receiver};
use std::thread;
use std::time::Duration;

/// A line that does not come in this time does not come.
const PATIENCE: Duration = Duration::from_secs(60);
const WATCHING: &str = "watching t.lev; Ctrl-C ends it";

fn text(steps: &str) -> String {
    format!("rule A: [ ] --[ Seen($x) ]-> [ ]\nlemma never: \"not (Ex x #i. Seen(x) @ #i)\"\nrun r: {steps}\n")
}

/// The lines of a stream, as they come.
fn lines(stream: impl Read + Send + 'static) -> Receiver<String> {
    let (send, lines) = channel();
    thread::spawn(move || {
        let lines = BufReader::new(stream).lines();
        lines.map_while(Result::ok).for_each(|line| {
            let _ = send.send(line);
        })
    });
    lines
}

/// The tool as it watches `t.lev` in a folder.
struct Watching {
    folder: PathBuf,
    child: Child,
    said: Receiver<String>,
    told: Receiver<String>,
}

impl Watching {
    fn new(name: &str) -> Watching {
        let folder = folder(name);
        put(&folder, &[("t.lev", text("").as_bytes())]);
        Watching::over(folder)
    }

    fn over(folder: PathBuf) -> Watching {
        let mut child = Command::new(env!("CARGO_BIN_EXE_levtosziv"))
            .args(["check", "--watch", "--format", "line", "t.lev"])
            .current_dir(&folder)
            .stdout(Stdio::piped())
            .stderr(Stdio::piped())
            .spawn()
            .unwrap();
        let said = lines(child.stdout.take().unwrap());
        let told = lines(child.stderr.take().unwrap());
        let watching = Watching {
            folder,
            child,
            said,
            told,
        };
        watching.says("run 0 0 0");
        watching
    }

    /// Waits for the ruling and for the watch to go on.
    fn says(&self, line: &str) {
        assert_eq!(self.said.recv_timeout(PATIENCE).as_deref(), Ok(line));
        self.tells(WATCHING);
    }

    /// Waits for a line on standard error.
    fn tells(&self, line: &str) {
        loop {
            let told = self.told.recv_timeout(PATIENCE);
            if told
                .unwrap_or_else(|_| panic!("no line has `{line}`"))
                .contains(line)
            {
                return;
            }
        }
    }

    fn file(&self, name: &str) -> PathBuf {
        self.folder.join(name)
    }

    fn write(&self, name: &str, text: &str) {
        std::fs::write(self.file(name), text).unwrap();
    }

    /// Ends it as Ctrl-C does.
    fn interrupted(mut self) -> Option<i32> {
        let id = self.child.id().to_string();
        assert!(Command::new("kill")
            .args(["-INT", &id])
            .status()
            .unwrap()
            .success());
        self.child.wait().unwrap().code()
    }
}

impl Drop for Watching {
    fn drop(&mut self) {
        // Of a test that failed; else it has ended.
        let _ = self.child.kill();
    }
}

#[test]
fn saved_in_place_and_by_rename() {
    let watching = Watching::new("watch-saved");
    watching.write("t.lev", &text("A('a')"));
    watching.says("attack 1 1 0");
    watching.write("other", &text("A('a') A('b')"));
    std::fs::rename(watching.file("other"), watching.file("t.lev")).unwrap();
    watching.says("attack 2 2 0");
    // The old file becomes the backup, and a new one is written.
    std::fs::rename(watching.file("t.lev"), watching.file("t.lev~")).unwrap();
    watching.write("t.lev", &text("A('a') A('b') A('c')"));
    watching.says("attack 3 3 0");
    watching.write("t.lev", &text(""));
    watching.says("run 0 0 0");
    assert_eq!(watching.interrupted(), Some(0));
}

#[test]
fn what_is_wrong_is_told_and_watching_goes_on() {
    let watching = Watching::new("watch-wrong");
    watching.write("t.lev", &text("A('a'"));
    watching.tells("--> t.lev:3:13");
    watching.tells(WATCHING);
    watching.write("t.lev", "");
    watching.tells("error: t.lev: there is no lemma to rule on");
    watching.tells(WATCHING);
    std::fs::remove_file(watching.file("t.lev")).unwrap();
    watching.tells("error: t.lev: No such file");
    watching.tells(WATCHING);
    watching.write("t.lev", &text("A('a')"));
    watching.says("attack 1 1 0");
    assert_eq!(watching.interrupted(), Some(0));
}

#[test]
fn the_file_that_a_link_leads_to() {
    let folder = folder("watch-link");
    std::fs::create_dir(folder.join("real")).unwrap();
    put(&folder, &[("real/other.lev", text("").as_bytes())]);
    std::os::unix::fs::symlink("real/other.lev", folder.join("t.lev")).unwrap();
    let watching = Watching::over(folder);
    watching.write("real/other.lev", &text("A('a')"));
    watching.says("attack 1 1 0");
    assert_eq!(watching.interrupted(), Some(0));
}

/// How often the threads of a process have been woken.
fn woken(id: u32) -> u64 {
    let tasks = std::fs::read_dir(format!("/proc/{id}/task")).unwrap();
    let status = |task: &Path| std::fs::read_to_string(task.join("status")).unwrap();
    let count = |status: String| {
        let switches = status
            .lines()
            .filter(|line| line.contains("voluntary_ctxt"));
        let numbers = switches.map(|line| line.split_whitespace().last().unwrap().to_string());
        numbers.map(|n| n.parse::<u64>().unwrap()).sum::<u64>()
    };
    tasks.map(|task| count(status(&task.unwrap().path()))).sum()
}

#[test]
fn nothing_is_done_while_nothing_is_saved() {
    let watching = Watching::new("watch-idle");
    let id = watching.child.id();
    // Threads that go to sleep after the first ruling are asleep when the count stands still.
    let mut before = woken(id);
    loop {
        thread::sleep(Duration::from_millis(200));
        let now = woken(id);
        if now == before {
            break;
        }
        assert!(now < before + 20, "{before}, {now}");
        before = now;
    }
    assert_eq!(watching.interrupted(), Some(0));
}

#[test]
fn a_reader_that_goes_away_ends_it() {
    let folder = folder("watch-gone");
    put(&folder, &[("t.lev", text("").as_bytes())]);
    let mut child = Command::new(env!("CARGO_BIN_EXE_levtosziv"))
        .args(["check", "--watch", "t.lev"])
        .current_dir(&folder)
        .stdout(Stdio::piped())
        .stderr(Stdio::piped())
        .spawn()
        .unwrap();
    let told = lines(child.stderr.take().unwrap());
    assert_eq!(told.recv_timeout(PATIENCE).as_deref(), Ok(WATCHING));
    drop(child.stdout.take());
    put(&folder, &[("t.lev", text("A('a')").as_bytes())]);
    assert_eq!(child.wait().unwrap().code(), Some(0));
}

#[test]
fn arguments() {
    let folder = folder("watch-arguments");
    put(&folder, &[("t.lev", text("").as_bytes())]);
    let code = |arguments: &[&str]| levtosziv(arguments, &folder).status.code();
    assert_eq!(code(&["check", "--watch", "."]), Some(2));
    assert_eq!(code(&["check", "--watch", "none.lev"]), Some(4));
    let both = ["check", "--watch", "t.lev", "--fail-on", "attack"];
    assert_eq!(code(&both), Some(2));
}
