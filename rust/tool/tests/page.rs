//! The page: what it says, that it refers to nothing outside itself, that names are text in it, and how a browser takes it.

mod common;

use common::*;
use std::collections::{BTreeSet, HashSet};
use std::io::Write;
use std::path::Path;
use std::process::Command;

const DH: &str = "rule A1: [ Fr(~a) ] --> [ StA(~a), Out('g'^~a) ]
rule A2: [ StA(~a), In(gb) ] --[ KeyA(gb^~a) ]-> [ ]
lemma secret: \"All k #i. KeyA(k) @ #i ==> not (Ex #j. K(k) @ #j)\"
run honest [fill]: A1(~a)
run mitm [fill]: ifresh(~e) A1(~a) A2(~a, 'g'^~e) isend('g'^(~a*~e))
run bad [fill]: ifresh(~e) A2(~a, 'g'^~e) isend('g'^~e)
";

/// The page of these inputs.
fn page(inputs: &[&str], folder: &Path) -> String {
    let arguments = [&["page"], inputs, &["page.html"]].concat();
    let output = levtosziv(&arguments, folder);
    assert_eq!(output.status.code(), Some(0), "{output:?}");
    assert!(output.stderr.is_empty(), "{output:?}");
    std::fs::read_to_string(folder.join("page.html")).unwrap()
}

/// A file read by a program in Python, with what that prints.
fn python(program: &str, text: &str, folder: &Path) -> String {
    std::fs::write(folder.join("read"), text).unwrap();
    let output = Command::new("python3")
        .args(["-c", program, "read"])
        .current_dir(folder)
        .output()
        .unwrap();
    assert!(output.status.success(), "{output:?}");
    stdout(&output)
}

const READ: &str = "
import html.parser, json, sys
class Reader(html.parser.HTMLParser):
    def __init__(self):
        super().__init__()
        self.tags, self.attributes, self.text, self.style = [], [], [], []
    def handle_starttag(self, tag, attributes):
        self.tags.append(tag)
        self.attributes += attributes
    def handle_data(self, data):
        (self.style if self.tags and self.tags[-1] == 'style' else self.text).append(data)
    def handle_endtag(self, tag):
        self.tags.append('/' + tag)
reader = Reader()
reader.feed(open(sys.argv[1], encoding='utf-8').read())
print(json.dumps(dict(tags=reader.tags, attributes=reader.attributes, text=''.join(reader.text), style=''.join(reader.style))))
";

/// A page as a browser takes it apart.
#[derive(serde::Deserialize)]
struct Read {
    tags: Vec<String>,
    attributes: Vec<(String, String)>,
    text: String,
    style: String,
}

impl Read {
    fn of(page: &str, folder: &Path) -> Read {
        serde_json::from_str(&python(READ, page, folder)).unwrap()
    }

    /// What an attribute has, wherever it stands.
    fn values(&self, name: &str) -> Vec<&str> {
        let found = self.attributes.iter().filter(|(other, _)| other == name);
        found.map(|(_, value)| value.as_str()).collect()
    }
}

const TAGS: &str = "a body code div g h1 h2 h3 head html input label li main meta p path polygon polyline pre section small span strong style svg table tbody td text th thead title tr ul";
const ATTRIBUTES: &str = "aria-label charset class content d data-heading fill font-family font-size for height href http-equiv id lang name points preserveaspectratio role scope stroke stroke-dasharray stroke-width tabindex text-anchor transform type viewbox width x xlink:href xlink:title xmlns xmlns:xlink y";

/// No tag and no attribute but those of the page and its pictures, no reference but to ids of the page, each of which is there once.
fn stands_alone(page: &str, folder: &Path) -> Read {
    let read = Read::of(page, folder);
    let known: HashSet<&str> = TAGS.split(' ').collect();
    for tag in &read.tags {
        assert!(known.contains(tag.trim_start_matches('/')), "{tag}");
    }
    let known: HashSet<&str> = ATTRIBUTES.split(' ').collect();
    for (name, value) in &read.attributes {
        assert!(known.contains(name.as_str()), "{name}={value}");
    }
    let ids = read.values("id");
    let known: HashSet<&str> = ids.iter().copied().collect();
    assert_eq!(known.len(), ids.len());
    let links = [read.values("href"), read.values("xlink:href")].concat();
    assert!(links.len() > 3);
    for link in links {
        let id = link.strip_prefix('#').expect(link);
        assert!(known.contains(id), "{link}");
    }
    assert!(!read.style.contains("url(") && !read.style.contains("@import"));
    assert!(page.contains("content=\"default-src 'none'; style-src 'sha256-"));
    read
}

#[test]
fn many_cases() {
    let folder = folder("page-many");
    put(&folder, &[("dh.lev", DH.as_bytes())]);
    let page = page(&["dh.lev"], &folder);
    stands_alone(&page, &folder);
    assert!(page.contains("<h1 id=\"index\">3 cases: 1 attack, 1 run, 1 refused</h1>"));
    assert!(page.contains("<a href=\"#case2\">mitm</a></td><td>secret</td>"));
    assert!(page.contains("<code>secret</code> is false of it."));
    assert!(page.contains("(A2): <code>KeyA(&#39;g&#39;^(~a*~e))</code>"));
    assert!(page.contains("--&gt; dh.lev:6:28\n"));
    assert!(page.contains("step 6 (A2) needs StA(~a): no StA is in the state"));
    assert_eq!(page.matches("<svg").count(), 3);
    assert_eq!(page.matches(" class=\"witness\"").count(), 2);
    assert_eq!(page.matches(" class=\"refused\"><th").count(), 1);
    // What scrolls is reached by the keyboard.
    let scrolls = page.matches("<pre").count() + page.matches("<div class=\"picture\"").count();
    assert_eq!(page.matches("tabindex=\"0\"").count(), scrolls);
    // One protocol, which all three lead to.
    assert_eq!(page.matches("<section id=\"protocol").count(), 1);
    assert_eq!(page.matches("href=\"#protocol1\"").count(), 3);
}

#[test]
fn one_case_has_no_index() {
    let folder = folder("page-one");
    put(&folder, &[("dh.lev", DH.as_bytes())]);
    let page = page(&["dh.lev", "--run", "mitm"], &folder);
    stands_alone(&page, &folder);
    assert!(page.contains("<h1>mitm <small>/ secret</small></h1>"));
    assert!(page.contains("<title>mitm / secret: attack 11 3 11</title>"));
    assert!(!page.contains("<table class=\"index\">"));
}

#[test]
fn cases_of_several_texts_have_the_name_of_their_text() {
    let folder = folder("page-texts");
    put(
        &folder,
        &[("a.lev", DH.as_bytes()), ("b.lev", DH.as_bytes())],
    );
    let several = page(&["a.lev", "b.lev", "--run", "mitm"], &folder);
    stands_alone(&several, &folder);
    assert!(several.contains("<a href=\"#case1\">a.lev: mitm</a>"));
    assert!(several.contains("<h2>b.lev: mitm <small>"));
    // The protocol is one, and so is the way back.
    assert_eq!(several.matches("<section id=\"protocol").count(), 1);
    assert_eq!(several.matches("href=\"#index\"").count(), 2);
}

#[test]
fn folders_of_cases() {
    let folder = folder("page-folders");
    let real = root().join("tests/corpus/real");
    let examples = root().join("examples");
    let inputs = [real.to_str().unwrap(), examples.to_str().unwrap()];
    let page = page(&inputs, &folder);
    stands_alone(&page, &folder);
    let folders = inputs
        .iter()
        .flat_map(|folder| std::fs::read_dir(folder).unwrap());
    let lines = folders.map(|folder| folder.unwrap().path().join("expected.txt"));
    let lines = lines.filter_map(|line| std::fs::read_to_string(line).ok());
    let lines: Vec<String> = lines.collect();
    let count = |word: &str| lines.iter().filter(|line| line.contains(word)).count();
    let (all, attacks, runs) = (lines.len(), count("attack "), count("run "));
    let refused = count("refused ");
    let counts = format!("{all} cases: {attacks} attacks, {runs} runs, {refused} refused");
    assert!(
        all >= 40 && page.contains(&format!("<h1 id=\"index\">{counts}</h1>")),
        "{counts}"
    );
    assert!(page.contains(&format!("id=\"case{all}node1\"")));
}

#[test]
fn arguments() {
    let folder = folder("page-arguments");
    put(&folder, &[("dh.lev", DH.as_bytes())]);
    let code = |arguments: &[&str]| levtosziv(arguments, &folder).status.code();
    assert_eq!(code(&["page", "dh.lev"]), Some(2));
    // The last text would be written over.
    assert_eq!(code(&["page", "dh.lev", "dh.lev"]), Some(2));
    assert_eq!(std::fs::read(folder.join("dh.lev")).unwrap(), DH.as_bytes());
    assert_eq!(code(&["page", "none.lev", "page.html"]), Some(4));
    assert_eq!(code(&["page", "dh.lev", "none/page.html"]), Some(4));
}

#[test]
fn without_graphviz_the_page_says_so() {
    let folder = folder("page-without-graphviz");
    put(&folder, &[("dh.lev", DH.as_bytes())]);
    let output = Command::new(env!("CARGO_BIN_EXE_levtosziv"))
        .args(["page", "dh.lev", "page.html"])
        .env("PATH", "")
        .current_dir(&folder)
        .output()
        .unwrap();
    assert_eq!(output.status.code(), Some(0));
    let said = String::from_utf8_lossy(&output.stderr).into_owned();
    assert!(said.contains("3 of 3 pictures are missing"), "{said}");
    let page = std::fs::read_to_string(folder.join("page.html")).unwrap();
    assert!(page.contains("There is no picture: Graphviz&#39; dot cannot be run"));
    assert!(page.contains("attack 11 3 11"));
}

#[test]
fn the_policy_lets_the_style_through() {
    let folder = folder("page-policy");
    put(&folder, &[("dh.lev", DH.as_bytes())]);
    let page = page(&["dh.lev"], &folder);
    let style = Read::of(&page, &folder).style;
    let digest = "import base64, hashlib, sys; print('sha256-' + base64.b64encode(hashlib.sha256(open(sys.argv[1], 'rb').read()).digest()).decode())";
    let digest = python(digest, &style, &folder);
    let policy = format!("style-src '{}';", digest.trim());
    assert!(page.contains(&policy), "the style's digest is {digest}");
}

#[test]
fn each_colour_of_a_picture_has_one_for_the_dark() {
    let folder = folder("page-colours");
    let real = root().join("tests/corpus/real");
    let page = page(&[real.to_str().unwrap()], &folder);
    let read = Read::of(&page, &folder);
    let dark = read
        .style
        .split("prefers-color-scheme: dark")
        .nth(1)
        .unwrap();
    let mut colours = BTreeSet::new();
    for name in ["fill", "stroke"] {
        let all = read.values(name).into_iter();
        let all = all.filter(|colour| colour.starts_with('#'));
        colours.extend(all.map(|colour| format!("[{name}=\"{colour}\"]")));
    }
    assert!(colours.len() > 15, "{colours:?}");
    for colour in colours {
        assert!(dark.contains(&colour), "{colour}");
    }
}

/// Names that a page must show as they are, and must not take for its own.
const HOSTILE: [&str; 7] = [
    "<script>alert(1)</script>",
    "\"><img src=x onerror=alert(1)>",
    "</pre></section></style><h1>",
    "&lt;b&gt; &amp;amp;",
    "a|b{c}\\n<p1>",
    "\u{5D0}\u{5D1}\u{5D2}",
    "`a`; --> <!-- x",
];

#[test]
fn hostile_names_are_text() {
    let folder = folder("page-hostile");
    let long = "x".repeat(5_000);
    let mut text = format!("rule {long}: [ In(x) ] --[ Seen(x) ]-> [ ]\nlemma seen: \"All x #i. Seen(x) @ #i ==> F\"\nrun r [fill]:\n");
    for name in HOSTILE {
        text += &format!("  {long}('{name}')\n");
    }
    text += &format!("  {long}('turned\u{202E}round\u{7}\u{200B}') {long}('{long}')\n");
    put(&folder, &[("t.lev", text.as_bytes())]);
    // A folder's name is the case's.
    let case = folder.join("<i onclick=x>\"'&");
    let example = root().join("examples/printed-case");
    std::fs::create_dir(&case).unwrap();
    for name in ["protocol.bin", "property.bin", "graph.bin"] {
        std::fs::copy(example.join(name), case.join(name)).unwrap();
    }
    let page = page(&["t.lev", case.to_str().unwrap()], &folder);
    let said = stands_alone(&page, &folder).text;
    for name in HOSTILE {
        // In the table and in the picture.
        let name = name.replace('\u{5D2}', "\u{5D2}\u{200E}");
        assert!(said.matches(&name).count() >= 2, "{name}");
    }
    assert!(said.contains("'turned\\u{202e}round\\u{7}\\u{200b}'"));
    assert!(said.contains("<i onclick=x>\"'&"));
    for unseen in ['\u{202E}', '\u{7}', '\u{200B}'] {
        assert!(!page.contains(unseen), "{unseen:?}");
    }
}

/// What `timeout` answers for a program that was stopped, killed, or is not there.
const STOPPED: i32 = 124;
const KILLED: i32 = 137;
const MISSING: i32 = 127;

/// Chromium without a window, over a page in a folder; nothing where it is not installed. It gets two minutes, and a second try.
fn chromium(arguments: &[&str], folder: &Path) -> Option<String> {
    let profile = format!("--user-data-dir={}", folder.join("profile").display());
    let page = format!("file://{}", folder.join("page.html").display());
    let try_once = || {
        let mut command = Command::new("timeout");
        command.args(["--kill-after=5", "120", "chromium", "--headless"]);
        command.args(["--no-sandbox", "--disable-gpu", &profile]);
        command.args(arguments).arg(&page).current_dir(folder);
        command.output().expect("timeout, of Debian's coreutils")
    };
    let mut output = try_once();
    if let Some(STOPPED | KILLED) = output.status.code() {
        output = try_once();
    }
    if output.status.code() == Some(MISSING) {
        // Past the harness, which keeps what a passed test prints.
        let message = "\nskipped: no browser looks at the page, for chromium is not installed; Debian has it in the package chromium\n";
        std::io::stderr().write_all(message.as_bytes()).unwrap();
        return None;
    }
    assert!(output.status.success(), "{output:?}");
    Some(stdout(&output))
}

#[test]
fn in_a_browser() {
    let folder = folder("page-in-a-browser");
    put(&folder, &[("dh.lev", DH.as_bytes())]);
    page(&["dh.lev"], &folder);
    let Some(seen) = chromium(&["--dump-dom"], &folder) else {
        return;
    };
    assert!(seen.contains("3 cases: 1 attack, 1 run, 1 refused"));
    for (case, steps) in [(1, 2), (2, 11), (3, 7)] {
        let rows = seen.matches(&format!("<tr id=\"case{case}step")).count();
        assert_eq!(rows, steps, "case {case}");
    }
    assert_eq!(seen.matches("class=\"node\"").count(), 2 + 11 + 6 + 1);
    let shot = |name: &str, scheme: &str, size: &str| {
        let to = format!("--screenshot={name}");
        let scheme = format!("--blink-settings=preferredColorScheme={scheme}");
        chromium(&[&to, &scheme, &format!("--window-size={size}")], &folder);
        let picture = std::fs::read(folder.join(name)).unwrap();
        assert!(picture.starts_with(b"\x89PNG"));
        picture
    };
    let light = shot("light.png", "1", "1200,900");
    let dark = shot("dark.png", "0", "1200,900");
    // A style that the policy refuses would leave both white.
    assert_ne!(light, dark);
    assert_ne!(light, shot("narrow.png", "1", "500,900"));
}
