//! The functions and rules that are there under every protocol, public keys and signatures among them, as the core has them and as users meet them.

mod common;

use common::*;
use std::path::Path;
use tool::bytes;
use tool::kernel::Kernel;
use tool::model::*;

/// Two functions and two rules of a protocol's own.
const OWN: &str = "functions: f/1, g/4
rule A: [ In(f(x)) ] --> [ Out(g(x, x, x, x)) ]
rule B: [ Fr(~n) ] --[ Made(~n) ]-> [ ]
";

fn said(arguments: &[&str], folder: &Path) -> String {
    let output = levtosziv(arguments, folder);
    stdout(&output) + &stderr(&output)
}

/// A node of the rule of this number, with a name for each of its variables.
fn node(protocol: &Protocol, number: u32) -> Node {
    let value = |sort: &u32| match *sort {
        SORT_FRESH => Term::Fresh(0),
        _ => Term::Public(0),
    };
    let rule = protocol.rule(number);
    let sorts = rule.map_or(Vec::new(), |rule| rule.sorts);
    Node {
        rule: number,
        values: sorts.iter().map(value).collect(),
    }
}

#[test]
fn a_rule_is_there_where_the_core_has_one() {
    let theory = tool::text::parse(OWN).unwrap();
    let protocol = &theory.protocol;
    let mut kernel = Kernel::new(&bytes::encode_protocol(protocol));
    let mut there = Vec::new();
    for number in 0..300 {
        let nodes = vec![node(protocol, number)];
        let edges = Vec::new();
        let graph = bytes::encode_graph(&Graph { nodes, edges });
        let refused = kernel.check(&[0], &graph).err().map(|r| r.number);
        assert_eq!(
            refused == Some(6),
            protocol.rule(number).is_none(),
            "rule {number}"
        );
        // The values are as many as the rule has, or the file would be refused as layout.
        assert_ne!(refused, Some(3), "rule {number}");
        there.extend(protocol.rule(number).map(|_| number));
    }
    assert_eq!(there, protocol.rule_numbers());
    assert_eq!(there.len(), 5 + 16 + 2 + 2);
}

#[test]
fn each_function_is_applied_by_the_rule_of_its_name() {
    let folder = folder("functions-applied");
    let own = [("f", 1), ("g", 4)];
    let built_in = BUILT_IN.iter().map(|f| (f.name, f.arity as usize));
    for (name, arity) in built_in.chain(own) {
        let arguments = ["'a'", "'b'", "'c'", "'d'"][..arity].join(", ");
        let names: Vec<String> = arguments.split_terminator(", ").map(pub_step).collect();
        let steps = names.concat();
        let text = format!(
            "{OWN}lemma l: F\nrun r: {steps} c_{name}({arguments}) isend({name}({arguments}))\n"
        );
        put(&folder, &[("t.lev", text.as_bytes())]);
        let line = said(&["check", "t.lev", "--format", "line"], &folder);
        assert_eq!(line, format!("attack {} 1 {}\n", arity + 2, arity + 1));
        let drawn = said(&["draw", "t.lev"], &folder);
        assert!(
            drawn.contains(&format!(": c_{name}({arguments})\n")),
            "{drawn}"
        );
    }
}

fn pub_step(name: &str) -> String {
    format!("pub({name}) ")
}

#[test]
fn a_function_in_a_property_is_named() {
    let folder = folder("functions-property");
    let names = ["aenc", "adec", "pk", "sign", "verify", "true"];
    for (name, tag) in names.iter().zip(29..) {
        let term = [1, tag, 1, 0, 1, 0, 1, 0, 1, 0];
        for (property, at, reason) in [
            (
                &term[..],
                1,
                format!("tag {tag} ({name}): only variables and public names stand in a property"),
            ),
            (&term[1..], 0, format!("{tag} is no tag of a formula")),
        ] {
            put(
                &folder,
                &[
                    ("protocol.bin", &[0, 0, 0]),
                    ("property.bin", property),
                    ("graph.bin", &[0, 0]),
                ],
            );
            let words = said(&["check", "."], &folder);
            assert!(words.contains(": refused 3 2\n"), "{words}");
            let reason = format!("property.bin, byte {at}: {reason}\n");
            assert!(words.contains(&reason), "{words}");
            let shown = levtosziv(&["show", "property.bin"], &folder);
            assert_eq!(shown.status.code(), Some(4));
        }
    }
}

/// A text with a function of its own that has such a name is an error at its place; the files that were built of it are ruled on as ever.
#[test]
fn a_function_of_ones_own_keeps_its_files() {
    let folder = folder("functions-own");
    let text = "functions: kdf/1, my_sign/2
rule A: [ Fr(~k) ] --[ Made(~k) ]-> [ Out(my_sign(kdf('m'), ~k)) ]
lemma l: F
run r: fresh(~k) A(~k)
";
    put(&folder, &[("t.lev", text.as_bytes())]);
    assert_eq!(said(&["build", "t.lev", "out"], &folder), "");
    put(
        &folder,
        &[("u.lev", text.replace("my_sign", "seal").as_bytes())],
    );
    assert_eq!(said(&["build", "u.lev", "other"], &folder), "");
    for name in ["protocol.bin", "graph.bin"] {
        let bytes = |place: &str| std::fs::read(folder.join(place).join(name)).unwrap();
        assert_eq!(bytes("out"), bytes("other"), "{name}");
    }
    let clashing = text.replace("my_sign", "sign");
    put(&folder.join("out"), &[("theory.lev", clashing.as_bytes())]);
    let words = said(&["check", "out"], &folder);
    assert!(words.contains("out / property: attack 2 1 1\n"), "{words}");
    let note = "note: out/theory.lev:1:19: the function `sign` is built in; so the names of this text are not used\n";
    assert!(words.contains(note), "{words}");
    assert!(said(&["show", "out"], &folder).contains("Out(f1(f0('p0'), ~x0))"));
    let text = levtosziv(&["check", "out/theory.lev"], &folder);
    assert_eq!(text.status.code(), Some(3));
}

/// A word without brackets is a function only where that takes no arguments: texts go on to call variables and values `pk` or `sign`.
#[test]
fn a_function_that_takes_arguments_leaves_its_name_free() {
    let folder = folder("functions-words");
    let text = "facts: !Pk/2, Seen/2
rule See: [ !Pk($A, pk), In(sign) ] --[ Seen(pk^sign, pk(sign)) ]-> [ ]
rule Key: [ Fr(~verify) ] --> [ !Pk($A, 'g'^~verify) ]
lemma l: \"All pk sign #i. Seen(pk, sign) @ #i ==> F\"
run r [fill]: let pk = 'g'^~k let sign = 'm' Key(~k, 'A') See('A', pk, sign)
";
    put(&folder, &[("t.lev", text.as_bytes())]);
    let words = said(&["check", "t.lev"], &folder);
    assert!(words.starts_with("r / l: attack 5 2 4\n"), "{words}");
    assert!(words.contains("Seen('g'^('m'*~k), pk('m'))"), "{words}");
    // Of `true` it is not left free, and whoever gives it a value is told.
    let text = "rule A: [ In(true) ] --> [ ]\nlemma l: F\nrun r: A('x')\n";
    put(&folder, &[("t.lev", text.as_bytes())]);
    let words = said(&["check", "t.lev"], &folder);
    assert!(
        words.starts_with("error: `A` takes 0 values, here it has 1\n"),
        "{words}"
    );
}

#[test]
fn the_intruder_opens_what_it_has_the_key_of() {
    let folder = folder("functions-filled");
    let text = "rule A: [ Fr(~k), Fr(~m) ] --> [ !Key(~k), Out(pk(~k)), Out(aenc(<'m', ~m>, pk(~k))), Out(sign(~m, ~k)) ]
rule Reveal: [ !Key(k) ] --> [ Out(k) ]
lemma l: F
run opened [fill]: A(~k, ~m) Reveal(~k) isend(~m)
run closed [fill]: A(~k, ~m) isend(~m)
run sealed [fill]: A(~k, ~m) isend(aenc('x', pk(~k)))
run forged [fill]: A(~k, ~m) isend(sign('x', ~k))
run checked [fill]: A(~k, ~m) Reveal(~k) know ~m c_verify(sign(~m, ~k), ~m, pk(~k))
";
    put(&folder, &[("t.lev", text.as_bytes())]);
    let line = |run: &str| {
        let which = ["check", "t.lev", "--format", "line", "--run", run];
        said(&which, &folder)
    };
    // fresh, fresh, A, Reveal, then: hear the ciphertext and the key, adec, snd, send.
    assert_eq!(line("opened"), "attack 9 1 9\n");
    let drawn = said(&["draw", "t.lev", "--run", "opened"], &folder);
    assert!(
        drawn.contains("c_adec(aenc(<'m', ~m>, pk(~k)), ~k)"),
        "{drawn}"
    );
    assert_eq!(line("closed"), "refused 14 4\n");
    assert_eq!(line("sealed"), "attack 7 1 6\n");
    assert_eq!(line("forged"), "refused 14 4\n");
    assert_eq!(line("checked"), "attack 11 0 13\n");
}

/// Rules 95 to 100 are the intruder's, and letters for terms are never taken for functions, however many are declared.
#[test]
fn pictures_of_signatures() {
    let folder = folder("functions-pictures");
    let declared: Vec<String> = (0..16).map(|i| format!("f{i}/1")).collect();
    let text = format!(
        "functions: {}
rule A: [ Fr(~k) ] --> [ Out(sign(<'m', ~k>, ~k)), Out(~k) ]
lemma l: F
run r [fill]: A(~k) know ~k c_pk(~k) isend(f15(sign(<'m', ~k>, ~k)))
",
        declared.join(", ")
    );
    put(&folder, &[("t.lev", text.as_bytes())]);
    said(&["picture", "t.lev", "t.dot"], &folder);
    let dot = std::fs::read_to_string(folder.join("t.dot")).unwrap();
    let line = |part: &str| {
        let found = dot.lines().find(|line| line.contains(part));
        found
            .unwrap_or_else(|| panic!("{part} in {dot}"))
            .to_string()
    };
    assert!(line(": c_pk}").contains("fillcolor=\"#ffffff\""), "{dot}");
    assert!(!line(": A}").contains("fillcolor=\"#ffffff\""), "{dot}");
    assert!(
        line("legend").contains("A = sign(\\<'m', ~k\\>, ~k)"),
        "{dot}"
    );
    assert!(line(": c_f15}").contains("K(A)"), "{dot}");
}
