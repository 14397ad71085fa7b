//! What the build script left of the proved sources, and that it only left out: from the files that were compiled.

#[path = "../../rust/tests/common/declared.rs"]
#[allow(dead_code)]
mod declared;
#[path = "../erase.rs"]
mod erase;

use std::fs;
use std::path::{Path, PathBuf};

/// Where the build script wrote what this crate is compiled from.
const OUT: &str = env!("OUT_DIR");

fn project() -> PathBuf {
    Path::new(env!("CARGO_MANIFEST_DIR")).join("../..").canonicalize().unwrap()
}

fn read(path: &Path) -> String {
    fs::read_to_string(path).unwrap_or_else(|why| panic!("{}: {why}", path.display()))
}

/// The crates that `genie` stands on, found in crates.txt by another way than the build script's: names are added until
/// no more are.
fn crates() -> Vec<String> {
    let text = read(&project().join("crates.txt"));
    let lines: Vec<(&str, Vec<&str>)> = text
        .lines()
        .filter_map(|line| line.split('#').next().unwrap().split_once(':'))
        .map(|(name, uses)| (name.trim(), uses.split_whitespace().collect()))
        .collect();
    let mut found = vec!["genie".to_string()];
    let mut at = 0;
    while at < found.len() {
        let (_, uses) = lines.iter().find(|(name, _)| *name == found[at]).expect("a line of its own");
        for used in uses {
            if !found.iter().any(|name| name == used) {
                found.push(used.to_string());
            }
        }
        at += 1;
    }
    found.sort();
    found
}

/// The lines left out of a crate, by their number from 1.
fn left_out(name: &str) -> Vec<(usize, String)> {
    let text = read(&Path::new(OUT).join(format!("{name}.left-out")));
    let lines = text.lines().map(|line| line.split_once(' ').expect("a number and a line"));
    lines.map(|(number, line)| (number.parse().unwrap(), line.to_string())).collect()
}

fn source(name: &str) -> PathBuf {
    project().join("crates").join(name).join("src/lib.rt")
}

/// The lines left and the lines left out, put together again, are each file byte for byte.
#[test]
fn together_again() {
    let (mut kept, mut gone) = (0, 0);
    for name in crates() {
        let left = read(&Path::new(OUT).join(format!("{name}.rs")));
        let mut lines: Vec<&str> = left.split('\n').collect();
        let out = left_out(&name);
        for (number, line) in &out {
            assert_eq!(lines[number - 1], "", "{name}, line {number}: left, and left out");
            lines[number - 1] = line;
        }
        kept += lines.len() - out.len();
        gone += out.len();
        assert!(lines.join("\n").into_bytes() == fs::read(source(&name)).unwrap(), "{name} is not the file it was");
    }
    assert!(kept > 4_000 && gone > 800, "{kept} lines left, {gone} left out");
}

/// What is left out is contracts, ghost fields, what is said to the prover, and the mark that goes to a shim. Looked at by
/// lines alone: a clause is indented, starts with its word, and goes on as long as its braces are open, and so does a ghost
/// field, which ends with a comma; nothing that starts so is left. An attribute for the prover is a line that starts with
/// its word and ends with its bracket. Of attributes derives stay, and `#[inline]`.
#[test]
fn only_contracts_are_left_out() {
    let starts = |line: &str| -> Option<&str> {
        let text = line.trim_start();
        let begins = |words: &[&str]| text.len() < line.len() && words.iter().any(|word| text.starts_with(word));
        let field = begins(&["pub ghost ", "ghost "]).then_some("},");
        field.or(begins(&["requires ", "ensures "]).then_some("}"))
    };
    let depth = |line: &str| line.matches('{').count() as isize - line.matches('}').count() as isize;
    for name in crates() {
        let (mut open, mut end, mut last) = (0, "", 0);
        for (number, line) in left_out(&name) {
            let place = format!("{name}, line {number}: {line}");
            if open > 0 {
                assert_eq!(number, last + 1, "{place}: a clause is torn");
                open += depth(&line);
                assert!(open > 0 || line.ends_with(end), "{place}");
            } else if let Some(its_end) = starts(&line) {
                (open, end) = (depth(&line), its_end);
                assert!(open > 0 || line.ends_with(end), "{place}");
            } else {
                let ghost = line.starts_with("ghost use ") && line.ends_with(';');
                let told =
                    ["#![tactic(", "#[tactic(", "#[cycle("].iter().any(|word| line.trim_start().starts_with(word));
                assert!(ghost || told && line.ends_with(")]") || line == "#[unsafe(no_mangle)]", "{place}");
            }
            last = number;
        }
        assert_eq!(open, 0, "{name}: the last clause is not whole");
        for line in read(&Path::new(OUT).join(format!("{name}.rs"))).lines() {
            assert!(starts(line).is_none() && !line.starts_with("ghost "), "{name}: {line}");
            let stays = line.starts_with("#[derive(") || line.trim_start() == "#[inline]";
            assert!(!line.trim_start().starts_with('#') || stays, "{name}: {line}");
        }
    }
}

/// `proved.rs` has a module for each of those crates, with its file and nothing but what may be added.
#[test]
fn what_is_added() {
    let text = read(&Path::new(OUT).join("proved.rs"));
    let mut modules = Vec::new();
    for line in text.lines() {
        let line = line.trim();
        if let Some(name) = line.strip_prefix("pub mod ") {
            modules.push(name.strip_suffix(" {").unwrap().to_string());
            continue;
        }
        let name = modules.last().unwrap();
        let include = format!("include!(concat!(env!(\"OUT_DIR\"), \"/{name}.rs\"));");
        assert!(line == include || line == "}" || line.starts_with("use super::{"), "{name}: {line}");
    }
    assert_eq!(text.matches("include!").count(), modules.len());
    modules.sort();
    assert_eq!(modules, crates());
}

/// The exports under their C names, as they were compiled, by name.
fn shims() -> Vec<declared::Declared> {
    let text = read(&Path::new(OUT).join("exports.rs"));
    let mut all: Vec<_> = text
        .split("pub unsafe extern \"C\" fn ")
        .skip(1)
        .map(|function| {
            let (name, rest) = function.split_once('(').unwrap();
            let (arguments, answer) = rest.split_once(')').unwrap();
            assert!(answer.trim_start().starts_with("-> u8"), "{name} answers {answer}");
            let argument = |text: &str| {
                let (name, kind) = text.split_once(':').unwrap();
                (kind.trim().to_string(), name.trim().to_string())
            };
            let arguments = arguments.split(',').filter(|text| !text.trim().is_empty()).map(argument);
            (name.to_string(), arguments.collect())
        })
        .collect();
    all.sort();
    all
}

/// The shims take what the header declares, whatever the names, and there is one for each export.
#[test]
fn the_exports_are_those_of_the_header() {
    let kinds = |all: Vec<declared::Declared>| -> Vec<(String, Vec<String>)> {
        all.into_iter().map(|(name, arguments)| (name, arguments.into_iter().map(|(kind, _)| kind).collect())).collect()
    };
    let shims = kinds(shims());
    assert_eq!(shims, kinds(declared::of_header(&read(&project().join("host/include/genie.h")))));
    let marked: usize = crates().iter().map(|name| read(&source(name)).matches("#[unsafe(no_mangle)]").count()).sum();
    assert_eq!(shims.len(), marked);
}

/// The exports of the archive that Rattle makes, which `genie_c` has: the same functions under the same contracts, each of
/// them a call of that name in `genie`.
#[test]
fn the_exports_of_the_archive_are_those_of_the_source() {
    let exports = |name: &str| -> Vec<(String, String)> {
        let text = read(&source(name));
        let functions = text.split("#[unsafe(no_mangle)]\npub extern \"C\" fn ").skip(1);
        functions
            .map(|function| {
                let (head, body) = function.split_once("\n{\n").expect("a body");
                (head.to_string(), body[..body.find("\n}\n").expect("its end")].to_string())
            })
            .collect()
    };
    let (ours, theirs) = (exports("genie"), exports("genie_c"));
    assert!(ours.len() > 20 && ours.len() == theirs.len());
    for ((head, _), (other, body)) in ours.iter().zip(&theirs) {
        assert_eq!(head, other);
        let (name, rest) = head.split_once('(').unwrap();
        let parameters = rest[..rest.find(')').unwrap()].split(',').filter_map(|text| text.split_once(':'));
        let names: Vec<&str> = parameters.map(|(name, _)| name.trim()).collect();
        let words: String = body.split_whitespace().collect::<Vec<_>>().join(" ");
        let call = words.replace("( ", "(").replace(", )", ")");
        assert_eq!(call, format!("genie::{name}({})", names.join(", ")));
    }
}

/// What is done with a text: the lines left out.
fn out_of(text: &str) -> Result<Vec<usize>, String> {
    erase::erase("x.rt", text).map(|erased| erased.left_out.iter().map(|(number, _)| number + 1).collect())
}

#[test]
fn forms_that_are_known() {
    let text = "// é\nuse a::B;\nghost use x.{_≡_};\n\npub const C: [u8; 2] = [1, 2];\npub fn f<'a>(x: &'a [u8]) -> &'a [u8]\n    \
                requires { ⌜ {x} ≡\n        y ⌝ }\n    ensures named { λ r. ⌜ r ⌝ }\n{\n    let y = b\"{}\";\n    x\n}\n";
    assert_eq!(out_of(text), Ok(vec![3, 7, 8, 9]));
    let (left, first) = (erase::erase("x.rt", text).unwrap().left, "// é\nuse a::B;\n\n\npub const");
    assert!(left.starts_with(first) && left.ends_with("\n    x\n}\n"), "{left}");
    let types = "#[derive(Clone, Copy)]\npub struct S {\n    a: u8,\n}\nenum E {\n    A,\n    B(u8),\n}\nstruct T(u8, [u8; 3]);\n";
    assert_eq!(out_of(types), Ok(vec![]));
    let ghosts = "#[derive(Clone, Copy)]\npub struct D<'a> {\n    x: &'a [u8],\n    pub ghost y: { Room x.now },\n    n: [u8; 2],\n    \
                  ghost z: { { y ≡\n        x },\n        ⊤ },\n}\nstruct T<'a, 'b>(&'a u8, &'b u8);\nimpl<'a> D<'a> {\n    \
                  fn f(&self)\n        ensures { ⊤ }\n    {\n    }\n}\n";
    assert_eq!(out_of(ghosts), Ok(vec![4, 6, 7, 8, 13]));
    let left = erase::erase("x.rt", ghosts).unwrap().left;
    assert!(left.contains("pub struct D<'a> {\n    x: &'a [u8],\n\n    n: [u8; 2],\n\n\n\n}\n"), "{left}");
    let told = "#![tactic(auto)]\nuse a::{\n    B, C,\n};\n#[tactic(auto, using(crate::proofs::M::x-y), unfolding(z))]\nfn f() {\n    \
                prove!(x < 2);\n}\n#[cycle(a_b)]\nfn g() {\n}\n";
    assert_eq!(out_of(told), Ok(vec![1, 5, 7, 9]));
    assert_eq!(
        out_of("use std::cmp::Ordering;\n#[derive(Clone, Copy, PartialEq, Eq)]\nenum E {\n    A,\n}\n"),
        Ok(vec![])
    );
    let methods = "impl S {\n    fn f(self) -> [u8; 2]\n        ensures { ⊤ }\n    {\n        [1, 2]\n    }\n}\n";
    assert_eq!(out_of(methods), Ok(vec![3]));
    assert_eq!(out_of(""), Ok(vec![]));
}

/// Anything else is an error, which names the file and the line.
#[test]
fn forms_that_are_not_known() {
    let f = |body: &str| format!("fn f(x: u8) -> u8\n    ensures {{ ⊤ }}\n{{\n{body}\n}}\n");
    let cases: &[(String, usize)] = &[
        ("fn f()\n    measure { x }\n{\n}\n".into(), 2),
        ("fn f() -> u8\n    measure { x }\n{\n    1\n}\n".into(), 2),
        ("fn f() -> &'a mut [u8; 3]\n    ghost { x }\n{\n}\n".into(), 2),
        ("fn f()\n    ensures { x\n{\n}\n".into(), 2),
        ("fn f()\n    ensures { x -- } }\n{\n}\n".into(), 2),
        ("fn f()\n    ensures { \"}\" }\n{\n}\n".into(), 2),
        ("fn f()\n    ensures { x } {\n}\n".into(), 2),
        ("fn f() ensures { x }\n{\n}\n".into(), 1),
        ("fn f() -> u8;\n".into(), 1),
        ("fn f<T>(x: T) {\n}\n".into(), 1),
        ("fn f() {\n".into(), 1),
        ("\n}\n".into(), 2),
        ("ghost fn f() {\n}\n".into(), 1),
        ("ghost use x.{y\n};\n".into(), 1),
        ("use a::B; ghost use x.{y};\n".into(), 1),
        ("#[cold]\nfn f() {\n}\n".into(), 1),
        ("#[no_mangle]\npub extern \"C\" fn f() {\n}\n".into(), 1),
        ("#[unsafe(no_mangle)]\nfn f() {\n}\n".into(), 2),
        ("#[unsafe(x)]\npub extern \"C\" fn f() {\n}\n".into(), 1),
        ("#[derive(Debug)]\nstruct S {\n    x: u8,\n}\n".into(), 1),
        ("#[derive(Clone)]\nfn f() {\n}\n".into(), 2),
        ("#[tactic(auto)]\nstruct S {\n    x: u8,\n}\n".into(), 2),
        ("#[tactic(auto)\nfn f() {\n}\n".into(), 1),
        ("#![allow(x)]\n".into(), 1),
        ("const _: () = prove!(x);\n".into(), 1),
        ("#[unsafe(no_mangle)] pub extern \"C\" fn f() {\n}\n".into(), 1),
        ("\n\npub extern \"C\" fn f() {\n}\n".into(), 3),
        ("extern \"C\" {\n}\n".into(), 1),
        ("mod other;\n".into(), 1),
        ("static X: u8 = 1;\n".into(), 1),
        ("struct S<T> {\n    x: T,\n}\n".into(), 1),
        ("struct S<'a {\n    x: &'a u8,\n}\n".into(), 1),
        ("struct S {\n    x: u8\n}\n".into(), 3),
        ("struct S {\n    #[cfg(x)]\n    x: u8,\n}\n".into(), 2),
        ("struct S {\n    ghost x { y }\n}\n".into(), 2),
        ("struct S {\n    ghost x: u8,\n}\n".into(), 2),
        ("struct S {\n    ghost x: { y }\n}\n".into(), 3),
        ("struct S {\n    ghost x: { y,\n".into(), 2),
        ("struct S {\n    ghost x: { y -- }\n    },\n}\n".into(), 2),
        ("struct S {\n    x: u8, ghost y: { z },\n}\n".into(), 2),
        ("struct S {\n    pub ghost y: { z }, x: u8,\n}\n".into(), 2),
        ("struct S {\n    ghost y: {\n        z\n    }, // why\n}\n".into(), 2),
        ("struct S { ghost x: { y },\n}\n".into(), 1),
        ("struct S {\n    ghost x: { y }, }\n".into(), 2),
        ("struct S(u8, ghost x: { y });\n".into(), 1),
        ("enum E {\n    ghost x: { y },\n}\n".into(), 2),
        ("/* x */\n".into(), 1),
        ("trait T {\n}\n".into(), 1),
        ("impl T for S {\n}\n".into(), 1),
        ("impl<'a> T for S<'a> {\n}\n".into(), 1),
        ("impl<T> S<T> {\n}\n".into(), 1),
        ("fn f<'a: 'b>(x: &'a u8) {\n}\n".into(), 1),
        (f("    std::num::wrapping_add_u8(x, 1)"), 4),
        (f("    unsafe { x }"), 4),
        (f("    x ≡ x"), 4),
        (f("    \"\\\"\""), 4),
        (f("    'x'"), 4),
        (f("    #[cfg(x)]\n    x"), 4),
        (f("    ghost let y = x;"), 4),
        (f("    (x]"), 4),
        (f("\tx"), 4),
    ];
    for (text, line) in cases {
        let told = out_of(text).expect_err(text);
        assert!(told.starts_with(&format!("x.rt:{line}: ")), "{text:?}: {told}");
    }
}

#[test]
fn exports_that_are_not_known() {
    let export = |signature: &str| {
        let text = format!("\n#[unsafe(no_mangle)]\npub extern \"C\" fn f({signature}\n{{\n}}\n");
        let erased = erase::erase("x.rt", &text).unwrap();
        erase::shim("genie", &erased.exports[0])
    };
    let good = export("a: &[u8], b: &mut [u8], c: &mut usize, d: u64, e: bool) -> u8").unwrap();
    let taken = "a: *const u8, a_len: usize, b: *mut u8, b_len: usize, c: *mut usize, d: u64, e: bool";
    assert!(good.contains(&format!("f({taken}) -> u8 {{")), "{good}");
    for bad in [
        "x: Geometry) -> u8",
        "x: &[u16]) -> u8",
        "x: &[u8; 4]) -> u8",
        "x: &usize) -> u8",
        "x: u8) -> Answer",
        "x: u8)",
    ] {
        let told = export(bad).expect_err(bad);
        assert!(told.starts_with("x.rt:3: "), "{bad}: {told}");
    }
}

#[test]
fn crates_that_are_not_known() {
    let order = |text: &str| {
        let found = erase::stands_on("crates.txt", text, "top")?;
        Ok::<_, String>(found.iter().map(|line| line.name.clone()).collect::<Vec<_>>().join(" "))
    };
    assert_eq!(order("# x\na:\nother staticlib: b\ntop: b a # y\n\nb: a\n"), Ok("a b top".into()));
    for (bad, place) in [
        ("a:\n", "crates.txt: "),
        ("top: io\n", "crates.txt:1: "),
        ("\ntop: a\na: top\n", "crates.txt:3: "),
        ("top a\n", "crates.txt:1: "),
        ("top program: a\n", "crates.txt:1: "),
        ("top:\ntop:\n", "crates.txt:2: "),
    ] {
        let told = order(bad).expect_err(bad);
        assert!(told.starts_with(place), "{bad}: {told}");
    }
}
