//! What the C header declares and what the table in `src/sys.rs` says, in the same words: a test can compare what no compiler
//! does.

/// A function's name, and the type and name of each argument, in Rust's words.
pub type Declared = (String, Vec<(String, String)>);

/// The functions of the C header, by name.
pub fn of_header(text: &str) -> Vec<Declared> {
    let mut all: Vec<Declared> = text
        .split("\nuint8_t ")
        .skip(1)
        .map(|function| {
            let (name, rest) = function.split_once('(').unwrap();
            let (arguments, _) = rest.split_once(");").unwrap();
            let argument = |text: &str| {
                let text = text.trim();
                let at = text.rfind([' ', '*']).unwrap() + 1;
                let (kind, name) = text.split_at(at);
                let kind = match kind.split_whitespace().collect::<Vec<_>>().join(" ").as_str() {
                    "const uint8_t *" => "*const u8",
                    "uint8_t *" => "*mut u8",
                    "size_t *" => "*mut usize",
                    "size_t" => "usize",
                    "uint16_t" => "u16",
                    "bool" => "bool",
                    other => panic!("{name}: no Rust type for {other:?}"),
                };
                (kind.to_string(), name.to_string())
            };
            (name.to_string(), arguments.split(',').map(argument).collect())
        })
        .collect();
    all.sort();
    all
}

/// The rows of the table in `src/sys.rs`, its kinds spread out as the macro `declare` there does it, by name.
pub fn of_table(text: &str) -> Vec<Declared> {
    let (_, rows) = text.split_once("$make! {").expect("the table's beginning");
    let (rows, _) = rows.split_once('}').expect("the table's end");
    let mut all: Vec<Declared> = rows
        .split(';')
        .filter(|row| !row.trim().is_empty())
        .map(|row| {
            let (names, arguments) = row.split_once('(').unwrap();
            let (call, export) = names.trim().split_once(" = ").unwrap();
            assert_eq!(export, format!("genie_{call}"));
            let arguments = arguments.trim_end().strip_suffix(')').unwrap();
            (export.to_string(), arguments.split(',').flat_map(spread).collect())
        })
        .collect();
    all.sort();
    all
}

fn spread(argument: &str) -> Vec<(String, String)> {
    let one = |kind: &str, name: &str| (kind.to_string(), name.to_string());
    let slice = |kind: &str, name: &str| vec![one(kind, name), one("usize", &format!("{name}_len"))];
    let words: Vec<&str> = argument.split_whitespace().collect();
    match words[..] {
        ["disk" | "changed", image, g] => {
            // The header's names of a second geometry end in a number.
            let end = match g {
                "h" => "2",
                g => g.strip_prefix('g').expect("g or h"),
            };
            let mut all = slice(if words[0] == "disk" { "*const u8" } else { "*mut u8" }, image);
            for (kind, name) in [
                ("usize", "blocks"),
                ("usize", "units"),
                ("usize", "start"),
                ("u16", "open_code"),
                ("bool", "system_disk"),
                ("usize", "granule_sectors"),
            ] {
                all.push(one(kind, &format!("{name}{end}")));
            }
            all
        }
        ["birth", _] => vec![
            one("usize", "day"),
            one("usize", "month"),
            one("usize", "year"),
            one("usize", "length"),
            one("u16", "main_code"),
            one("u16", "worker_code"),
            one("bool", "checking"),
        ],
        ["bytes", name] => slice("*const u8", name),
        ["room", name] => slice("*mut u8", name),
        ["number", name] => vec![one("usize", name)],
        ["flag", name] => vec![one("bool", name)],
        ["code", name] => vec![one("u16", name)],
        ["out" | "fault", name] => vec![one("*mut usize", name)],
        _ => panic!("no such argument: {argument}"),
    }
}
