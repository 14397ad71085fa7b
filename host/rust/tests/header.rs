//! The table of exports in `src/sys.rs` against the C header: the compiler cannot compare them, and a difference would go
//! unnoticed. So would one in the words of `genie_message`, in the version, and a call that has no function over a
//! `genie_disk`.

use genie_dos::Refusal;

const HEADER: &str = include_str!("../../include/genie.h");
const STRUCTS: &str = include_str!("../../include/genie_disk.h");

#[path = "common/declared.rs"]
mod declared;

#[test]
fn the_same_functions_with_the_same_arguments() {
    let ours = declared::of_table(include_str!("../src/sys.rs"));
    let theirs = declared::of_header(HEADER);
    assert_eq!(ours.len(), 20);
    assert_eq!(ours, theirs);
}

#[test]
fn each_call_on_a_disk_has_a_function_over_the_struct() {
    for (name, arguments) in declared::of_header(HEADER) {
        let on_one_disk = arguments.iter().any(|(_, argument)| argument == "blocks");
        let over = name.replacen("genie_", "genie_disk_", 1);
        assert_eq!(STRUCTS.contains(&format!("static inline uint8_t {over}(")), on_one_disk, "{over}");
    }
}

/// The cases of `genie_message`: number and words.
fn messages() -> Vec<(u8, String)> {
    let cases = STRUCTS.split("    case ").skip(1);
    cases
        .map(|case| {
            let (number, rest) = case.split_once(": return \"").unwrap();
            (number.parse().unwrap(), rest.split_once("\";").unwrap().0.to_string())
        })
        .collect()
}

#[test]
fn the_same_words_for_each_number() {
    let mut ours: Vec<_> = std::iter::once((0, "done".to_string()))
        .chain(Refusal::ALL.iter().map(|refusal| (refusal.number(), refusal.meaning().to_string())))
        .collect();
    ours.sort();
    assert_eq!(messages(), ours);
    let newer = format!("default: return \"{}\";", Refusal::Other(255).meaning());
    assert!(STRUCTS.contains(&newer));
}

#[test]
fn one_version() {
    let defined = |macro_name: &str| {
        let rest = HEADER.split_once(&format!("#define {macro_name} ")).unwrap().1;
        rest.split_once('\n').unwrap().0.trim_matches('"').to_string()
    };
    let parts = ["MAJOR", "MINOR", "PATCH"].map(|part| defined(&format!("GENIE_VERSION_{part}")));
    assert_eq!(parts.join("."), defined("GENIE_VERSION"));
    assert_eq!(defined("GENIE_VERSION"), env!("CARGO_PKG_VERSION"));
    let manifest = include_str!("../../c/Cargo.toml");
    assert!(manifest.contains(&format!("\nversion = \"{}\"\n", defined("GENIE_VERSION"))));
}
