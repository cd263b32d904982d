//! The numbers of the header for C are those of this crate.

use std::fs;
use std::path::Path;

// What the crate calls otherwise, as the Rust crate does.
const OTHER_NAMES: [(&str, &str); 9] = [
    ("READX", "READ_SLICE"),
    ("WRITEX", "WRITE_SLICE"),
    ("FROM", "READ_FROM"),
    ("FROMX", "READ_EXACT_FROM"),
    ("TO", "WRITE_TO"),
    ("TOX", "WRITE_ALL_TO"),
    ("CHECK", "CHECK_RANGE"),
    ("CLEAR", "INVALIDATE_ALL"),
    ("OUT_OF_MEMORY", "MEMORY"),
];

fn text(path: &str) -> String {
    fs::read_to_string(Path::new(env!("CARGO_MANIFEST_DIR")).join(path)).unwrap()
}

// The text between a beginning and a closing brace.
fn part<'a>(text: &'a str, begin: &str) -> &'a str {
    let (_, rest) = text.split_once(begin).unwrap();
    rest.split_once('}').unwrap().0
}

// The names of an enum of the header, with their numbers.
fn of_header(name: &str) -> Vec<(String, u32)> {
    let header = text("../c/vm_memory.h");
    let mut next = 0;
    let words = part(&header, &format!("enum {name} {{")).split(',');
    words
        .map(|word| {
            let (word, number) = word.trim().split_once(" = ").unwrap_or((word.trim(), ""));
            let number = if number.is_empty() {
                next
            } else {
                number.parse().unwrap()
            };
            next = number + 1;
            let word = word.strip_prefix("VMM_").unwrap();
            let other = OTHER_NAMES.iter().find(|(name, _)| *name == word);
            (other.map_or(word, |(_, other)| other).to_string(), number)
        })
        .collect()
}

// The names of a module of `raw`, with their numbers.
fn of_crate(name: &str) -> Vec<(String, u32)> {
    let raw = text("src/raw.rs");
    let lines = part(&raw, &format!("pub mod {name} {{"))
        .lines()
        .filter_map(|line| line.trim().strip_prefix("pub const "));
    lines
        .map(|line| {
            let (word, rest) = line.split_once(": ").unwrap();
            let number = rest.split_once(" = ").unwrap().1.strip_suffix(';').unwrap();
            (word.to_string(), number.parse().unwrap())
        })
        .collect()
}

#[test]
fn the_header_has_the_numbers_of_this_crate() {
    assert_eq!(of_header("vmm_kind"), of_crate("kind"));
    assert_eq!(of_header("vmm_part"), of_crate("part"));
    let requests = of_header("vmm_blk_request").into_iter();
    let requests: Vec<_> = requests
        .map(|(word, number)| (word.replace("BLK_", ""), number))
        .collect();
    assert_eq!(requests, of_crate("request"));
    // Shared blocks have codes in C alone.
    let codes = of_header("vmm_code").into_iter();
    let codes: Vec<_> = codes.filter(|(_, number)| !(64..70).contains(number)).collect();
    assert_eq!(codes, of_crate("code"));
}

// The functions that the header declares or defines.
fn functions() -> Vec<String> {
    let header = text("../c/vm_memory.h");
    let mut names: Vec<String> = Vec::new();
    for line in header
        .lines()
        .filter(|line| line.starts_with(|first: char| first.is_ascii_lowercase()))
    {
        let Some((before, _)) = line.split_once('(') else {
            continue;
        };
        let name = before.rsplit([' ', '*']).next().unwrap();
        if name.starts_with("vmm_") {
            names.push(name.to_string());
        }
    }
    names
}

#[test]
fn programs_of_c_call_each_function_of_the_header() {
    let programs =
        ["calls.c", "backend.c", "block.c", "shared.c", "version.c"].map(|name| text(&format!("../c/{name}")));
    // Those that the others are made of.
    let parts = ["vmm_asked", "vmm_of_kind", "vmm_at", "vmm_on", "vmm_call", "vmm_lend"];
    let names = functions();
    assert!(names.len() > 90, "{}", names.len());
    for name in names.iter().filter(|name| !parts.contains(&name.as_str())) {
        let call = format!("{name}(");
        let is_called = |program: &String| {
            let calls = program.match_indices(&call).map(|(at, _)| &program[..at]);
            calls
                .into_iter()
                .any(|before| !before.ends_with(|last: char| last.is_alphanumeric() || last == '_'))
        };
        assert!(programs.iter().any(is_called), "no program calls {name}");
    }
}
