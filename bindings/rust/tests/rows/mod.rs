//! Rows of text: what is done, ` => `, and what has to come of it. Empty lines and those that begin with `#` are
//! comments.
#![allow(dead_code)]

use std::fs;
use std::path::Path;

/// Tries each row of a file of `tests/rows`, in each way that it may be done. Prints each row that differs, as
/// `file:line: wanted, came`, and how many rows there were. Panics then if one differs.
pub fn try_rows(file: &str, came: impl FnMut(&str) -> Vec<String>) {
    let path = format!("tests/rows/{file}");
    let text = fs::read_to_string(Path::new(env!("CARGO_MANIFEST_DIR")).join(&path)).unwrap();
    try_text(&path, &text, came);
}

/// Tries the rows of a text, as `try_rows` does.
pub fn try_text(path: &str, text: &str, mut came: impl FnMut(&str) -> Vec<String>) {
    let (mut rows, mut differing) = (0, 0);
    for (place, line) in text.lines().enumerate() {
        let place = format!("{path}:{}", place + 1);
        let Some((done, wanted)) = row_of(&place, line) else {
            continue;
        };
        rows += 1;
        if let Some(other) = came(done).iter().find(|came| *came != wanted) {
            differing += 1;
            println!("{place}: wanted {wanted}, came {other}");
        }
    }
    println!("{path}: {rows} rows, {differing} differ");
    assert!(rows > 0, "{path} has no row");
    assert_eq!(differing, 0, "{path} has rows that differ");
}

/// What is done and what has to come, if a line is a row. Panics if it is neither a row nor a comment.
pub fn row_of<'a>(place: &str, line: &'a str) -> Option<(&'a str, &'a str)> {
    if line.is_empty() || line.starts_with('#') {
        return None;
    }
    let row = line.split_once(" => ");
    Some(row.unwrap_or_else(|| panic!("{place}: no row")))
}

/// A number of base 10, or after `0x` of base 16.
pub fn number(word: &str) -> u64 {
    let number = match word.strip_prefix("0x") {
        Some(digits) => u64::from_str_radix(digits, 16),
        None => word.parse(),
    };
    number.unwrap_or_else(|_| panic!("{word} is no number"))
}

/// The steps of a row: the word of each, and the words after that.
pub fn steps(done: &str) -> impl Iterator<Item = (&str, Vec<&str>)> {
    done.split("; ").map(|step| {
        let mut words = step.split(' ');
        (words.next().unwrap_or(""), words.collect())
    })
}
