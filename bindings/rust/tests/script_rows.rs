//! Scripts, by rows of text: each line with its reply, by calls of the facade and by the program `vmmem`.

mod lines;
mod rows;
mod vmmem;

use rows::row_of;
use std::fs;
use std::io::Write;
use std::path::Path;
use std::process::{Command, Stdio};
use vm_memory_proved::Machine;

// What stands for the reply to a line that ends its script.
const BAD: &str = "bad line";

// The rows of a script: where each stands, the line, and the reply.
type Script = Vec<(String, String, String)>;

fn scripts() -> Vec<Script> {
    let folder = Path::new(env!("CARGO_MANIFEST_DIR")).join("tests/rows/scripts");
    let mut files: Vec<_> = fs::read_dir(folder).unwrap().map(|file| file.unwrap().path()).collect();
    files.sort();
    let mut scripts: Vec<Script> = Vec::new();
    for file in files {
        let name = file.file_name().unwrap().to_str().unwrap();
        for (place, line) in fs::read_to_string(&file).unwrap().lines().enumerate() {
            let place = format!("tests/rows/scripts/{name}:{}", place + 1);
            if line == "script" {
                scripts.push(Script::new());
            } else if let Some((line, reply)) = row_of(&place, line) {
                let script = scripts.last_mut().unwrap_or_else(|| panic!("{place}: no script"));
                script.push((place, line.to_string(), reply.to_string()));
            }
        }
    }
    scripts
}

// Says which rows differ from what came, and how many there were. Panics then if one differs.
fn expect_none_differs(rows: usize, differing: &[String]) {
    for row in differing {
        println!("{row}");
    }
    println!("{rows} rows, {} differ", differing.len());
    assert!(rows > 0 && differing.is_empty());
}

#[test]
fn scripts_are_answered_by_calls() {
    let (mut rows, mut differing) = (0, Vec::new());
    for script in scripts() {
        let machine = Machine::new().unwrap();
        for (place, line, wanted) in script.iter().filter(|(_, _, wanted)| wanted != BAD) {
            let came = lines::reply(&machine, line);
            rows += 1;
            if came != *wanted {
                differing.push(format!("{place}: wanted {wanted}, came {came}"));
            }
        }
    }
    expect_none_differs(rows, &differing);
}

// The replies of the program to a script, a bad line at last if one ended it, and whether it ended as it should.
fn replies_of_program(program: &Path, script: &[u8]) -> (Vec<String>, bool) {
    let mut child = Command::new(program)
        .stdin(Stdio::piped())
        .stdout(Stdio::piped())
        .stderr(Stdio::piped())
        .spawn()
        .unwrap();
    child.stdin.take().unwrap().write_all(script).unwrap();
    let output = child.wait_with_output().unwrap();
    let mut replies: Vec<String> = String::from_utf8(output.stdout)
        .unwrap()
        .lines()
        .map(str::to_string)
        .collect();
    let text = String::from_utf8(output.stderr).unwrap();
    if output.status.code() == Some(0) {
        return (replies, text.is_empty());
    }
    replies.push(BAD.to_string());
    let wanted = format!("line {}: bad line\n", replies.len());
    (replies, output.status.code() == Some(1) && text == wanted)
}

// The last line of every other script lacks its line feed.
#[test]
#[cfg_attr(
    not(has_vmmem),
    ignore = "there is no `vmmem`: VMMEM names one, or `rt run < stdin` in crates/vmmem builds it"
)]
fn scripts_are_answered_by_the_program() {
    let program = vmmem::program();
    let (mut rows, mut differing) = (0, Vec::new());
    for (number, script) in scripts().into_iter().enumerate() {
        let lines: Vec<&str> = script.iter().map(|(_, line, _)| line.as_str()).collect();
        let end = if number % 2 == 0 { "\n" } else { "" };
        let (replies, is_ended) = replies_of_program(&program, (lines.join("\n") + end).as_bytes());
        rows += script.len();
        let mut replies = replies.into_iter();
        for (place, _, wanted) in &script {
            let came = replies.next().unwrap_or("nothing".to_string());
            if came != *wanted {
                differing.push(format!("{place}: wanted {wanted}, came {came}"));
            }
        }
        if !is_ended || replies.next().is_some() {
            differing.push(format!("{}: the script ended otherwise", script[0].0));
        }
    }
    expect_none_differs(rows, &differing);
}

// Empty lines and comments print nothing, whatever their bytes are.
#[test]
#[cfg_attr(
    not(has_vmmem),
    ignore = "there is no `vmmem`: VMMEM names one, or `rt run < stdin` in crates/vmmem builds it"
)]
fn nothing_is_printed_for_nothing() {
    for script in [&b""[..], b"\n\n# nothing\n#\xff\x00\r  \n"] {
        assert_eq!(replies_of_program(&vmmem::program(), script), (Vec::new(), true));
    }
}
