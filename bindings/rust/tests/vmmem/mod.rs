//! The program `vmmem`, which runs a script: the file that the environment variable `VMMEM` names, or the one that the
//! repository's gate built.
#![allow(dead_code)]

use std::env;
use std::io::Write;
use std::path::{Path, PathBuf};
use std::process::{Command, Stdio};

/// The program. Panics if there is none: tests that ask for it are ignored then.
pub fn program() -> PathBuf {
    let built = Path::new(env!("CARGO_MANIFEST_DIR")).join("../../crates/vmmem/out/vmmem");
    let named = env::var_os("VMMEM").map(PathBuf::from);
    named
        .or(built.exists().then_some(built))
        .expect("VMMEM names no program, and crates/vmmem/out has none")
}

/// The replies to a script, a line each.
pub fn replies(program: &Path, script: String) -> String {
    let mut child = Command::new(program)
        .stdin(Stdio::piped())
        .stdout(Stdio::piped())
        .spawn()
        .unwrap();
    let mut input = child.stdin.take().unwrap();
    let writer = std::thread::spawn(move || input.write_all(script.as_bytes()));
    let output = child.wait_with_output().unwrap();
    writer.join().unwrap().unwrap();
    assert!(output.status.success(), "{:?}", output.status);
    String::from_utf8(output.stdout).unwrap()
}
