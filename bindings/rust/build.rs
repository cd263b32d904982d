//! Finds the static library of the proved machine, and links it.
//!
//! `VM_MEMORY_C_LIB` names a `libvm_memory_c.a` that is built already. Without it the library is the one in `lib/` of
//! this crate, as a release has it, or else the one that `tools/build` leaves in the folder of its crate, if that was
//! made from the sources that are there; else this stops and says so. With `VM_MEMORY_BUILD=1` this runs `tools/build`
//! then. The allocator that the library wants is a module of this crate.

use std::env;
use std::path::{Path, PathBuf};
use std::process::{exit, Command};

const LIBRARY: &str = "vm_memory_c";

const HELP: &str = "
`tools/build` proves and builds it, with the Rattle kit. A release has the library, and needs no kit.

  VM_MEMORY_BUILD=1     has this build run `tools/build`
  VM_MEMORY_C_LIB       names a libvm_memory_c.a that is built already
";

fn main() {
    let folder = env::var_os("CARGO_MANIFEST_DIR").expect("cargo says where this crate lies");
    let folder = Path::new(&folder);
    let repository = folder.join("../..");
    let repository = repository.canonicalize().unwrap_or(repository);
    let library = library(folder, &repository).unwrap_or_else(|text| stop(&text));
    link(&library).unwrap_or_else(|text| stop(&text));
    for name in ["VM_MEMORY_C_LIB", "VM_MEMORY_BUILD", "VMMEM"] {
        println!("cargo:rerun-if-env-changed={name}");
    }
    find_vmmem(&repository);
}

fn stop(text: &str) -> ! {
    eprintln!("{text}\n{HELP}");
    exit(1)
}

// The library that is named, that of a release, or that of the repository.
fn library(folder: &Path, repository: &Path) -> Result<PathBuf, String> {
    if let Some(path) = env::var_os("VM_MEMORY_C_LIB") {
        let path = PathBuf::from(path);
        if record_of(&path).exists() {
            if let Err(text) = expect_new(repository, &path) {
                println!("cargo:warning=VM_MEMORY_C_LIB: {text}");
            }
        }
        return Ok(path);
    }
    let released = folder.join("lib").join(format!("lib{LIBRARY}.a"));
    if released.exists() {
        return Ok(released);
    }
    let library = built(repository);
    watch(repository, &library);
    let state = expect_new(repository, &library);
    if state.is_err() && env::var_os("VM_MEMORY_BUILD").is_some_and(|word| word == "1") {
        build(repository)?;
        return expect_new(repository, &library).map(|()| library);
    }
    state.map(|()| library)
}

// Where `tools/build` leaves the library.
pub(crate) fn built(repository: &Path) -> PathBuf {
    let folder = repository.join("crates").join(LIBRARY);
    folder.join("out").join(format!("lib{LIBRARY}.a"))
}

// The file beside a library that says what it was made from.
pub(crate) fn record_of(library: &Path) -> PathBuf {
    library.with_extension("made")
}

fn build(repository: &Path) -> Result<(), String> {
    let tool = repository.join("tools/build");
    match Command::new(&tool).status() {
        Ok(status) if status.success() => Ok(()),
        Ok(status) => Err(format!("{} failed: {status}", tool.display())),
        Err(error) => Err(format!("{} did not start: {error}", tool.display())),
    }
}

// Runs `tools/sources`, and returns whether it succeeded and what it said.
fn sources(repository: &Path, words: &[&Path]) -> Result<(bool, String), String> {
    let tool = repository.join("tools/sources");
    match Command::new(&tool).args(words).output() {
        Ok(ran) => Ok((
            ran.status.success(),
            String::from_utf8_lossy(&ran.stdout).trim().to_string(),
        )),
        Err(error) => Err(format!("{} did not start: {error}", tool.display())),
    }
}

// Refuses a library that is not there, or was made from other sources or by another kit.
pub(crate) fn expect_new(repository: &Path, library: &Path) -> Result<(), String> {
    match sources(repository, &[Path::new("--check"), library])? {
        (true, _) => Ok(()),
        (false, text) => Err(text),
    }
}

// Has cargo come back here if a source or the library changes.
fn watch(repository: &Path, library: &Path) {
    let (_, list) = sources(repository, &[Path::new("--list")]).unwrap_or_default();
    for source in list.lines() {
        println!("cargo:rerun-if-changed={}", repository.join(source).display());
    }
    println!("cargo:rerun-if-changed={}", library.display());
    println!("cargo:rerun-if-changed={}", record_of(library).display());
}

fn link(library: &Path) -> Result<(), String> {
    let library = library
        .canonicalize()
        .map_err(|error| format!("{}: {error}", library.display()))?;
    let name = library.file_name().and_then(|name| name.to_str()).unwrap_or_default();
    let Some(name) = name.strip_prefix("lib").and_then(|name| name.strip_suffix(".a")) else {
        return Err(format!("{} is no static library", library.display()));
    };
    println!("cargo:rerun-if-changed={}", library.display());
    if let Some(folder) = library.parent() {
        println!("cargo:rustc-link-search=native={}", folder.display());
    }
    println!("cargo:rustc-link-lib=static={name}");
    Ok(())
}

// Whether the program `vmmem` is there, beside which tests make calls.
fn find_vmmem(repository: &Path) {
    println!("cargo:rustc-check-cfg=cfg(has_vmmem)");
    let folder = repository.join("crates/vmmem");
    let program = folder.join("out/vmmem");
    if program.is_file() || env::var_os("VMMEM").is_some() {
        println!("cargo:rustc-cfg=has_vmmem");
    }
    if let Some(place) = [program, folder.join("out"), folder]
        .iter()
        .find(|place| place.exists())
    {
        println!("cargo:rerun-if-changed={}", place.display());
    }
}
