//! The library that the build links: found, missing or stale.

#[allow(dead_code)]
#[path = "../build.rs"]
mod build;

use std::fs;
use std::path::{Path, PathBuf};
use std::process::Command;

const LIST: &str = "\
# A comment: NAME
base: thiserror
guest: base # a comment
aside: guest
vm_memory_c staticlib: core guest
";

fn tool() -> PathBuf {
    Path::new(env!("CARGO_MANIFEST_DIR")).join("../../tools/sources")
}

// What the tool prints, of the repository that it lies in.
fn said_by(tool: &Path, words: &[&str]) -> String {
    let ran = Command::new(tool).args(words).output().unwrap();
    assert!(ran.status.success(), "{ran:?}");
    String::from_utf8(ran.stdout).unwrap()
}

// The names of the crates whose code is watched.
fn crates_of(tool: &Path) -> Vec<String> {
    let list = said_by(tool, &["--list"]);
    let lines = list.lines().filter_map(|line| line.strip_suffix("/src"));
    let mut names: Vec<_> = lines
        .map(|line| line.strip_prefix("crates/").unwrap().to_string())
        .collect();
    names.sort_unstable();
    names
}

// A repository in a folder of its own, with a library that is made from it.
fn repository(name: &str) -> PathBuf {
    let folder = Path::new(env!("CARGO_TARGET_TMPDIR")).join(name);
    let _ = fs::remove_dir_all(&folder);
    for place in [
        "base/src",
        "guest/src",
        "guest/specs",
        "aside/src",
        "vm_memory_c/src",
        "vm_memory_c/out",
    ] {
        fs::create_dir_all(folder.join("crates").join(place)).unwrap();
    }
    fs::create_dir_all(folder.join("tools")).unwrap();
    fs::copy(tool(), folder.join("tools/sources")).unwrap();
    fs::write(folder.join("crates.txt"), LIST).unwrap();
    for file in [
        "base/src/lib.rt",
        "guest/src/lib.rt",
        "guest/specs/Lib.antt",
        "aside/src/lib.rt",
        "vm_memory_c/src/lib.rt",
    ] {
        fs::write(folder.join("crates").join(file), file).unwrap();
    }
    folder
}

// The names of the library's crates, of the repository itself.
#[test]
fn all_crates_below_are_watched() {
    assert_eq!(
        crates_of(&tool()),
        [
            "vhost_backend",
            "vhost_calls",
            "vhost_inflight",
            "vhost_iotlb",
            "vhost_message",
            "vhost_user",
            "virtio_blk",
            "virtio_queue",
            "vm_memory",
            "vm_memory_base",
            "vm_memory_c",
            "vm_memory_device",
            "vm_memory_guest",
            "vm_session"
        ]
    );
    let repository = repository("watched");
    assert_eq!(
        crates_of(&repository.join("tools/sources")),
        ["base", "guest", "vm_memory_c"]
    );
}

#[test]
fn a_library_is_missing_new_or_stale() {
    let repository = repository("stale");
    let library = build::built(&repository);
    let state = || build::expect_new(&repository, &library);
    assert!(state()
        .unwrap_err()
        .starts_with("there is no library of the proved machine, "));
    fs::write(&library, "").unwrap();
    assert!(state().unwrap_err().ends_with("libvm_memory_c.made is missing"));
    said_by(
        &repository.join("tools/sources"),
        &["--record", library.to_str().unwrap()],
    );
    assert_eq!(state(), Ok(()));
    // An edit, a new file, a name or a removed one in any crate below, and in none beside.
    let stale = "the library of the proved machine is stale: it was made from other sources: ";
    for place in [
        "crates/base/src/lib.rt",
        "crates/guest/specs/Lib.antt",
        "crates/vm_memory_c/src/lib.rt",
        "crates.txt",
    ] {
        let path = repository.join(place);
        let (text, other) = (fs::read(&path).unwrap(), path.with_extension("other"));
        fs::write(&path, [text.as_slice(), b"\n"].concat()).unwrap();
        assert!(state().unwrap_err().starts_with(stale), "{place}");
        // The same bytes are the same sources, whenever they were written.
        fs::write(&path, &text).unwrap();
        assert_eq!(state(), Ok(()), "{place}");
        if place != "crates.txt" {
            fs::rename(&path, &other).unwrap();
            assert!(state().unwrap_err().starts_with(stale), "{place}");
            fs::copy(&other, &path).unwrap();
            assert!(state().unwrap_err().starts_with(stale), "{place}");
            fs::remove_file(&other).unwrap();
            assert_eq!(state(), Ok(()), "{place}");
        }
    }
    fs::write(repository.join("crates/aside/src/lib.rt"), "other").unwrap();
    assert_eq!(state(), Ok(()));
    // A library of another kit, if there is one to compare with.
    let record = build::record_of(&library);
    let text = fs::read_to_string(&record).unwrap();
    if text.starts_with("kit ") {
        fs::write(&record, format!("kit another{}", &text[text.find('\n').unwrap()..])).unwrap();
        assert!(state().unwrap_err().contains("made from other kit: "));
    }
}
