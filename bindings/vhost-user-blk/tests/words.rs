//! What the program says of wrong words, missing files and places that are taken, and how it ends then.

use std::fs;
use std::os::unix::net::UnixListener;
use std::path::{Path, PathBuf};
use std::process::Command;

fn folder(name: &str) -> PathBuf {
    let folder = Path::new(env!("CARGO_TARGET_TMPDIR")).join(name);
    let _ = fs::remove_dir_all(&folder);
    fs::create_dir_all(&folder).unwrap();
    fs::write(folder.join("disk.img"), [0; 1024]).unwrap();
    folder
}

// Runs the program in a folder, and returns its status, what it printed, and what it said of its end.
fn ran(folder: &Path, words: &[&str]) -> (Option<i32>, String, String) {
    let mut command = Command::new(env!("CARGO_BIN_EXE_vhost-user-blk"));
    let out = command.current_dir(folder).args(words).output().unwrap();
    let [printed, said] = [out.stdout, out.stderr].map(|text| String::from_utf8(text).unwrap());
    (out.status.code(), printed, said)
}

// The lines of the usage, as the page of the program has its options.
fn expect_usage(text: &str) {
    assert!(
        text.starts_with("usage: vhost-user-blk --socket PATH --image FILE [--read-only]"),
        "{text}"
    );
    for option in [
        "--socket PATH",
        "--fd N",
        "--image FILE",
        "--read-only",
        "--write-through",
        "--queues N",
        "--iommu",
        "--iotlb-limit N",
        "--stats SECONDS",
        "--no-lock",
        "--print-capabilities\n",
        "--version",
    ] {
        let line = format!("\n  {option}");
        assert!(text.contains(&line), "{line} is not in {text}");
    }
}

#[test]
fn wrong_words_are_named_with_the_usage() {
    let folder = folder("wrong-words");
    for (words, wrong) in [
        (&[][..], "--socket is missing"),
        (&["--image", "disk.img"], "--socket is missing"),
        (&["--socket", "s"], "--image is missing"),
        (&["--socket"], "--socket has no value"),
        (&["disk.img"], "disk.img is no option"),
        (&["--socket", "s", "--image", "disk.img", "-x"], "-x is no option"),
        (&["--queues", "257"], "--queues takes a number from 1 to 256, not 257"),
        (&["--queues=0"], "--queues takes a number from 1 to 256, not 0"),
        (&["--no-lock=1"], "--no-lock takes no value"),
        (&["--fd=3", "--socket", "s"], "--fd takes the place of --socket"),
        (&["--queues", "-1"], "--queues takes a number from 1 to 256, not -1"),
        (
            &["--queues", "4294967297"],
            "--queues takes a number from 1 to 256, not 4294967297",
        ),
        (
            &["--iotlb-limit", ""],
            "--iotlb-limit takes a number from 8 to 65536, not ",
        ),
        (
            &["--socket", "s", "--image", "disk.img", "--iotlb-limit", "8"],
            "--iotlb-limit needs --iommu",
        ),
        (&["--stats", "1", "--stats", "1"], "--stats comes twice"),
    ] {
        let (status, printed, said) = ran(&folder, words);
        assert_eq!((status, printed.as_str()), (Some(2), ""), "{words:?}");
        let usage = said.strip_prefix(&format!("vhost-user-blk: {wrong}\n\n"));
        expect_usage(usage.unwrap_or_else(|| panic!("{words:?}: {said}")));
    }
    for word in ["--help", "-h"] {
        let (status, printed, said) = ran(&folder, &["--queues", "2", word, "--disk"]);
        assert_eq!((status, said.as_str()), (Some(0), ""));
        expect_usage(&printed);
    }
    assert!(!folder.join("s").exists());
}

#[test]
fn what_cannot_be_opened_is_named() {
    let folder = folder("missing");
    fs::write(folder.join("text"), "not a socket").unwrap();
    let _listener = UnixListener::bind(folder.join("taken")).unwrap();
    for (socket, image, wrong) in [
        (
            "s",
            "missing.img",
            "missing.img: No such file or directory (os error 2)",
        ),
        (
            "s",
            "missing/disk.img",
            "missing/disk.img: No such file or directory (os error 2)",
        ),
        ("s", ".", ".: Is a directory (os error 21)"),
        ("s", "disk.img/x", "disk.img/x: Not a directory (os error 20)"),
        (
            "missing/s",
            "disk.img",
            "missing/s: No such file or directory (os error 2)",
        ),
        // A file, or a socket on which another program listens, is not replaced.
        ("text", "disk.img", "text: Address already in use (os error 98)"),
        ("taken", "disk.img", "taken: Address already in use (os error 98)"),
    ] {
        let said = format!("vhost-user-blk: {wrong}\n");
        let words = ["--socket", socket, "--image", image];
        assert_eq!(ran(&folder, &words), (Some(1), String::new(), said));
    }
    assert_eq!(fs::read_to_string(folder.join("text")).unwrap(), "not a socket");
    assert!(!folder.join("s").exists() && folder.join("taken").exists());
    assert_eq!(fs::read(folder.join("disk.img")).unwrap(), [0; 1024]);
}

// The script that boots a guest on the program.
#[test]
fn the_script_of_a_real_guest_has_help() {
    let script = Path::new(env!("CARGO_MANIFEST_DIR")).join("../../tools/real_guest.sh");
    for (word, status, first) in [
        ("--help", 0, "Boots Linux in QEMU"),
        ("-h", 0, "Boots Linux in QEMU"),
        ("--x", 2, "--x is no option\nBoots Linux in QEMU"),
    ] {
        let out = Command::new(&script).arg(word).output().unwrap();
        let text = String::from_utf8(out.stdout).unwrap();
        assert_eq!(out.status.code(), Some(status), "{word}");
        assert!(text.starts_with(first), "{text}");
        assert!(text.contains("\nusage: tools/real_guest.sh [--install] "), "{text}");
    }
}
