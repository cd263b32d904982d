//! A disk that fails, by a small library of C in front of the system's.

use super::Map;
use std::fs::File;
use std::path::{Path, PathBuf};
use std::process::Command;
use std::sync::atomic::Ordering::SeqCst;
use std::time::Duration;

/// What the library and the test have in common.
pub struct Faults {
    map: Map,
    pub file: PathBuf,
    pub library: PathBuf,
}

impl Faults {
    /// Makes the library, if there is a compiler. The disk fails from a byte on.
    pub fn new(folder: &Path, bad_from: u64) -> Option<Faults> {
        let (library, file) = (folder.join("faults.so"), folder.join("faults"));
        let source = Path::new(env!("CARGO_MANIFEST_DIR")).join("tests/front_end/faults.c");
        let mut command = Command::new("cc");
        command
            .args(["-shared", "-fPIC", "-O1", "-o"])
            .arg(&library)
            .arg(source);
        let status = command.status().ok()?;
        assert!(status.success());
        let shared = File::options()
            .read(true)
            .write(true)
            .create_new(true)
            .open(&file)
            .unwrap();
        shared.set_len(4096).unwrap();
        let map = Map::new(&shared.into(), 0, 4096);
        map.word(0).store(bad_from, SeqCst);
        Some(Faults { map, file, library })
    }

    /// Has a program that is started have this disk.
    pub fn precede(&self, command: &mut Command) {
        command.env("LD_PRELOAD", &self.library).env("DISK_FAULTS", &self.file);
    }

    /// How many syncs were asked for.
    pub fn syncs(&self) -> u64 {
        self.map.word(8).load(SeqCst)
    }

    /// The next sync fails.
    pub fn fail_sync(&self) {
        self.map.word(16).store(1, SeqCst);
    }

    /// From now on each call moves all that it is asked for. From a byte on that takes a time.
    pub fn be_slow(&self, from: u64, time: Duration) {
        self.map.word(32).store(1, SeqCst);
        self.map.word(40).store(from, SeqCst);
        self.map.word(48).store(time.as_micros() as u64, SeqCst);
    }

    /// Each sync takes a time.
    pub fn sync_slowly(&self, time: Duration) {
        self.map.word(56).store(time.as_micros() as u64, SeqCst);
    }

    /// How often the rings of the system were asked.
    pub fn submits(&self) -> u64 {
        self.map.word(80).load(SeqCst)
    }

    /// How many slow reads and writes are under way, and were at most.
    pub fn slow(&self) -> [u64; 2] {
        [64, 72].map(|at| self.map.word(at).load(SeqCst))
    }
}
