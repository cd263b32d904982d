//! The systems of an engine, over a file.

use super::*;
use crate::threads::Threads;
use crate::uring::Uring;
use std::fs::{self, File};
use std::os::unix::fs::FileExt;
use std::sync::Arc;
use std::time::{Duration, Instant};

const LEN: usize = 1 << 20;

// The bytes of the file from a place on.
fn bytes_at(place: usize, len: usize) -> Vec<u8> {
    (place..place + len).map(|at| (at / 512 * 7 + at % 251) as u8).collect()
}

type Named = (&'static str, Box<dyn System>);

// A file of its own, and each system over it that is to be had.
fn systems(name: &str) -> (Arc<File>, Vec<Named>) {
    let path = std::env::temp_dir().join(format!("vhost-user-blk-{name}-{}", std::process::id()));
    fs::write(&path, bytes_at(0, LEN)).unwrap();
    let file = Arc::new(File::options().read(true).write(true).open(&path).unwrap());
    fs::remove_file(&path).unwrap();
    let threads = Threads::new(Arc::clone(&file)).unwrap();
    let mut all: Vec<Named> = vec![("threads", Box::new(threads))];
    match Uring::new(Arc::clone(&file), 64) {
        Ok(rings) => all.push(("io_uring", Box::new(rings))),
        Err(error) => println!("io_uring is left out: {error}"),
    }
    (file, all)
}

fn job(what: What, place: u64, lens: &[usize]) -> Job {
    Job {
        what,
        vectors: system::vectors_of(lens),
        from: 0,
        place,
        is_again: false,
    }
}

// Waits for the next job that ended, as the program does.
fn next(system: &mut dyn System) -> Done {
    let begun = Instant::now();
    loop {
        if let Some(done) = system.take() {
            return done;
        }
        let time = Duration::from_secs(20);
        system::wait_for([system.descriptor(); 2], Some(time)).unwrap();
        assert!(begun.elapsed() < time, "nothing ends");
    }
}

#[test]
fn bytes_are_moved_where_they_belong() {
    let (file, all) = systems("moves");
    for (name, mut system) in all {
        for (number, place, lens) in [
            (0, 0, &[512][..]),
            (1, 4096, &[1, 700, 323]),
            (2, LEN as u64 - 8192, &[4096, 4096]),
            (3, 12_345, &[5]),
        ] {
            let len: usize = lens.iter().sum();
            system.begin(number, job(What::Read, place, lens));
            assert!(system.submit().unwrap());
            let (ended, read, count) = next(&mut *system);
            assert_eq!((ended, count.unwrap()), (number, len), "{name}");
            assert!(
                system::bytes_of(&read.vectors) == bytes_at(place as usize, len),
                "{name} at {place}"
            );
            system.begin(number, job(What::Write, place, lens));
            assert!(system.submit().unwrap());
            assert_eq!(next(&mut *system).2.unwrap(), len);
            let mut bytes = vec![0; len + 2];
            let from = place.saturating_sub(1);
            let count = file.read_at(&mut bytes, from).unwrap();
            let mut wanted = bytes_at(from as usize, count);
            wanted[(place - from) as usize..][..len].fill(7);
            assert!(bytes[..count] == wanted, "{name} at {place}");
            file.write_all_at(&bytes_at(0, LEN), 0).unwrap();
        }
        // It stops at the end of the file.
        system.begin(9, job(What::Read, LEN as u64 - 512, &[1024]));
        system.begin(8, job(What::Read, LEN as u64, &[1024]));
        system.submit().unwrap();
        let mut ends = [next(&mut *system), next(&mut *system)].map(|it| (it.0, it.2.unwrap()));
        ends.sort();
        assert_eq!(ends, [(8, 0), (9, 512)], "{name}");
        assert!(system.take().is_none());
    }
}

// Vectors before the first one that counts stay, and a call takes 1,024 of them.
#[test]
fn vectors_from_one_on_are_moved() {
    let (_file, all) = systems("from");
    for (name, mut system) in all {
        for from in [1, 2] {
            let asked = job(What::Read, 1000, &[512, 300, 200]);
            system.begin(0, Job { from, ..asked });
            system.submit().unwrap();
            let (_, read, count) = next(&mut *system);
            let len = [500, 200][from - 1];
            assert_eq!(count.unwrap(), len, "{name}");
            let wanted = [vec![7; 1012 - len], bytes_at(1000, len)].concat();
            assert!(system::bytes_of(&read.vectors) == wanted, "{name}");
        }
        system.begin(0, job(What::Read, 0, &[1; 1030]));
        system.submit().unwrap();
        let (_, read, count) = next(&mut *system);
        assert_eq!(count.unwrap(), 1024, "{name}");
        let wanted = [bytes_at(0, 1024), vec![7; 6]].concat();
        assert!(system::bytes_of(&read.vectors) == wanted, "{name}");
    }
}

#[test]
fn errors_are_those_of_the_system() {
    let (_file, all) = systems("errors");
    // No file has this place. No part of a request lies past its disk.
    let place = 1 << 63;
    for (name, mut system) in all {
        system.begin(5, job(What::Read, place, &[512]));
        system.begin(6, job(What::Write, place, &[512, 512]));
        system.submit().unwrap();
        for _ in 0..2 {
            let (number, _, done) = next(&mut *system);
            assert!(number == 5 || number == 6);
            assert_eq!(done.unwrap_err().raw_os_error(), Some(libc::EINVAL), "{name}");
        }
        system.begin(SYNC, Job::sync());
        system.submit().unwrap();
        let (number, job, done) = next(&mut *system);
        assert_eq!((number, job.what), (SYNC, What::Sync));
        assert!(done.is_ok(), "{name}");
    }
}

// As many as there is room for, again and again, with a sync among them: each ends once.
#[test]
fn each_ends_once() {
    let (_file, all) = systems("many");
    for (name, mut system) in all {
        let room = system.room();
        assert!(room >= 60, "{name}");
        for round in 0..20 {
            let mut left: Vec<bool> = vec![true; room];
            for number in 0..room {
                system.begin(number, job(What::Read, 512 * number as u64, &[512]));
            }
            system.begin(SYNC, Job::sync());
            assert!(system.submit().unwrap());
            for _ in 0..=room {
                let (number, job, done) = next(&mut *system);
                if number == SYNC {
                    assert!(done.is_ok());
                    continue;
                }
                assert!(
                    mem::replace(&mut left[number], false),
                    "{name}: {number} ends twice in {round}"
                );
                assert_eq!(done.unwrap(), 512);
                assert!(system::bytes_of(&job.vectors) == bytes_at(512 * number, 512), "{name}");
            }
            assert!(system.take().is_none());
        }
    }
}
