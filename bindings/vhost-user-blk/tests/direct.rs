//! A disk past the page cache.

mod front_end;

use front_end::load::{started, Load};
use front_end::*;
use std::fs::{self, File};
use std::os::fd::AsRawFd;
use std::os::unix::fs::symlink;
use std::path::{Path, PathBuf};
use std::process::{Command, Stdio};

const LEN: usize = 1 << 20;

// What O_DIRECT is among the flags that /proc shows.
const O_DIRECT: u32 = libc::O_DIRECT as u32;

fn command(folder: &Path, words: &[&str]) -> Command {
    Program::command(Command::new(env!("CARGO_BIN_EXE_vhost-user-blk")), folder, words)
}

// What a program that does not start says.
fn refusal(folder: &Path, words: &[&str]) -> Option<String> {
    let mut child = command(folder, words);
    let mut child = child.stdout(Stdio::null()).stderr(Stdio::piped()).spawn().unwrap();
    // One that starts makes its socket.
    let socket = folder.join("s");
    loop {
        if child.try_wait().unwrap().is_some() {
            let output = child.wait_with_output().unwrap();
            assert_eq!(output.status.code(), Some(1));
            return Some(String::from_utf8(output.stderr).unwrap());
        }
        if socket.exists() {
            child.kill().unwrap();
            child.wait().unwrap();
            fs::remove_file(socket).unwrap();
            return None;
        }
        std::thread::sleep(std::time::Duration::from_millis(2));
    }
}

// The program past the page cache, if the file system of the tests has that.
fn direct(name: &str, words: &[&str]) -> Option<Program> {
    let folder = Program::prepare(name, LEN);
    let words = [words, &["--direct", "--queues=4"]].concat();
    if let Some(text) = refusal(&folder, &words) {
        assert!(text.contains("has no O_DIRECT"), "{text}");
        println!("{name} is left out: {text}");
        return None;
    }
    let program = Program::start_again(&folder, &words);
    program.expect_said("past the page cache in blocks of ");
    let image = |path: &PathBuf| fs::read_link(path).is_ok_and(|to| to == program.image);
    let fds = fs::read_dir(format!("/proc/{}/fd", program.pid())).unwrap();
    let fd = fds.map(|it| it.unwrap().path()).find(image).unwrap();
    let about = fd.to_str().unwrap().replace("/fd/", "/fdinfo/");
    let about = fs::read_to_string(about).unwrap();
    let flags = about.lines().find_map(|it| it.strip_prefix("flags:")).unwrap();
    assert_ne!(u32::from_str_radix(flags.trim(), 8).unwrap() & O_DIRECT, 0, "{flags}");
    Some(program)
}

#[test]
fn each_byte_is_where_it_belongs() {
    for (name, way) in [("direct_uring", "--aio=io_uring"), ("direct_threads", "--aio=threads")] {
        let Some(program) = direct(name, &[way]) else {
            return;
        };
        let mut load = Load::new(&program, 4, 11);
        load.go(300);
        assert_eq!(load.front.request(0, 4, 0, 0), (0, 1));
        assert!(fs::read(&program.image).unwrap() == load.disk, "{name}");
        drop(load);
        assert!(program.end(libc::SIGTERM).success());
    }
}

// Memory that lies anywhere, and more of it than a buffer has at once.
#[test]
fn memory_need_not_lie_right() {
    let Some(program) = direct("direct_memory", &[]) else {
        return;
    };
    let mut front = started(&program, 1);
    let (from, len) = (8 << 20, 512 * 1999);
    let bytes: Vec<u8> = (0..len).map(|at| (at / 3) as u8).collect();
    front.write(from + 77, &bytes);
    for (kind, at) in [(1, from + 77), (0, from + 333)] {
        let lens = [1, 511, 4096, 77_777, 512];
        let mut data: Vec<_> = lens
            .iter()
            .scan(at, |at, len| Some((std::mem::replace(at, *at + len), *len)))
            .collect();
        let end = at + lens.iter().sum::<usize>();
        data.push((end, at + len - end));
        let status = front.put_long(0, kind, 33, &data);
        front.publish(0, 0);
        front.kick(0);
        assert_eq!(front.take_used(0), (0, if kind == 0 { len as u32 + 1 } else { 1 }));
        assert_eq!(front.read(status, 1), [0]);
        if kind == 1 {
            front.write(from, &vec![0; len + 4096]);
        }
    }
    assert!(front.read(from + 333, len) == bytes);
    let mut wanted = image_of(LEN);
    wanted[512 * 33..][..len].copy_from_slice(&bytes);
    assert!(fs::read(&program.image).unwrap() == wanted);
}

#[test]
fn memory_that_goes_away_ends_the_connection() {
    let Some(program) = direct("direct_lost", &[]) else {
        return;
    };
    for kind in [0, 1] {
        let mut front = started(&program, 1);
        front.put_long(0, kind, 8, &[((12 << 20) + 5, 4096)]);
        File::from(again(&front.ram)).set_len(10 << 20).unwrap();
        front.publish(0, 0);
        front.kick(0);
        assert!(front.is_let_go());
        assert_eq!(front.used_idx(0), 0);
    }
    assert!(fs::read(&program.image).unwrap() == image_of(LEN));
    assert_eq!(started(&program, 1).read_disk(0, 1, 512), image_of(LEN)[512..1024]);
}

#[test]
fn a_file_system_without_it_is_named() {
    let folder = Program::prepare("direct_refused", LEN);
    let image = folder.join("disk.img");
    fs::remove_file(&image).unwrap();
    symlink("/proc/version", &image).unwrap();
    let text = refusal(&folder, &["--direct", "--read-only"]).expect("it starts");
    let wanted = format!("{}: --direct: its file system has no O_DIRECT\n", image.display());
    assert!(text.ends_with(&wanted), "{text}");
}

// A block device in blocks of 4,096 bytes over a file, if this process may make one.
struct Loop(String);

impl Loop {
    fn new(file: &Path) -> Option<Loop> {
        let output = Command::new("losetup")
            .args(["--find", "--show", "--direct-io=on", "--sector-size", "4096"])
            .arg(file)
            .output()
            .ok()?;
        let name = String::from_utf8(output.stdout).unwrap();
        output.status.success().then(|| Loop(name.trim().to_owned()))
    }
}

impl Drop for Loop {
    fn drop(&mut self) {
        let _ = Command::new("losetup").args(["--detach", &self.0]).status();
    }
}

#[test]
fn sectors_are_parts_of_large_blocks() {
    for (name, way) in [
        ("direct_loop", "--aio=io_uring"),
        ("direct_loop_threads", "--aio=threads"),
    ] {
        let folder = Program::prepare(name, LEN);
        let image = folder.join("disk.img");
        let file = folder.join("file");
        fs::rename(&image, &file).unwrap();
        let Some(device) = Loop::new(&file) else {
            println!("{name} is left out: there is no losetup, or it is not allowed");
            return;
        };
        symlink(&device.0, &image).unwrap();
        let program = Program::start_again(&folder, &["--direct", "--queues=4", way]);
        program.expect_said("past the page cache in blocks of 4096 bytes by");
        let mut load = Load::new(&program, 4, 17);
        load.go(300);
        assert_eq!(load.front.request(0, 4, 0, 0), (0, 1));
        let disk = std::mem::take(&mut load.disk);
        drop(load);
        assert!(program.end(libc::SIGTERM).success());
        drop(device);
        assert!(fs::read(&file).unwrap() == disk, "{name}");
    }
}

// A control group whose processes write a few times a second to a device, if this process may make one.
struct Throttle(PathBuf);

impl Throttle {
    fn new(device: &str, name: &str) -> Option<Throttle> {
        let group = Path::new("/sys/fs/cgroup/blkio").join(name);
        fs::create_dir_all(&group).ok()?;
        let throttle = Throttle(group);
        let name = Path::new(device).file_name()?.to_str()?;
        let numbers = fs::read_to_string(format!("/sys/block/{name}/dev")).ok()?;
        let limit = format!("{} 40", numbers.trim());
        fs::write(throttle.0.join("blkio.throttle.write_iops_device"), limit).ok()?;
        Some(throttle)
    }

    fn add(&self, program: &Program) {
        fs::write(self.0.join("cgroup.procs"), program.pid().to_string()).unwrap();
    }
}

impl Drop for Throttle {
    fn drop(&mut self) {
        let _ = fs::remove_dir(&self.0);
    }
}

// The system goes on with the writes of a program that was killed, and holds its lock until the last one ended.
#[test]
fn whoever_has_the_lock_sees_no_late_write() {
    for (name, way) in [
        ("direct_late", "--aio=io_uring"),
        ("direct_late_threads", "--aio=threads"),
    ] {
        let folder = Program::prepare(name, LEN);
        let (image, file) = (folder.join("disk.img"), folder.join("file"));
        fs::rename(&image, &file).unwrap();
        let device = Loop::new(&file);
        let throttle = device.as_ref().and_then(|it| Throttle::new(&it.0, name));
        let (Some(device), Some(throttle)) = (device, throttle) else {
            println!("{name} is left out: there is no slow disk");
            return;
        };
        symlink(&device.0, &image).unwrap();
        let program = Program::start_again(&folder, &["--direct", way]);
        throttle.add(&program);
        let mut front = started(&program, 1);
        for place in 0..20 {
            front.put_request(0, 3 * place, 1, 8 * u64::from(place), 4096);
            front.write(front.places(0, 3 * place).0, &[0xee; 4096]);
            front.publish(0, 3 * place);
        }
        front.kick(0);
        front.take_used(0);
        let other = File::open(&device.0).unwrap();
        assert!(program.end(libc::SIGKILL).code().is_none());
        let came = front.used_idx(0);
        // SAFETY: it takes numbers.
        assert_eq!(unsafe { libc::flock(other.as_raw_fd(), libc::LOCK_EX) }, 0);
        let seen = fs::read(&file).unwrap();
        std::thread::sleep(std::time::Duration::from_millis(1500));
        assert!(fs::read(&file).unwrap() == seen, "{name}: a write comes after the lock");
        let written = seen.chunks(4096).filter(|it| **it == [0xee; 4096]).count();
        assert!(came < 20 && written >= usize::from(came), "{came} of {written}");
        println!("{name}: {came} came back, {written} were written");
    }
}
