//! The program, in a folder with its image and its socket.

use super::system::time_of;
use super::{FrontEnd, LONG};
use std::fs::{self, File};
use std::io::{BufRead, BufReader};
use std::os::unix::net::UnixStream;
use std::path::{Path, PathBuf};
use std::process::{Child, Command, ExitStatus, Stdio};
use std::ptr::null_mut;
use std::sync::{Arc, Mutex};
use std::thread::sleep;
use std::time::{Duration, Instant};

pub struct Program {
    child: Child,
    // The last of what it said.
    said: Arc<Mutex<String>>,
    pub folder: PathBuf,
    pub image: PathBuf,
}

impl Program {
    /// Starts the program on an image of `len` bytes, each of which depends on its sector.
    pub fn start(name: &str, len: usize, words: &[&str]) -> Program {
        Program::start_again(&Program::prepare(name, len), words)
    }

    /// A folder with such an image.
    pub fn prepare(name: &str, len: usize) -> PathBuf {
        Program::prepare_with(name, &image_of(len))
    }

    /// A folder with an image of these bytes.
    pub fn prepare_with(name: &str, image: &[u8]) -> PathBuf {
        let folder = Program::folder(name);
        fs::write(folder.join("disk.img"), image).unwrap();
        folder
    }

    // An empty folder.
    fn folder(name: &str) -> PathBuf {
        let folder = Path::new(env!("CARGO_TARGET_TMPDIR")).join(name);
        let _ = fs::remove_dir_all(&folder);
        fs::create_dir_all(&folder).unwrap();
        folder
    }

    /// The command that serves the image of a folder.
    pub fn command(mut command: Command, folder: &Path, words: &[&str]) -> Command {
        let [socket, image] = ["s", "disk.img"].map(|name| folder.join(name));
        command.arg("--socket").arg(socket).arg("--image").arg(image);
        command.args(words);
        command
    }

    /// Starts it on the image that is there.
    pub fn start_again(folder: &Path, words: &[&str]) -> Program {
        let program = Command::new(env!("CARGO_BIN_EXE_vhost-user-blk"));
        Program::spawn(folder, Program::command(program, folder, words))
    }

    /// Starts a command that serves the image of a folder.
    pub fn spawn(folder: &Path, mut command: Command) -> Program {
        let mut child = command.stdout(Stdio::piped()).spawn().unwrap();
        // It says so once it listens.
        let mut lines = BufReader::new(child.stdout.take().unwrap());
        let mut line = String::new();
        lines.read_line(&mut line).unwrap();
        assert!(line.contains("sectors"), "{line}");
        let said = Arc::new(Mutex::new(line));
        let kept = Arc::clone(&said);
        std::thread::spawn(move || {
            let mut line = Vec::new();
            while lines.read_until(b'\n', &mut line).is_ok_and(|count| count > 0) {
                let mut kept = kept.lock().unwrap();
                if kept.len() > 1 << 16 {
                    kept.clear();
                }
                kept.push_str(&String::from_utf8_lossy(&line));
                line.clear();
            }
        });
        Program {
            child,
            said,
            folder: folder.to_owned(),
            image: folder.join("disk.img"),
        }
    }

    pub fn has_said(&self, words: &str) -> bool {
        self.said.lock().unwrap().contains(words)
    }

    /// Waits until it has said something.
    pub fn expect_said(&self, words: &str) {
        let begun = Instant::now();
        while !self.has_said(words) {
            assert!(
                begun.elapsed() < LONG,
                "{words} is not in {}",
                self.said.lock().unwrap()
            );
            sleep(Duration::from_millis(2));
        }
    }

    /// Starts it on an image that is a hole of `len` bytes.
    pub fn start_on_a_hole(name: &str, len: u64, words: &[&str]) -> Program {
        let folder = Program::folder(name);
        File::create(folder.join("disk.img")).unwrap().set_len(len).unwrap();
        Program::start_again(&folder, words)
    }

    pub fn pid(&self) -> i32 {
        self.child.id() as i32
    }

    pub fn socket(&self) -> UnixStream {
        UnixStream::connect(self.folder.join("s")).unwrap()
    }

    pub fn connect(&self) -> FrontEnd {
        FrontEnd::new(self.socket())
    }

    /// Whether it waits for something to come, now or soon.
    pub fn is_idle(&self) -> bool {
        let path = format!("/proc/{}/syscall", self.pid());
        let waits = [libc::SYS_epoll_wait, libc::SYS_epoll_pwait].map(Some);
        (0..20).any(|_| {
            let call = fs::read_to_string(&path).unwrap();
            let is_idle = waits.contains(&call.split(' ').next().and_then(|it| it.parse().ok()));
            if !is_idle {
                sleep(Duration::from_millis(1));
            }
            is_idle
        })
    }

    /// Waits until it has nothing more to do.
    pub fn rest(&self) {
        let (begun, mut rests) = (Instant::now(), 0);
        while rests < 10 {
            assert!(begun.elapsed() < LONG, "it works without end");
            let words = fs::read_to_string(format!("/proc/{}/stat", self.pid())).unwrap();
            rests = if words.contains(") S ") { rests + 1 } else { 0 };
            sleep(Duration::from_millis(2));
        }
    }

    /// How many descriptors it has once it rests.
    pub fn descriptors(&self) -> usize {
        self.rest();
        fs::read_dir(format!("/proc/{}/fd", self.pid())).unwrap().count()
    }

    /// How many bytes of memory it has, in all and in mappings.
    pub fn memory(&self) -> (u64, u64) {
        let words = fs::read_to_string(format!("/proc/{}/statm", self.pid())).unwrap();
        let pages: Vec<u64> = words.split(' ').map(|it| it.trim().parse().unwrap()).collect();
        (4096 * pages[1], 4096 * pages[0])
    }

    /// How many bytes are mapped that it shares with other processes: the allocator's reserves are not among them, nor
    /// are rings of the system.
    pub fn shared(&self) -> u64 {
        let address = |it: &str| u64::from_str_radix(it, 16).unwrap();
        let maps = fs::read_to_string(format!("/proc/{}/maps", self.pid())).unwrap();
        let len = |line: &str| {
            let (range, rest) = line.split_once(' ').unwrap();
            let (from, to) = range.split_once('-').unwrap();
            if rest.starts_with("rw-s") && !rest.contains("[io_uring]") {
                address(to) - address(from)
            } else {
                0
            }
        };
        maps.lines().map(len).sum()
    }

    /// How long a processor worked for it, in nanoseconds.
    pub fn processor_time(&self) -> u64 {
        let mut clock = 0;
        // SAFETY: it writes the number of a clock, and the pointer is that of one.
        assert_eq!(unsafe { libc::clock_getcpuclockid(self.pid(), &mut clock) }, 0);
        time_of(clock)
    }

    /// Waits until it has worked for 20 milliseconds.
    pub fn wait_for_work(&self) {
        let (begun, before) = (Instant::now(), self.processor_time());
        while self.processor_time() < before + 20_000_000 {
            assert!(begun.elapsed() < LONG, "it does not work");
            sleep(Duration::from_millis(1));
        }
    }

    pub fn lives(&mut self) -> bool {
        self.child.try_wait().unwrap().is_none()
    }

    /// Sends it a signal.
    pub fn signal(&self, signal: i32) {
        // SAFETY: it takes numbers, of a child that was not waited for.
        assert_eq!(unsafe { libc::kill(self.pid(), signal) }, 0);
    }

    /// How it ended, if it did within a time.
    pub fn ended(&mut self, time: Duration) -> Option<ExitStatus> {
        let begun = Instant::now();
        while begun.elapsed() < time {
            if let Some(status) = self.child.try_wait().unwrap() {
                return Some(status);
            }
            sleep(Duration::from_millis(2));
        }
        None
    }

    /// Sets how much it may have of something, and returns how much it could have.
    pub fn limit(&self, resource: libc::__rlimit_resource_t, most: u64) -> u64 {
        let mut limit = libc::rlimit {
            rlim_cur: 0,
            rlim_max: 0,
        };
        // SAFETY: it fills in a limit.
        assert_eq!(
            unsafe { libc::prlimit(self.pid(), resource, std::ptr::null(), &mut limit) },
            0
        );
        let before = std::mem::replace(&mut limit.rlim_cur, most);
        // SAFETY: it reads a limit.
        assert_eq!(unsafe { libc::prlimit(self.pid(), resource, &limit, null_mut()) }, 0);
        before
    }

    pub fn end(mut self, signal: i32) -> ExitStatus {
        self.signal(signal);
        self.child.wait().unwrap()
    }
}

impl Drop for Program {
    fn drop(&mut self) {
        if std::thread::panicking() {
            println!("the program said: {}", self.said.lock().unwrap());
        }
        let _ = self.child.kill();
        let _ = self.child.wait();
    }
}

/// The bytes of an image: of each sector its number, again and again.
pub fn image_of(len: usize) -> Vec<u8> {
    (0..len).map(|at| ((at / 512) as u32).to_le_bytes()[at % 4]).collect()
}

fn words_of(pid: i32) -> Vec<String> {
    let text = fs::read_to_string(format!("/proc/{pid}/stat")).unwrap();
    // The name of the program stands in parentheses, and its state after them.
    let rest = text.rsplit_once(") ").unwrap().1.to_owned();
    rest.split(' ').map(str::to_owned).collect()
}

// How long a processor worked for a process, also for one that ended, in nanoseconds: the system counts hundredths.
fn work_of(pid: i32) -> u64 {
    let words = words_of(pid);
    let ticks: u64 = words[11..13].iter().map(|it| it.parse::<u64>().unwrap()).sum();
    ticks * 10_000_000
}

/// How long a processor works for it until it ends by SIGTERM, in nanoseconds.
pub fn work_of_its_end(program: &Program) -> u64 {
    let (pid, before, begun) = (program.pid(), work_of(program.pid()), Instant::now());
    program.signal(libc::SIGTERM);
    while words_of(pid)[0] != "Z" {
        assert!(begun.elapsed() < LONG, "it does not end");
        sleep(Duration::from_millis(1));
    }
    work_of(pid) - before
}
