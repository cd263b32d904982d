//! What QEMU expects of every back end (docs/interop/vhost-user.rst there), and the lock of the image.

mod front_end;

use front_end::*;
use std::fs::{self, File};
use std::os::fd::{AsRawFd, OwnedFd};
use std::os::unix::net::{UnixListener, UnixStream};
use std::os::unix::process::CommandExt;
use std::path::Path;
use std::process::{Command, ExitStatus, Stdio};
use std::time::{Duration, Instant};

const LEN: usize = 1 << 20;
const PROMPT: Duration = Duration::from_secs(30);

fn started(mut front: FrontEnd) -> FrontEnd {
    front.socket.set_read_timeout(Some(PROMPT)).unwrap();
    front.negotiate(USUAL);
    front.set_memory();
    front.start_ring(64, 0);
    front
}

fn expect_served(front: FrontEnd) -> FrontEnd {
    let mut front = started(front);
    assert_eq!(front.read_disk(0, 2, 512), image_of(LEN)[2 * 512..3 * 512]);
    front
}

fn command() -> Command {
    Command::new(env!("CARGO_BIN_EXE_vhost-user-blk"))
}

// The status of the program with these words, and what it printed and said of its end. If it does not end it is killed.
fn ran(mut command: Command, words: &[&str]) -> (Option<i32>, String, String) {
    command.args(words).stdout(Stdio::piped()).stderr(Stdio::piped());
    let mut child = command.spawn().unwrap();
    let begun = Instant::now();
    while child.try_wait().unwrap().is_none() && begun.elapsed() < PROMPT {
        std::thread::sleep(Duration::from_millis(2));
    }
    let _ = child.kill();
    let out = child.wait_with_output().unwrap();
    let [printed, said] = [out.stdout, out.stderr].map(|text| String::from_utf8(text).unwrap());
    (out.status.code(), printed, said)
}

// Has a command start with a descriptor under this number.
fn with_descriptor(mut command: Command, number: i32, descriptor: OwnedFd) -> Command {
    let set = move || {
        // SAFETY: these take numbers, and a child may call them before it becomes another program.
        let done = unsafe { libc::dup2(descriptor.as_raw_fd(), number).min(libc::fcntl(number, libc::F_SETFD, 0)) };
        match done {
            -1 => Err(std::io::Error::last_os_error()),
            _ => Ok(()),
        }
    };
    // SAFETY: it makes two calls of the system, and allocates nothing.
    unsafe { command.pre_exec(set) };
    command
}

// The program with the descriptor 9.
fn program_with(descriptor: OwnedFd, folder: &Path, words: &[&str]) -> Program {
    let mut command = with_descriptor(command(), 9, descriptor);
    command.args(words).arg("--blk-file").arg(folder.join("disk.img"));
    Program::spawn(folder, command)
}

fn ended(mut program: Program) -> ExitStatus {
    program.ended(PROMPT).expect("it ends with its connection")
}

#[test]
fn the_names_of_back_ends_are_taken() {
    let folder = Program::prepare("names", LEN);
    let [socket, image] = ["s", "disk.img"].map(|name| folder.join(name).display().to_string());
    for words in [
        &[
            format!("--socket-path={socket}"),
            format!("--blk-file={image}"),
            "--read-only".into(),
        ][..],
        &[
            "--socket-path".into(),
            socket,
            "--blk-file".into(),
            image,
            "--read-only".into(),
        ],
    ] {
        let mut command = command();
        command.args(words);
        let program = Program::spawn(&folder, command);
        let mut front = expect_served(program.connect());
        assert_eq!(front.request(0, 1, 0, 512).0, 1);
        assert!(program.end(libc::SIGTERM).success());
    }
}

#[test]
fn a_connection_is_inherited() {
    for words in [&["--fd=9"][..], &["--fd", "9"]] {
        let folder = Program::prepare("inherited", LEN);
        let (mine, other) = UnixStream::pair().unwrap();
        let program = program_with(other.into(), &folder, words);
        drop(expect_served(FrontEnd::new(mine)));
        // The front end went.
        assert!(ended(program).success());
    }
    // It breaks the protocol, and the program is asked to end.
    let folder = Program::prepare("inherited", LEN);
    let (mine, other) = UnixStream::pair().unwrap();
    let program = program_with(other.into(), &folder, &["--fd=9"]);
    assert!(send(&mine, &message(99, 0, &[]), &[]));
    assert_eq!(ended(program).code(), Some(1));
    let (mine, other) = UnixStream::pair().unwrap();
    let program = program_with(other.into(), &folder, &["--fd=9"]);
    let mut front = expect_served(FrontEnd::new(mine));
    assert!(program.end(libc::SIGTERM).success());
    assert!(front.is_let_go());
}

#[test]
fn a_listener_is_inherited() {
    let folder = Program::prepare("listener", LEN);
    let listener = UnixListener::bind(folder.join("s")).unwrap();
    let program = program_with(listener.into(), &folder, &["--fd=9"]);
    for _ in 0..3 {
        drop(expect_served(program.connect()));
    }
    assert!(program.end(libc::SIGTERM).success());
    // Whoever made the socket has it still.
    assert!(folder.join("s").exists());
}

#[test]
fn what_is_no_socket_is_not_inherited() {
    let folder = Program::prepare("no_socket", LEN);
    let image = folder.join("disk.img").display().to_string();
    let words = ["--fd=9", "--blk-file", &image];
    let file = File::open(&image).unwrap();
    let datagrams = std::os::unix::net::UnixDatagram::unbound().unwrap();
    let network = std::net::TcpListener::bind("127.0.0.1:0").unwrap();
    for (descriptor, wrong) in [
        (file.into(), "Socket operation on non-socket (os error 88)"),
        (datagrams.into(), "it is no stream socket"),
        (network.into(), "file descriptor did not correspond to a Unix socket"),
    ] {
        let said = format!("vhost-user-blk: --fd 9: {wrong}\n");
        let out = ran(with_descriptor(command(), 9, descriptor), &words);
        assert_eq!(out, (Some(1), String::new(), said));
    }
    let said = "vhost-user-blk: --fd 9: Bad file descriptor (os error 9)\n";
    assert_eq!(ran(command(), &words), (Some(1), String::new(), said.into()));
}

#[test]
fn capabilities_and_the_version_are_printed() {
    let capabilities = "{\"type\": \"block\", \"features\": [\"read-only\", \"blk-file\"]}\n";
    for words in [
        &["--print-capabilities"][..],
        &["--fd=1", "--print-capabilities", "--x", "y"],
    ] {
        assert_eq!(ran(command(), words), (Some(0), capabilities.into(), String::new()));
    }
    let version = format!("vhost-user-blk {}\n", env!("CARGO_PKG_VERSION"));
    assert_eq!(ran(command(), &["--version"]), (Some(0), version, String::new()));
}

// The fields of VhostUserBackend in docs/interop/vhost-user.json of QEMU, each a text here.
#[test]
fn the_description_has_the_fields_of_a_back_end() {
    let path = Path::new(env!("CARGO_MANIFEST_DIR")).join("50-vhost-user-blk.json");
    let text = fs::read_to_string(path).unwrap();
    let inside = text
        .trim()
        .strip_prefix('{')
        .and_then(|text| text.strip_suffix('}'))
        .unwrap();
    let mut fields: Vec<_> = inside
        .split(",\n")
        .map(|line| line.trim().split_once(": ").unwrap())
        .collect();
    fields.sort_unstable();
    let names: Vec<_> = fields.iter().map(|(name, _)| *name).collect();
    assert_eq!(names, ["\"binary\"", "\"description\"", "\"type\""]);
    let is_text = |text: &str| text.len() > 2 && text.starts_with('"') && text.ends_with('"');
    assert!(fields.iter().all(|(_, text)| is_text(text)), "{fields:?}");
    assert!(fields[0].1.starts_with("\"/") && fields[0].1.ends_with("/vhost-user-blk\""));
    assert_eq!(fields[2].1, "\"block\"");
}

#[test]
fn an_image_is_served_once() {
    let program = Program::start("locked", LEN, &[]);
    let folder = &program.folder;
    let [other, image] = ["t", "disk.img"].map(|name| folder.join(name).display().to_string());
    let said = format!(
        "vhost-user-blk: {image}: another program has locked it: waiting 10 s for its end\n\
         vhost-user-blk: {image}: another program has locked it (--no-lock serves it anyway)\n"
    );
    for more in [&[][..], &["--read-only"]] {
        let words = [&["--socket", &other, "--image", &image], more].concat();
        assert_eq!(ran(command(), &words), (Some(1), String::new(), said.clone()));
    }
    // The first one has its lock as long as it lives, whoever else was refused.
    expect_served(program.connect());
    let anyway = serve(folder, &["--no-lock"]);
    expect_served(FrontEnd::new(UnixStream::connect(&other).unwrap()));
    assert!(anyway.end(libc::SIGTERM).success());
    let folder = folder.clone();
    program.end(libc::SIGKILL);
    drop(Program::start_again(&folder, &[]));
}

// The image of a folder, by another socket there.
fn serve(folder: &Path, words: &[&str]) -> Program {
    let mut command = command();
    command.arg("--socket").arg(folder.join("t"));
    command.arg("--image").arg(folder.join("disk.img")).args(words);
    Program::spawn(folder, command)
}

#[test]
fn those_who_only_read_share_an_image() {
    let reader = Program::start("shared_lock", LEN, &["--read-only"]);
    let other = serve(&reader.folder, &["--read-only"]);
    let image = reader.image.display().to_string();
    let words = ["--socket", "u", "--image", &image];
    let (status, _, said) = ran(command(), &words);
    assert_eq!(status, Some(1));
    assert!(said.contains("another program has locked it"), "{said}");
    expect_served(FrontEnd::new(UnixStream::connect(other.folder.join("t")).unwrap()));
    expect_served(reader.connect());
    // Another program's lock counts, too, and one that is let go of soon is waited for.
    drop((reader, other));
    let folder = Program::prepare("other_lock", LEN);
    let file = File::open(folder.join("disk.img")).unwrap();
    // SAFETY: it takes numbers.
    assert_eq!(unsafe { libc::flock(file.as_raw_fd(), libc::LOCK_SH) }, 0);
    let holder = std::thread::spawn(move || {
        std::thread::sleep(Duration::from_millis(100));
        drop(file);
    });
    expect_served(Program::start_again(&folder, &[]).connect());
    holder.join().unwrap();
}
