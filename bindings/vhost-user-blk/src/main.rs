//! A back end of vhost-user: a front end, as QEMU, has a virtio block device whose disk is a file here.
//!
//! docs/VHOST_USER_BLK.md of the repository describes it. What a message, a ring or a request means is decided by the
//! proved library. The rest moves bytes and descriptors.
#![deny(unsafe_code, unsafe_op_in_unsafe_fn)]

mod device;
mod direct;
mod disk;
mod engine;
mod options;
mod output;
mod poll;
#[allow(unsafe_code)]
mod system;
mod threads;
mod times;
#[allow(unsafe_code)]
mod uring;

use device::{SIGNALS, SOCKET};
use direct::Direct;
use disk::Disk;
use engine::{Engine, System};
use options::{Aio, Asked, Options, Source, USAGE};
use std::cell::{Cell, RefCell};
use std::error::Error;
use std::fs::{self, File};
use std::io::{self, ErrorKind::ConnectionAborted, ErrorKind::Interrupted, ErrorKind::WouldBlock, Read, Write};
use std::mem;
use std::os::fd::{AsFd, RawFd};
use std::os::unix::fs::FileTypeExt;
use std::os::unix::net::{UnixListener, UnixStream};
use std::path::{Path, PathBuf};
use std::process::ExitCode;
use std::rc::Rc;
use std::sync::Arc;
use std::time::Duration;
use system::{Epoll, LEVEL};
use threads::Threads;
use uring::Uring;
use vm_memory_proved::connection::Ended;
use vm_memory_proved::Watchdog;

// How long the program waits if the system has no room for another front end.
const PAUSE: Duration = Duration::from_millis(100);

fn main() -> ExitCode {
    let done = match Asked::parse(std::env::args_os().skip(1)) {
        Ok(Asked::Disk(options)) => run(options),
        Ok(Asked::Text(text)) => {
            // Whoever listened may have gone.
            let _ = writeln!(io::stdout(), "{text}");
            Ok(())
        }
        Err(wrong) => {
            eprintln!("vhost-user-blk: {wrong}\n\n{USAGE}");
            return ExitCode::from(2);
        }
    };
    output::finish();
    match done {
        Ok(()) => ExitCode::SUCCESS,
        Err(error) => {
            eprintln!("vhost-user-blk: {error}");
            ExitCode::FAILURE
        }
    }
}

/// What front ends are served with.
struct Program {
    options: Options,
    disk: Disk,
    // What has many requests under way at once, and how that is called.
    engine: RefCell<Option<Engine>>,
    way: Option<String>,
    signals: File,
    // What is watched while no front end is served.
    epoll: Epoll,
    watchdog: Watchdog,
    // It was asked to end.
    is_ending: Cell<bool>,
    // So many requests are under way although it ends.
    left: Cell<usize>,
}

// Where front ends come from.
enum Fronts {
    // They connect to a socket that is made here.
    Path(PathBuf),
    Listener(UnixListener),
    // It is one, which is there.
    Connected(UnixStream),
}

fn run(options: Options) -> Result<(), Box<dyn Error>> {
    let fronts = match &options.source {
        Source::Path(path) => Fronts::Path(path.clone()),
        // Nothing was opened yet that could have this number.
        Source::Descriptor(number) => inherit(*number).map_err(|error| format!("--fd {number}: {error}"))?,
    };
    let program = Program::new(options)?;
    match fronts {
        Fronts::Path(path) => {
            let listener = listen(&path).map_err(|error| named(&path, error))?;
            program.say_start("listening on");
            let served = program.serve_each(&listener);
            fs::remove_file(&path).map_err(|error| named(&path, error))?;
            served
        }
        Fronts::Listener(listener) => {
            program.say_start("listening on");
            program.serve_each(&listener)
        }
        Fronts::Connected(socket) => {
            program.say_start("connected by");
            match program.serve(socket) {
                Ended::Gone | Ended::HungUp => Ok(()),
                ended => Err(ended.into()),
            }
        }
    }
}

fn named(path: &Path, error: io::Error) -> String {
    format!("{}: {error}", path.display())
}

// A socket that the program was started with.
fn inherit(number: RawFd) -> io::Result<Fronts> {
    let socket = system::inherited(number)?;
    if system::socket_option(&socket, libc::SO_TYPE)? != libc::SOCK_STREAM {
        return Err(io::Error::other("it is no stream socket"));
    }
    if system::socket_option(&socket, libc::SO_ACCEPTCONN)? != 0 {
        let listener = UnixListener::from(socket);
        // It is a Unix socket.
        listener.local_addr()?;
        listener.set_nonblocking(true)?;
        return Ok(Fronts::Listener(listener));
    }
    let socket = UnixStream::from(socket);
    socket.peer_addr()?;
    Ok(Fronts::Connected(socket))
}

impl Program {
    fn new(options: Options) -> Result<Program, Box<dyn Error>> {
        let disk = Disk::open(&options.image, &options);
        let disk = disk.map_err(|error| named(&options.image, error))?;
        let (signals, epoll) = (system::signals()?, Epoll::new()?);
        epoll.watch(signals.as_fd(), SIGNALS, LEVEL)?;
        vm_memory_proved::survive_lost_memory()?;
        // Threads that begin now leave the signals to this one.
        output::start()?;
        let (engine, way) = engine_of(&options, &disk)?.unzip();
        Ok(Program {
            options,
            disk,
            engine: RefCell::new(engine),
            way,
            signals,
            epoll,
            watchdog: Watchdog::start()?,
            is_ending: Cell::new(false),
            left: Cell::new(0),
        })
    }

    fn say_start(&self, way: &str) {
        let (image, sectors) = (self.options.image.display(), self.disk.sectors.get());
        say!("{image}: {sectors} sectors, {way} {}", self.options.source);
        if let Some(way) = &self.way {
            say!("{way}");
        }
    }

    /// Takes the signals that came, and returns whether the image has another size.
    fn take_signals(&self) -> bool {
        let (mut about, mut is_hangup) = ([0; 128], false);
        while (&self.signals).read(&mut about).is_ok() {
            match i32::from_ne_bytes(*about.first_chunk().expect("it has 4 bytes")) {
                libc::SIGHUP => is_hangup = true,
                libc::SIGTERM | libc::SIGINT => self.is_ending.set(true),
                // A write failed.
                _ => (),
            }
        }
        is_hangup && self.disk.measure()
    }

    // Serves one front end after another, until the program is to end. If the system has no room for one, it waits.
    fn serve_each(&self, listener: &UnixListener) -> Result<(), Box<dyn Error>> {
        let (mut ready, mut is_said) = (Vec::new(), false);
        while !self.is_ending.get() {
            match self.accept(listener, &mut ready) {
                Ok(socket) => {
                    is_said = false;
                    self.serve(socket);
                }
                Err(error) if has_no_room(&error) => {
                    if !mem::replace(&mut is_said, true) {
                        say!("no front end can connect now: {error}");
                    }
                    // Signals alone are watched meanwhile.
                    self.epoll.wait(Some(PAUSE), &mut ready)?;
                    self.take_signals();
                }
                // The front end has gone already, or a signal came.
                Err(error) if matches!(error.kind(), ConnectionAborted | WouldBlock | Interrupted) => (),
                Err(error) => return Err(error.into()),
            }
        }
        self.expect_nothing_left()
    }

    // What was under way ended before the program does.
    fn expect_nothing_left(&self) -> Result<(), Box<dyn Error>> {
        let what = match self.left.get() {
            0 => return Ok(()),
            1 => "1 request to the disk is".into(),
            left => format!("{left} requests to the disk are"),
        };
        Err(format!("{what} under way after {} s", self.options.drain.as_secs()).into())
    }

    fn accept(&self, listener: &UnixListener, ready: &mut Vec<u64>) -> io::Result<UnixStream> {
        self.epoll.watch(listener.as_fd(), SOCKET, LEVEL)?;
        let waited = self.epoll.wait(None, ready);
        self.epoll.unwatch(listener.as_fd());
        waited?;
        if ready.contains(&SIGNALS) {
            self.take_signals();
            return Err(Interrupted.into());
        }
        listener.accept().map(|(socket, _)| socket)
    }

    // Serves a front end until its connection ends. What fails for it ends only that.
    fn serve(&self, socket: UnixStream) -> Ended {
        say!("a front end connected");
        let ended = device::serve(self, socket).unwrap_or_else(Ended::failed("setting it up"));
        say!("the connection ended: {ended}");
        ended
    }
}

// What has many requests under way at once, if that is wanted, and what is said of it.
fn engine_of(options: &Options, disk: &Disk) -> Result<Option<(Engine, String)>, Box<dyn Error>> {
    let file = || Arc::clone(&disk.file);
    let count = (options.depth * options.queues) as usize;
    let uring = || Uring::new(file(), count).map(|it| Box::new(it) as Box<dyn System>);
    let threads = || Threads::new(file()).map(|it| Box::new(it) as Box<dyn System>);
    let (system, name) = match options.aio {
        Some(Aio::None) => return Ok(None),
        Some(Aio::Uring) => (
            uring().map_err(|error| format!("--aio io_uring: {error}"))?,
            "io_uring".into(),
        ),
        Some(Aio::Threads) => (threads()?, "threads".into()),
        None => match uring() {
            Ok(rings) => (rings, "io_uring".into()),
            Err(error) => (threads()?, format!("threads, since io_uring is not to be had: {error}")),
        },
    };
    let direct = disk.blocks.map(Direct::new).transpose()?;
    let past = disk
        .blocks
        .map(|it| format!(", past the page cache in blocks of {} bytes", it.disk));
    let engine = Engine::new(system, Rc::clone(&disk.syncs), direct, options.depth as usize);
    let past = past.unwrap_or_default();
    Ok(Some((engine, format!("the image is read and written{past} by {name}"))))
}

// Whether the system has no room for one more now.
fn has_no_room(error: &io::Error) -> bool {
    let number = error.raw_os_error();
    matches!(
        number,
        Some(libc::EMFILE | libc::ENFILE | libc::ENOBUFS | libc::ENOMEM | libc::ENOSPC)
    )
}

// Makes the socket. One that nobody listens at any more, as of a program that was killed, is replaced.
fn listen(path: &Path) -> io::Result<UnixListener> {
    let is_left = || {
        let is_socket = fs::symlink_metadata(path).is_ok_and(|data| data.file_type().is_socket());
        let refused = UnixStream::connect(path).is_err_and(|error| error.kind() == io::ErrorKind::ConnectionRefused);
        is_socket && refused
    };
    let listener = match UnixListener::bind(path) {
        Err(error) if error.kind() == io::ErrorKind::AddrInUse && is_left() => {
            fs::remove_file(path)?;
            UnixListener::bind(path)
        }
        listener => listener,
    }?;
    listener.set_nonblocking(true)?;
    Ok(listener)
}
