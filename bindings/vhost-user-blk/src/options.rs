//! The words of the command line.

use std::borrow::Cow;
use std::collections::HashMap;
use std::ffi::{OsStr, OsString};
use std::fmt;
use std::ops::RangeInclusive;
use std::os::fd::RawFd;
use std::os::unix::ffi::OsStrExt;
use std::path::PathBuf;
use std::time::Duration;

pub const USAGE: &str = "\
usage: vhost-user-blk --socket PATH --image FILE [--read-only] [--write-through] [--queues N] [--iommu]
           [--iotlb-limit N] [--stats SECONDS] [--no-lock] [--aio io_uring|threads|none] [--depth N] [--any-order]
           [--drain SECONDS] [--direct] [--poll MICROSECONDS]
       vhost-user-blk --fd N --image FILE ..
       vhost-user-blk --print-capabilities | --version | --help

Serves FILE as the disk of a virtio block device to a vhost-user front end, such as QEMU, that connects to PATH. When it
disconnects, the next one can connect. SIGTERM and SIGINT stop the program; after SIGHUP the disk has the size that FILE
has then. A value may also follow a =, as in --fd=3.

  --socket PATH     the Unix socket to create; --socket-path is the same
  --fd N            in place of --socket, a Unix socket that the program is started with, 3 or more. If it is connected,
                    the program serves that front end and ends; if it listens, front ends connect to it
  --image FILE      the disk: a file or a block device, in sectors of 512 bytes; --blk-file is the same
  --read-only       the guest can only read
  --write-through   FLUSH is not offered: each write is stable before it completes
  --queues N        the number of queues, 1 to 256; the default is 1
  --iommu           the guest may have an IOMMU: ACCESS_PLATFORM is offered
  --iotlb-limit N   with --iommu: how many I/O ranges are kept, 8 to 65536; the default is 65536
  --stats SECONDS   prints requests, bytes, errors, what is under way, and how long parts took since the last time, this
                    often and at the end of a connection
  --aio WAY         how FILE is read and written: io_uring or threads serve many requests at once, and none one after
                    another; the default is the first of these that the system allows
  --depth N         how many requests of each queue are under way at once, 1 to 1024; the default is 128
  --any-order       all requests complete in any order, not only those of packed rings and of front ends that keep what
                    is in flight: if the program is killed, a guest may lose some
  --drain SECONDS   how long the end waits for what is under way, 0 to 86400; the default is 10
  --direct          reads and writes past the page cache (O_DIRECT); not with --aio none
  --poll MICROSECONDS
                    looks for requests for so long at most before it sleeps, 0 to 1000000: a request that comes soon
                    waits less, and a processor works meanwhile; the default is 0
  --no-lock         serves FILE even if another program has locked it, and does not lock it
  --print-capabilities
                    prints, as JSON, what a manager of QEMU asks of a back end
  --version         prints the version";

const VERSION: &str = concat!("vhost-user-blk ", env!("CARGO_PKG_VERSION"));

// What the program can do, as QEMU's docs/interop/vhost-user.json has it.
const CAPABILITIES: &str = r#"{"type": "block", "features": ["read-only", "blk-file"]}"#;

/// What the program is asked for.
#[derive(Debug, PartialEq, Eq)]
pub enum Asked {
    Text(&'static str),
    Disk(Options),
}

/// Where front ends come from.
#[derive(Debug, PartialEq, Eq)]
pub enum Source {
    /// They connect to a socket that is made here.
    Path(PathBuf),
    /// A descriptor that the program is started with.
    Descriptor(RawFd),
}

impl fmt::Display for Source {
    fn fmt(&self, f: &mut fmt::Formatter<'_>) -> fmt::Result {
        match self {
            Source::Path(path) => path.display().fmt(f),
            Source::Descriptor(number) => write!(f, "descriptor {number}"),
        }
    }
}

/// How a disk is served.
#[derive(Debug, PartialEq, Eq)]
pub struct Options {
    pub source: Source,
    pub image: PathBuf,
    pub read_only: bool,
    pub write_through: bool,
    pub queues: u32,
    /// How many ranges the I/O table keeps, if the guest may have an IOMMU.
    pub iotlb_limit: Option<u32>,
    pub stats: Option<Duration>,
    pub is_locked: bool,
    /// How the image is read and written, if it is not what the system allows.
    pub aio: Option<Aio>,
    pub depth: u32,
    pub any_order: bool,
    pub drain: Duration,
    /// The page cache is passed by.
    pub is_direct: bool,
    /// How long the program looks for requests before it sleeps, at most.
    pub poll: Duration,
}

/// How the image is read and written.
#[derive(Clone, Copy, Debug, PartialEq, Eq)]
pub enum Aio {
    Uring,
    Threads,
    /// One request after another.
    None,
}

// The options, those of the same meaning by its first name, and whether they have a value.
const NAMES: [(&str, &str, bool); 18] = [
    ("--socket", "--socket", true),
    ("--socket-path", "--socket", true),
    ("--fd", "--fd", true),
    ("--image", "--image", true),
    ("--blk-file", "--image", true),
    ("--read-only", "--read-only", false),
    ("--write-through", "--write-through", false),
    ("--queues", "--queues", true),
    ("--iommu", "--iommu", false),
    ("--iotlb-limit", "--iotlb-limit", true),
    ("--stats", "--stats", true),
    ("--no-lock", "--no-lock", false),
    ("--aio", "--aio", true),
    ("--depth", "--depth", true),
    ("--any-order", "--any-order", false),
    ("--drain", "--drain", true),
    ("--direct", "--direct", false),
    ("--poll", "--poll", true),
];

impl Asked {
    /// Reads the words after the program's name. An error says what is wrong.
    pub fn parse(words: impl Iterator<Item = OsString>) -> Result<Asked, String> {
        let words: Vec<_> = words.collect();
        // With this word all others are ignored.
        if words.iter().any(|word| word == "--print-capabilities") {
            return Ok(Asked::Text(CAPABILITIES));
        }
        let (mut read, mut words) = (HashMap::new(), words.into_iter());
        while let Some(word) = words.next() {
            let (name, given) = split(&word);
            match name.as_ref() {
                "--help" | "-h" => return Ok(Asked::Text(USAGE)),
                "--version" => return Ok(Asked::Text(VERSION)),
                _ => (),
            }
            let known = NAMES.iter().find(|known| known.0 == name);
            let &(_, key, has_value) = known.ok_or_else(|| format!("{name} is no option"))?;
            if given.is_some() && !has_value {
                return Err(format!("{name} takes no value"));
            }
            let value = if has_value {
                given.or_else(|| words.next())
            } else {
                Some(OsString::new())
            };
            let value = value.ok_or_else(|| format!("{name} has no value"))?;
            if read.insert(key, value).is_some() && has_value {
                return Err(format!("{name} comes twice"));
            }
        }
        options_of(read).map(Asked::Disk)
    }
}

// A word as --name=value, or as it is.
fn split(word: &OsStr) -> (Cow<'_, str>, Option<OsString>) {
    let bytes = word.as_bytes();
    let place = bytes.iter().position(|byte| *byte == b'=');
    match place.filter(|_| bytes.starts_with(b"--")) {
        Some(place) => {
            let value = OsStr::from_bytes(&bytes[place + 1..]).to_owned();
            (String::from_utf8_lossy(&bytes[..place]), Some(value))
        }
        None => (word.to_string_lossy(), None),
    }
}

fn options_of(mut read: HashMap<&str, OsString>) -> Result<Options, String> {
    let number = |name, range| number(name, read.get(name), range);
    let (fd, queues) = (number("--fd", 3..=i32::MAX as u32)?, number("--queues", 1..=256)?);
    let (limit, stats) = (number("--iotlb-limit", 8..=65_536)?, number("--stats", 1..=86_400)?);
    let (depth, drain) = (number("--depth", 1..=1024)?, number("--drain", 0..=86_400)?);
    let poll = number("--poll", 0..=1_000_000)?;
    let aio = read.remove("--aio").map(aio_of).transpose()?;
    let source = match (read.remove("--socket"), fd) {
        (Some(path), None) => Source::Path(path.into()),
        (None, Some(number)) => Source::Descriptor(number as RawFd),
        (None, None) => return Err("--socket is missing".into()),
        (Some(_), Some(_)) => return Err("--fd takes the place of --socket".into()),
    };
    let image = read.remove("--image").ok_or("--image is missing")?.into();
    let iommu = read.contains_key("--iommu");
    if limit.is_some() && !iommu {
        return Err("--iotlb-limit needs --iommu".into());
    }
    let is_direct = read.contains_key("--direct");
    if is_direct && aio == Some(Aio::None) {
        return Err("--direct is not with --aio none".into());
    }
    Ok(Options {
        source,
        image,
        read_only: read.contains_key("--read-only"),
        write_through: read.contains_key("--write-through"),
        queues: queues.unwrap_or(1),
        iotlb_limit: iommu.then_some(limit.unwrap_or(65_536)),
        stats: stats.map(|seconds| Duration::from_secs(seconds.into())),
        is_locked: !read.contains_key("--no-lock"),
        aio,
        depth: depth.unwrap_or(128),
        any_order: read.contains_key("--any-order"),
        drain: Duration::from_secs(drain.unwrap_or(10).into()),
        is_direct,
        poll: Duration::from_micros(poll.unwrap_or(0).into()),
    })
}

fn aio_of(word: OsString) -> Result<Aio, String> {
    match word.to_str() {
        Some("io_uring") => Ok(Aio::Uring),
        Some("threads") => Ok(Aio::Threads),
        Some("none") => Ok(Aio::None),
        _ => Err(format!(
            "--aio takes io_uring, threads or none, not {}",
            word.to_string_lossy()
        )),
    }
}

fn number(word: &str, value: Option<&OsString>, range: RangeInclusive<u32>) -> Result<Option<u32>, String> {
    let Some(value) = value else {
        return Ok(None);
    };
    let number = value.to_str().and_then(|value| value.parse().ok());
    let number = number.filter(|it| range.contains(it)).ok_or_else(|| {
        let (first, last) = (range.start(), range.end());
        format!(
            "{word} takes a number from {first} to {last}, not {}",
            value.to_string_lossy()
        )
    });
    number.map(Some)
}

#[cfg(test)]
mod tests {
    use super::*;

    fn parse(words: &[&str]) -> Result<Asked, String> {
        Asked::parse(words.iter().map(OsString::from))
    }

    fn options(words: &[&str]) -> Options {
        match parse(words) {
            Ok(Asked::Disk(options)) => options,
            other => panic!("{words:?}: {other:?}"),
        }
    }

    const ASKED: [&str; 4] = ["--socket", "s", "--image", "i"];

    fn more(words: &str) -> Options {
        let words: Vec<_> = words.split_whitespace().collect();
        options(&[&ASKED[..], &words].concat())
    }

    #[test]
    fn words_are_options() {
        let usual = Options {
            source: Source::Path("s".into()),
            image: "i".into(),
            read_only: false,
            write_through: false,
            queues: 1,
            iotlb_limit: None,
            stats: None,
            is_locked: true,
            aio: None,
            depth: 128,
            any_order: false,
            drain: Duration::from_secs(10),
            is_direct: false,
            poll: Duration::ZERO,
        };
        assert_eq!(more(""), usual);
        let wanted = Options {
            read_only: true,
            queues: 256,
            stats: Some(Duration::from_secs(5)),
            iotlb_limit: Some(8),
            ..usual
        };
        assert_eq!(
            more("--read-only --queues 256 --stats 5 --iommu --iotlb-limit 8"),
            wanted
        );
    }

    #[test]
    fn words_say_how_the_image_is_read() {
        let wanted = Options {
            depth: 1024,
            any_order: true,
            drain: Duration::ZERO,
            is_direct: true,
            poll: Duration::from_micros(32),
            ..more("")
        };
        assert_eq!(more("--depth 1024 --any-order --drain 0 --direct --poll 32"), wanted);
        for (word, wanted) in [("io_uring", Aio::Uring), ("threads", Aio::Threads), ("none", Aio::None)] {
            assert_eq!(more(&format!("--aio {word}")).aio, Some(wanted));
        }
    }

    #[test]
    fn words_are_texts() {
        for (word, wanted) in [
            ("--help", Asked::Text(USAGE)),
            ("-h", Asked::Text(USAGE)),
            ("--version", Asked::Text(VERSION)),
            ("--print-capabilities", Asked::Text(CAPABILITIES)),
        ] {
            assert_eq!(parse(&[word]), Ok(wanted));
        }
    }

    // QEMU's names, and values after a =, of which the first one counts.
    #[test]
    fn words_are_those_of_back_ends() {
        let it = options(&["--socket-path=a=b", "--blk-file=/i", "--read-only", "--no-lock"]);
        assert_eq!((it.source, it.image), (Source::Path("a=b".into()), "/i".into()));
        assert!(it.read_only && !it.is_locked && it.iotlb_limit.is_none());
        let it = options(&["--fd=3", "--image", "--x=y", "--queues=2", "--write-through", "--iommu"]);
        assert_eq!((it.source, it.image), (Source::Descriptor(3), "--x=y".into()));
        assert_eq!((it.queues, it.write_through, it.iotlb_limit), (2, true, Some(65_536)));
        let it = options(&["--fd", "2147483647", "--blk-file", "i"]);
        assert_eq!(it.source, Source::Descriptor(i32::MAX));
        // Words that are no options do not matter then.
        assert_eq!(
            parse(&["--x", "--fd", "--print-capabilities", "y"]),
            Ok(Asked::Text(CAPABILITIES))
        );
    }

    #[test]
    fn wrong_words_are_named() {
        for (words, said) in [
            (&["--socket", "s"][..], "--image is missing"),
            (&["--image", "i"], "--socket is missing"),
            (&["--image"], "--image has no value"),
            (&["--image", "i", "--image", "j"], "--image comes twice"),
            (&["--image", "i", "--blk-file=j"], "--blk-file comes twice"),
            (&["--disk", "i"], "--disk is no option"),
            (&["--disk=i"], "--disk is no option"),
            (&["a=b"], "a=b is no option"),
            (&["--read-only=1"], "--read-only takes no value"),
            (&["--queues", "0"], "--queues takes a number from 1 to 256, not 0"),
            (&["--queues=257"], "--queues takes a number from 1 to 256, not 257"),
            (
                &["--iotlb-limit", "7"],
                "--iotlb-limit takes a number from 8 to 65536, not 7",
            ),
            (
                &["--socket", "s", "--image", "i", "--iotlb-limit", "8"],
                "--iotlb-limit needs --iommu",
            ),
            (&["--stats", "x"], "--stats takes a number from 1 to 86400, not x"),
            (&["--fd=2"], "--fd takes a number from 3 to 2147483647, not 2"),
            (
                &["--fd=2147483648"],
                "--fd takes a number from 3 to 2147483647, not 2147483648",
            ),
            (
                &["--fd=3", "--socket=s", "--image=i"],
                "--fd takes the place of --socket",
            ),
        ] {
            assert_eq!(parse(words), Err(said.to_owned()));
        }
    }

    #[test]
    fn wrong_words_for_the_image_are_named() {
        for (words, said) in [
            (&["--depth", "0"][..], "--depth takes a number from 1 to 1024, not 0"),
            (&["--depth=1025"], "--depth takes a number from 1 to 1024, not 1025"),
            (&["--drain", "-1"], "--drain takes a number from 0 to 86400, not -1"),
            (
                &["--direct", "--aio=none", "--socket=s", "--image=i"],
                "--direct is not with --aio none",
            ),
            (&["--aio", "uring"], "--aio takes io_uring, threads or none, not uring"),
            (
                &["--poll", "1000001"],
                "--poll takes a number from 0 to 1000000, not 1000001",
            ),
        ] {
            assert_eq!(parse(words), Err(said.to_owned()));
        }
    }
}
