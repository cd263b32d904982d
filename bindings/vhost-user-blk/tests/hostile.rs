//! Front ends that send anything, with real descriptors: the program lives, and has as many descriptors and as much
//! memory as before. `HOSTILE_CONNECTIONS` says how many there are.

mod front_end;

use front_end::*;
use std::fs::{File, OpenOptions};
use std::io::{ErrorKind, Read};
use std::net::Shutdown;
use std::os::fd::{AsRawFd, FromRawFd, OwnedFd, RawFd};
use std::os::unix::net::UnixStream;
use std::time::Instant;

const LEN: usize = 1 << 20;
const CONNECTIONS: usize = 20_000;

// Stands for the front end's own end of its connection.
const OWN_END: RawFd = -1;

// Where the parts of a ring of 16 descriptors lie in a memory of 64 KiB, whose rest is for requests.
const SIZE: u64 = 0x1_0000;
const PARTS: [u64; 3] = [0x1000, 0x2000, 0x3000];
const REGION: usize = 0x1000;

struct Message {
    bytes: Vec<u8>,
    descriptors: Vec<RawFd>,
}

// What a front end may have.
struct Things {
    ram: OwnedFd,
    // Its file shrinks and grows while it is mapped.
    other_ram: OwnedFd,
    region: OwnedFd,
    kick: OwnedFd,
    call: OwnedFd,
    pipe: [OwnedFd; 2],
    socket: UnixStream,
    epoll: OwnedFd,
    file: File,
    zero: File,
    terminal: File,
}

impl Things {
    fn new(program: &Program) -> Things {
        let file = OpenOptions::new()
            .create(true)
            .read(true)
            .append(true)
            .open(program.folder.join("file"));
        // SAFETY: it takes a number.
        let epoll = unsafe { libc::epoll_create1(libc::EPOLL_CLOEXEC) };
        assert!(epoll >= 0);
        Things {
            ram: memfd(SIZE as usize),
            other_ram: memfd(SIZE as usize),
            region: memfd(REGION),
            kick: eventfd(),
            call: eventfd(),
            pipe: pipe(),
            socket: UnixStream::pair().unwrap().0,
            // SAFETY: the system has just opened it.
            epoll: unsafe { OwnedFd::from_raw_fd(epoll) },
            file: file.unwrap(),
            zero: File::open("/dev/zero").unwrap(),
            terminal: File::open("/dev/ptmx").or_else(|_| File::open("/dev/null")).unwrap(),
        }
    }

    fn any(&self, numbers: &mut Numbers) -> RawFd {
        match numbers.below(13) {
            0 => self.ram.as_raw_fd(),
            1 => self.other_ram.as_raw_fd(),
            2 => self.kick.as_raw_fd(),
            3 => self.call.as_raw_fd(),
            4 => self.pipe[0].as_raw_fd(),
            5 => self.pipe[1].as_raw_fd(),
            6 => self.socket.as_raw_fd(),
            7 => self.file.as_raw_fd(),
            8 => self.zero.as_raw_fd(),
            9 => self.epoll.as_raw_fd(),
            10 => self.terminal.as_raw_fd(),
            11 => self.region.as_raw_fd(),
            _ => OWN_END,
        }
    }

    // The region of requests in flight is fresh, mostly, or has anything, or what a run leaves but for some bytes, or
    // what the last program left.
    fn fill_region(&self, is_packed: bool, numbers: &mut Numbers) {
        let bytes = match numbers.below(10) {
            0 => return,
            1 => numbers.bytes(REGION),
            2 => (0..REGION).map(|_| numbers.below(8) as u8 / 7).collect(),
            3 | 4 => nearly_right(is_packed, numbers),
            _ => vec![0; REGION],
        };
        std::os::unix::fs::FileExt::write_all_at(&File::from(again(&self.region)), &bytes, 0).unwrap();
    }

    // Notifies, and takes what the program notified by. Then reads of the kick or writes of the call may wait.
    fn notify(&self, numbers: &mut Numbers) {
        for it in [&self.kick, &self.call, &self.pipe[0], &self.pipe[1]] {
            set_waiting(it, false);
        }
        // The counter may be full.
        let _ = std::io::Write::write(&mut File::from(again(&self.kick)), &numbers.any().to_ne_bytes());
        take(&self.call);
        match numbers.below(200) {
            0 => {
                fill(&self.call);
                set_waiting(&self.call, true);
            }
            1 => {
                take(&self.kick);
                set_waiting(&self.kick, true);
            }
            2 => {
                take(&self.pipe[0]);
                set_waiting(&self.pipe[0], true);
            }
            _ => (),
        }
    }
}

// A region with nothing in flight, as a run leaves it for a ring that has not come far, but for some bytes.
fn nearly_right(is_packed: bool, numbers: &mut Numbers) -> Vec<u8> {
    let mut bytes = vec![0; REGION];
    let mut put = |at: usize, word: u16| bytes[at..at + 2].copy_from_slice(&word.to_le_bytes());
    put(8, 1);
    put(10, 16);
    let len = if is_packed { 32 + 32 * 16 } else { 16 + 16 * 16 };
    if is_packed {
        // Each entry leads to the next one. Both positions are in the first slot, with wrap counters of 1.
        (0..16).for_each(|entry| put(32 + 32 * entry + 2, entry as u16 + 1));
        put(20, 0x0101);
    }
    for _ in 0..numbers.below(4) {
        let at = 8 + numbers.below(len - 8) as usize;
        bytes[at] = numbers.below(18) as u8;
    }
    bytes
}

// The messages of a front end that keeps the protocol.
fn usual(things: &Things, ram: RawFd, is_packed: bool, numbers: &mut Numbers) -> Vec<Message> {
    let of = |request: u32, flags: u32, payload: &[u8], descriptors: &[RawFd]| Message {
        bytes: message(request, flags, payload),
        descriptors: descriptors.to_vec(),
    };
    let event_idx = if numbers.one_in(2) { EVENT_IDX } else { 0 };
    let bits = USUAL | event_idx | if is_packed { RING_PACKED } else { 0 };
    // Both positions of a packed ring are at its beginning, most of the time.
    let base = match (is_packed, numbers.one_in(5)) {
        (false, _) => 0,
        (true, false) => 0x8000_8000,
        (true, true) => numbers.any() as u32 & 0x801f_801f,
    };
    let user = |at: u64| (USER + at).to_le_bytes();
    let addresses = [
        &two(0, 0)[..],
        &user(PARTS[0]),
        &user(PARTS[2]),
        &user(PARTS[1]),
        &[0; 8],
    ]
    .concat();
    let asked = [&[0, 60, 0].map(u32::to_le_bytes).concat()[..], &[0; 60]].concat();
    let zero = 0_u64.to_le_bytes();
    vec![
        of(GET_FEATURES, 0, &[], &[]),
        of(GET_PROTOCOL_FEATURES, 0, &[], &[]),
        of(SET_PROTOCOL_FEATURES, 0, &0x1209_u64.to_le_bytes(), &[]),
        of(GET_QUEUE_NUM, 0, &[], &[]),
        of(SET_OWNER, 0, &[], &[]),
        of(GET_CONFIG, 0, &asked, &[]),
        of(SET_FEATURES, NEED_REPLY, &bits.to_le_bytes(), &[]),
        of(GET_INFLIGHT_FD, 0, &inflight(0, 0, 1, 16), &[]),
        of(
            SET_INFLIGHT_FD,
            0,
            &inflight(REGION as u64, 0, 1, 16),
            &[things.region.as_raw_fd()],
        ),
        of(SET_MEM_TABLE, NEED_REPLY, &FrontEnd::table(&[(0, SIZE, 0)]), &[ram]),
        of(SET_VRING_NUM, 0, &two(0, 16), &[]),
        of(SET_VRING_BASE, 0, &two(0, base), &[]),
        of(SET_VRING_ADDR, 0, &addresses, &[]),
        of(SET_VRING_CALL, 0, &zero, &[things.call.as_raw_fd()]),
        of(SET_VRING_ERR, 0, &zero, &[things.call.as_raw_fd()]),
        of(SET_VRING_KICK, 0, &zero, &[things.kick.as_raw_fd()]),
        of(SET_VRING_ENABLE, NEED_REPLY, &two(0, 1), &[]),
        of(SET_MEM_TABLE, NEED_REPLY, &FrontEnd::table(&[(0, SIZE, 0)]), &[ram]),
        of(GET_VRING_BASE, 0, &two(0, 0), &[]),
        of(SET_VRING_KICK, 0, &zero, &[things.kick.as_raw_fd()]),
        of(GET_VRING_BASE, 0, &two(0, 0), &[]),
    ]
}

// A ring of requests, some of them wrong.
fn ring(numbers: &mut Numbers) -> Vec<u8> {
    let mut ram = vec![0; SIZE as usize];
    let mut put = |at: u64, bytes: &[u8]| ram[at as usize..at as usize + bytes.len()].copy_from_slice(bytes);
    for i in 0..16_u64 {
        let addr = if numbers.one_in(20) {
            numbers.any()
        } else {
            0x4000 + numbers.below(SIZE - 0x4000)
        };
        let len = [16, 512, 1, 4096, numbers.below(1 << 32)][numbers.below(5) as usize];
        let flags = if numbers.one_in(10) {
            numbers.below(8)
        } else {
            numbers.below(4)
        };
        let entry = [
            &addr.to_le_bytes()[..],
            &(len as u32).to_le_bytes(),
            &(flags as u16).to_le_bytes(),
        ]
        .concat();
        put(PARTS[0] + 16 * i, &entry);
        put(PARTS[0] + 16 * i + 14, &(numbers.below(17) as u16).to_le_bytes());
        let most = if numbers.one_in(9) { 20 } else { 16 };
        put(PARTS[1] + 4 + 2 * i, &(numbers.below(most) as u16).to_le_bytes());
        // Headers of requests that exist, most of them.
        put(
            0x4000 + 64 * i,
            &[0, 1, 4, 8, 9_u32][numbers.below(5) as usize].to_le_bytes(),
        );
        put(0x4000 + 64 * i + 8, &numbers.below(LEN as u64 / 512 + 2).to_le_bytes());
    }
    // The first chain is right.
    for (i, (addr, len, flags)) in [(0x4000_u64, 16_u32, 1_u16), (0x5000, 512, 3), (0x6000, 1, 2)]
        .into_iter()
        .enumerate()
    {
        put(
            PARTS[0] + 16 * i as u64,
            &[&addr.to_le_bytes()[..], &len.to_le_bytes(), &flags.to_le_bytes()].concat(),
        );
        put(PARTS[0] + 16 * i as u64 + 14, &(i as u16 + 1).to_le_bytes());
    }
    put(PARTS[1] + 4, &[0, 0]);
    let most = if numbers.one_in(20) { 40 } else { 16 };
    put(PARTS[1] + 2, &(1 + numbers.below(most) as u16).to_le_bytes());
    ram
}

// The same as a packed ring: each descriptor has an id and flags that make it available, most of them.
fn packed_ring(numbers: &mut Numbers) -> Vec<u8> {
    let mut ram = ring(numbers);
    for i in 0..16 {
        let at = PARTS[0] as usize + 16 * i + 12;
        let flags = u16::from_le_bytes([ram[at], ram[at + 1]]);
        let mark = [0x80, 0x80, 0x80, 0x8000, 0x8080, 0][numbers.below(6) as usize];
        let id = if numbers.one_in(20) { numbers.any() } else { i as u64 };
        let words = [id as u16, flags & 7 | mark].map(u16::to_le_bytes).concat();
        ram[at..at + 4].copy_from_slice(&words);
    }
    // The first chain is available, and the driver's area asks for anything.
    for (i, flags) in [0x81_u16, 0x83, 0x82].into_iter().enumerate() {
        let at = PARTS[0] as usize + 16 * i + 14;
        ram[at..at + 2].copy_from_slice(&flags.to_le_bytes());
    }
    let area = PARTS[1] as usize;
    ram[area..area + 4].copy_from_slice(&(numbers.any() as u32).to_le_bytes());
    ram
}

// Changes messages, or leaves them as they are.
fn change(messages: &mut Vec<Message>, things: &Things, numbers: &mut Numbers) {
    for _ in 0..numbers.below(4) {
        let place = numbers.below(messages.len() as u64) as usize;
        let other = numbers.below(messages.len() as u64) as usize;
        let it = &mut messages[place];
        match numbers.below(10) {
            0 => messages.swap(place, other),
            1 => drop(messages.remove(place)),
            2 => {
                let again = Message {
                    bytes: it.bytes.clone(),
                    descriptors: it.descriptors.clone(),
                };
                messages.insert(other, again);
            }
            3 => it.descriptors.push(things.any(numbers)),
            4 => it.descriptors.clear(),
            5 => {
                it.descriptors.clear();
                for _ in 0..numbers.below(20) {
                    it.descriptors.push(things.any(numbers));
                }
            }
            6 => {
                let len = numbers.below(it.bytes.len() as u64 + 1);
                it.bytes.truncate(len as usize);
            }
            7 => {
                for _ in 0..numbers.below(40) {
                    it.bytes.push(numbers.any() as u8);
                }
            }
            _ => {
                let at = numbers.below(it.bytes.len().max(1) as u64) as usize;
                if let Some(byte) = it.bytes.get_mut(at) {
                    *byte = if numbers.one_in(2) {
                        numbers.any() as u8
                    } else {
                        *byte ^ 1 << numbers.below(8)
                    };
                }
            }
        }
        if messages.is_empty() {
            return;
        }
    }
}

// Sends messages, cut anywhere, until the other end closes, and reads all that comes.
fn speak(program: &Program, messages: &[Message], things: &Things, numbers: &mut Numbers) {
    let mut socket = UnixStream::connect(program.folder.join("s")).unwrap();
    socket.set_write_timeout(Some(LONG)).unwrap();
    let is_cut = numbers.one_in(4);
    'all: for it in messages {
        let mut rest = &it.bytes[..];
        let own = |fd: &RawFd| if *fd == OWN_END { socket.as_raw_fd() } else { *fd };
        let sent: Vec<RawFd> = it.descriptors.iter().map(own).collect();
        let mut descriptors = &sent[..];
        while !rest.is_empty() {
            let len = if is_cut {
                1 + numbers.below(rest.len() as u64) as usize
            } else {
                rest.len()
            };
            if !send(&socket, &rest[..len], descriptors) {
                break 'all;
            }
            (rest, descriptors) = (&rest[len..], &[]);
        }
        if numbers.one_in(8) {
            things.notify(numbers);
        }
        if numbers.one_in(200) {
            let file = File::from(again(&things.other_ram));
            file.set_len(numbers.below(2) * SIZE).unwrap();
        }
    }
    if numbers.one_in(16) {
        // It goes at once. The next one is served if the program holds nothing that keeps the connection.
        return;
    }
    let _ = socket.shutdown(Shutdown::Write);
    socket.set_read_timeout(Some(LONG)).unwrap();
    let mut rest = [0; 4096];
    let begun = Instant::now();
    loop {
        assert!(begun.elapsed() < LONG, "the connection does not end");
        match socket.read(&mut rest) {
            Ok(0) => break,
            Ok(_) => (),
            Err(error) => {
                assert_eq!(error.kind(), ErrorKind::ConnectionReset, "the connection does not end");
                break;
            }
        }
    }
}

#[test]
fn no_front_end_ends_the_program() {
    survive_front_ends(Program::start("hostile", LEN, &[]));
}

#[test]
fn no_front_end_ends_the_program_with_iommu() {
    survive_front_ends(Program::start("hostile_iommu", LEN, IOMMU));
}

fn survive_front_ends(mut program: Program) {
    let things = Things::new(&program);
    let mut numbers = Numbers(0x9e37_79b9_7f4a_7c15);
    let (mut early, mut served, mut packed, mut sent) = (None, 0, 0, 0);
    let asked = std::env::var("HOSTILE_CONNECTIONS").map(|text| text.parse().unwrap());
    let connections: usize = asked.unwrap_or(CONNECTIONS);
    for round in 0..connections {
        let ram = if numbers.one_in(3) {
            &things.other_ram
        } else {
            &things.ram
        };
        let file = File::from(again(ram));
        file.set_len(SIZE).unwrap();
        let is_packed = numbers.one_in(3);
        let bytes = if is_packed {
            packed_ring(&mut numbers)
        } else {
            ring(&mut numbers)
        };
        std::os::unix::fs::FileExt::write_all_at(&file, &bytes, 0).unwrap();
        things.fill_region(is_packed, &mut numbers);
        let mut messages = usual(&things, ram.as_raw_fd(), is_packed, &mut numbers);
        change(&mut messages, &things, &mut numbers);
        sent += messages.len();
        speak(&program, &messages, &things, &mut numbers);
        // The index of the used ring, or the flags of the first slot.
        let mut word = [0; 2];
        let at = if is_packed { PARTS[0] + 14 } else { PARTS[2] + 2 };
        let read = std::os::unix::fs::FileExt::read_at(&file, &mut word, at).unwrap();
        let is_served = match (is_packed, u16::from_le_bytes(word)) {
            (true, flags) => flags & 0x8080 == 0x8080,
            (false, index) => index != 0,
        };
        if read == 2 && is_served {
            served += 1;
            packed += usize::from(is_packed);
        }
        if round + 1 == connections / 10 {
            early = Some((program.descriptors(), program.memory()));
        }
    }
    assert!(program.lives());
    let (descriptors, (resident, mapped)) = early.unwrap();
    assert_eq!(program.descriptors(), descriptors);
    let (now, now_mapped) = program.memory();
    assert!(now < resident + (4 << 20), "{resident} bytes of memory became {now}");
    assert!(
        now_mapped < mapped + (4 << 20),
        "{mapped} bytes of mappings became {now_mapped}"
    );
    // Enough of them came so far that requests were served.
    assert!(served > connections / 4, "{served} served requests");
    assert!(packed > connections / 20, "{packed} of packed rings");
    let mut front = program.connect();
    front.negotiate(USUAL);
    front.set_memory();
    front.start_ring(64, 0);
    front.write_disk(0, 1, &[3; 512]);
    assert_eq!(front.read_disk(0, 1, 512), [3; 512]);
    assert_eq!(program.image.metadata().unwrap().len(), LEN as u64);
    println!(
        "{sent} messages; {served} of {connections} connections had a request served, {packed} packed; {now} bytes of memory, {descriptors} descriptors"
    );
}
