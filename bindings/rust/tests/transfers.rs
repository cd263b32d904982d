//! Transfers with the sources and sinks of `std::io`, at maps that end inside of an access, beside the same lines of a
//! script. One machine is called through the facade, and another by lines.

mod lines;

use std::io::Cursor;
use vm_memory_proved::{BlockId, GuestAddress, GuestMemory, GuestMemoryError, Machine, MemoryId, SpaceId};

const PLAIN: usize = 0;
const BEHIND: usize = 1;
const OFF: usize = 2;

// Physical memory is 0x1000 to 0x4000 and 0x10_0000 to 0x12_0000. The memories are one without an IOMMU, one behind an
// IOMMU that is on, and one behind an IOMMU that is off.
const SETUP: [&str; 20] = [
    "block 0x3000 16",
    "block 0x20000 0x1000",
    "region 0 0x1000",
    "region 1 0x100000",
    "space 0x400000 16",
    "table",
    "translator 0",
    "layout 0 1",
    "plain 0",
    "memory 0 0 0 on",
    "memory 0 0 0 off",
    "set 0 0x5000 0x1000 0x1000 rw",
    "set 0 0x8000 0x2000 0x1000 rw",
    "set 0 0x9000 0x3000 0x1000 r",
    "set 0 0xa000 0x1000 0x1000 w",
    // Physical memory ends after the first 16 bytes.
    "set 0 0xc000 0x3ff0 0x20 rw",
    "set 0 0xc020 0x1000 0x10 w",
    // Longer than the pieces in which bytes go, and with no memory in the middle.
    "set 0 0x200000 0x100000 0x10000 rw",
    "set 0 0x210000 0x900000 0x10000 rw",
    "set 0 0x220000 0x110000 0x10000 w",
];

// What moves: a number of bytes, or none since the access is refused.
enum Moved {
    Count(usize),
    Refused(&'static str),
}

use Moved::{Count, Refused};

fn neither(range: &'static str) -> (Moved, Moved) {
    (Refused(range), Refused(range))
}

fn both(count: usize) -> (Moved, Moved) {
    (Count(count), Count(count))
}

// A memory, an address, a length, and what a transfer to a sink and one from a source move there.
fn rows() -> Vec<(usize, u64, usize, (Moved, Moved))> {
    vec![
        (BEHIND, 0x5000, 0x1000, both(0x1000)),
        (BEHIND, 0x5000, 0, both(0)),
        (BEHIND, 0x7000, 0, both(0)),
        // The map ends inside, has its end or its beginning there, or is not there.
        (BEHIND, 0x5ffc, 8, neither("G8 I1 0x5ffc+0x8 missing")),
        (BEHIND, 0x5000, 0x1001, neither("G8 I1 0x5000+0x1001 missing")),
        (BEHIND, 0x4ffc, 8, neither("G8 I1 0x4ffc+0x8 missing")),
        (BEHIND, 0x6000, 8, neither("G8 I1 0x6000+0x8 missing")),
        (BEHIND, u64::MAX - 3, 8, neither("G8 I1 0xfffffffffffffffc+0x8 missing")),
        // All is mapped, but not for each access.
        (BEHIND, 0x8ffc, 8, (Count(8), Refused("G8 I1 0x8ffc+0x8 access"))),
        (BEHIND, 0x9ffc, 8, neither("G8 I1 0x9ffc+0x8 access")),
        // What is not mapped decides, also after an address that is mapped for another access.
        (BEHIND, 0xaffc, 8, neither("G8 I1 0xaffc+0x8 missing")),
        (BEHIND, 0x9ffc, 0x2000, neither("G8 I1 0x9ffc+0x2000 missing")),
        // Physical memory ends inside.
        (BEHIND, 0xc000, 0x20, both(0x10)),
        (BEHIND, 0xc00c, 8, both(4)),
        (BEHIND, 0xc010, 8, neither("G1 0x4000")),
        // A later address is not mapped for this access.
        (BEHIND, 0xc000, 0x28, (Refused("G8 I1 0xc000+0x28 access"), Count(0x10))),
        (
            BEHIND,
            0xc010,
            0x18,
            (Refused("G8 I1 0xc010+0x18 access"), Refused("G1 0x4000")),
        ),
        (BEHIND, 0xc000, 0x31, neither("G8 I1 0xc000+0x31 missing")),
        // The same past the first piece.
        (BEHIND, 0x200000, 0x20000, both(0x10000)),
        (
            BEHIND,
            0x200000,
            0x20001,
            (Refused("G8 I1 0x200000+0x20001 access"), Count(0x10000)),
        ),
        (BEHIND, 0x200000, 0x30001, neither("G8 I1 0x200000+0x30001 missing")),
        (BEHIND, 0x210004, 4, neither("G1 0x900004")),
        // Without a translation the beginning moves.
        (PLAIN, 0x1000, 0x3000, both(0x3000)),
        (PLAIN, 0x3ffc, 8, both(4)),
        (PLAIN, 0x4000, 8, neither("G1 0x4000")),
        (PLAIN, 0x100000, 0x30000, both(0x20000)),
        (PLAIN, u64::MAX - 3, 8, neither("G1 0xfffffffffffffffc")),
        (OFF, 0x3ffc, 8, both(4)),
        (OFF, 0x5ffc, 8, neither("G1 0x5ffc")),
    ]
}

fn machine() -> Machine {
    let machine = Machine::new().unwrap();
    for line in SETUP {
        let reply = lines::reply(&machine, line);
        assert!(!reply.starts_with("error"), "{line}: {reply}");
    }
    machine
}

// What the lines `from`, `fromx`, `to` and `tox` reply.
fn wanted(moved: &Moved, count: usize, whole: bool) -> String {
    match moved {
        Refused(error) => format!("error {error}"),
        Count(moved) if !whole => format!("count {moved}"),
        Count(moved) if *moved == count => "ok".to_string(),
        Count(moved) => format!("error G3 {count} {moved}"),
    }
}

fn text(answer: Result<usize, GuestMemoryError>, whole: bool) -> String {
    match answer {
        Ok(_) if whole => "ok".to_string(),
        Ok(count) => format!("count {count}"),
        Err(error) => format!("error {}", lines::fault(&error)),
    }
}

// A transfer to a sink that takes everything, as its line replies.
fn sent(memory: &GuestMemory<'_>, addr: u64, count: usize, whole: bool) -> String {
    let (addr, mut sink) = (GuestAddress(addr), Vec::new());
    let answer = match whole {
        false => memory.write_volatile_to(addr, &mut sink, count),
        true => memory.write_all_volatile_to(addr, &mut sink, count).map(|()| count),
    };
    format!("sent {} taken {}", text(answer, whole), lines::hex(&sink))
}

// A transfer from a source of these bytes, as its line replies, and how many bytes were taken from it.
fn received(memory: &GuestMemory<'_>, addr: u64, count: usize, whole: bool, bytes: &[u8]) -> (String, usize) {
    let (addr, mut source) = (GuestAddress(addr), Cursor::new(bytes));
    let answer = match whole {
        false => memory.read_volatile_from(addr, &mut source, count),
        true => memory
            .read_exact_volatile_from(addr, &mut source, count)
            .map(|()| count),
    };
    (text(answer, whole), source.position() as usize)
}

// All bytes, and what is dirty.
fn state(machine: &Machine) -> (Vec<u8>, Vec<usize>, Vec<usize>, Vec<usize>) {
    let memory = machine.memory(MemoryId::new(PLAIN)).unwrap();
    let mut bytes = vec![0; 0x23000];
    memory.read_slice(&mut bytes[..0x3000], GuestAddress(0x1000)).unwrap();
    memory
        .read_slice(&mut bytes[0x3000..], GuestAddress(0x10_0000))
        .unwrap();
    let dirty = |block| machine.dirty_block(BlockId::new(block)).unwrap();
    (bytes, dirty(0), dirty(1), machine.dirty_space(SpaceId::new(0)).unwrap())
}

// The four transfers of each row are answered as it says, by the facade and by the line, and leave the same memory.
#[test]
fn transfers_ask_for_the_whole_access() {
    let (facade, script) = (machine(), machine());
    for (round, (number, addr, count, (sends, receives))) in rows().into_iter().enumerate() {
        let memory = facade.memory(MemoryId::new(number)).unwrap();
        for whole in [false, true] {
            let place = format!("memory {number}, {addr:#x}+{count:#x}, whole {whole}");
            let bytes: Vec<u8> = (0..count).map(|i| ((i + 31 * round) % 251 + 1) as u8).collect();
            let (told, taken) = received(&memory, addr, count, whole, &bytes);
            assert_eq!(told, wanted(&receives, count, whole), "from: {place}");
            let (word, given) = (if whole { "fromx" } else { "from" }, lines::hex(&bytes));
            let line = format!("{word} {number} {addr} {count} g:{given}");
            assert_eq!(lines::reply(&script, &line), told, "from: {place}");
            assert_eq!(
                taken,
                if let Count(moved) = receives { moved } else { 0 },
                "from: {place}"
            );
            assert_eq!(state(&facade), state(&script), "from: {place}");

            let told = sent(&memory, addr, count, whole);
            let start = format!("sent {} taken ", wanted(&sends, count, whole));
            assert!(told.starts_with(&start), "to: {place}: {told}, not {start}");
            let word = if whole { "tox" } else { "to" };
            let line = format!("{word} {number} {addr} {count} -");
            assert_eq!(lines::reply(&script, &line), told, "to: {place}");
            assert_eq!(state(&facade), state(&script), "to: {place}");
        }
    }
}

// A length that no buffer has: what is reached moves.
#[test]
fn lengths_past_any_buffer_end_with_memory() {
    let machine = machine();
    for number in [PLAIN, OFF] {
        let memory = machine.memory(MemoryId::new(number)).unwrap();
        let mut sink = Vec::new();
        let sent = memory.write_volatile_to(GuestAddress(0x3000), &mut sink, usize::MAX);
        assert_eq!((sent.unwrap(), sink.len()), (0x1000, 0x1000));
    }
    let behind = machine.memory(MemoryId::new(BEHIND)).unwrap();
    let told = sent(&behind, 0x5000, usize::MAX, false);
    assert_eq!(told, "sent error G8 I1 0x5000+0xffffffffffffffff missing taken -");
}

// A generator of numbers: xorshift, from a fixed seed.
struct Numbers(u64);

impl Numbers {
    fn below(&mut self, bound: u64) -> u64 {
        self.0 ^= self.0 << 13;
        self.0 ^= self.0 >> 7;
        self.0 ^= self.0 << 17;
        (self.0.wrapping_mul(0x2545_f491_4f6c_dd1d) >> 11) % bound
    }
}

// Random maps of 0x100 I/O addresses to physical memory and what lies beside it, and random ranges of them.
#[test]
fn random_transfers_are_answered_as_by_the_script() {
    let (facade, script) = (machine(), machine());
    let mut numbers = Numbers(0x9e37_79b9_7f4a_7c15);
    let (mut partial, mut missed, mut barred) = (0, 0, 0);
    for _ in 0..4_000 {
        if numbers.below(4) == 0 {
            let (addr, target) = (numbers.below(0x100), 0x3fc0 + numbers.below(0x60));
            let (size, access) = (
                1 + numbers.below(0x60),
                ["no", "r", "w", "rw", "rw"][numbers.below(5) as usize],
            );
            let line = format!("set 0 {addr} {target} {size} {access}");
            assert_eq!(lines::reply(&facade, &line), lines::reply(&script, &line));
        }
        let (addr, count) = (numbers.below(0x100), numbers.below(0x80) as usize);
        let (whole, memory) = (numbers.below(2) == 0, facade.memory(MemoryId::new(BEHIND)).unwrap());
        let bytes: Vec<u8> = (0..count).map(|_| numbers.below(256) as u8).collect();
        let (word, given) = (if whole { "fromx" } else { "from" }, lines::hex(&bytes));
        let came = received(&memory, addr, count, whole, &bytes).0;
        let line = format!("{word} {BEHIND} {addr} {count} g:{given}");
        assert_eq!(lines::reply(&script, &line), came, "{line}");
        let line = format!("{} {BEHIND} {addr} {count} -", if whole { "tox" } else { "to" });
        let told = sent(&memory, addr, count, whole);
        assert_eq!(lines::reply(&script, &line), told, "{line}");
        partial += usize::from(told.contains("G3"));
        missed += usize::from(told.contains("missing"));
        barred += usize::from(told.contains("access"));
    }
    assert_eq!(state(&facade), state(&script));
    // Each kind of answer comes.
    assert!(
        partial > 20 && missed > 20 && barred > 20,
        "{partial} {missed} {barred}"
    );
}
