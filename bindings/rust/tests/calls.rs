//! Calls of plain numbers from a fixed generator, and the script's replies to the same lines.
//!
//! Without the program `vmmem` the test is ignored. `CALLS` may ask for fewer calls than 1,000,000.

mod vmmem;

use std::env;
use std::fmt::Write as _;
use vm_memory_proved::raw::{code, kind, Answer, Call};
use vm_memory_proved::Machine;
use vmmem::{program, replies};

const CALLS_OF_SESSION: usize = 5_000;

// A generator of numbers: xorshift, from a fixed seed.
struct Numbers(u64);

impl Numbers {
    fn next(&mut self) -> u64 {
        self.0 ^= self.0 << 13;
        self.0 ^= self.0 >> 7;
        self.0 ^= self.0 << 17;
        self.0.wrapping_mul(0x2545_f491_4f6c_dd1d)
    }

    fn below(&mut self, bound: u64) -> u64 {
        (self.next() >> 11) % bound
    }

    fn one_in(&mut self, n: u64) -> bool {
        self.below(n) == 0
    }

    // Any number: one of 64 bits, or one at an edge.
    fn any(&mut self) -> u64 {
        const EDGES: [u64; 6] = [u64::MAX, u64::MAX - 1, 1 << 63, (1 << 63) - 1, 1 << 62, 0];
        if self.one_in(3) {
            EDGES[self.below(6) as usize]
        } else {
            self.next() | 1 << 60
        }
    }

    // A number among those that are, or just past them; one in ten is any.
    fn among(&mut self, count: u64) -> u64 {
        if self.one_in(10) {
            self.any()
        } else {
            self.below(count + 1)
        }
    }
}

fn hex(bytes: &[u8]) -> String {
    if bytes.is_empty() {
        return "-".to_string();
    }
    bytes.iter().fold(String::new(), |mut text, byte| {
        write!(text, "{byte:02x}").unwrap();
        text
    })
}

// What a session has.
#[derive(Default)]
struct Has {
    blocks: u64,
    spaces: u64,
    tables: u64,
    regions: u64,
    translators: u64,
    layouts: u64,
    memories: u64,
    commanded: bool,
}

const SETUPS: [u32; 6] = [
    kind::BLOCK,
    kind::SPACE,
    kind::TABLE,
    kind::LIMITED_TABLE,
    kind::REGION,
    kind::TRANSLATOR,
];

const COMMANDS: u32 = kind::HARVEST_SPACE - kind::LAYOUT + 1;

fn kind_of(numbers: &mut Numbers, place: usize) -> u32 {
    if place < 30 || numbers.one_in(200) {
        return SETUPS[numbers.below(6) as usize];
    }
    kind::LAYOUT + numbers.below(u64::from(COMMANDS)) as u32
}

fn call_of(numbers: &mut Numbers, has: &Has, kind: u32) -> Call {
    let small = |numbers: &mut Numbers, bound| {
        if numbers.one_in(10) {
            numbers.any()
        } else {
            numbers.below(bound)
        }
    };
    let first_of = match kind {
        kind::REGION | kind::COPY | kind::DIRTY_BLOCK | kind::HARVEST_BLOCK => has.blocks,
        kind::DIRTY_SPACE | kind::HARVEST_SPACE => has.spaces,
        kind::TRANSLATOR | kind::SET | kind::INVALIDATE | kind::INVALIDATE_ALL | kind::LOOKUP => has.tables,
        kind::INSERT | kind::REMOVE | kind::PLAIN | kind::MEMORY => has.layouts,
        _ => has.memories,
    };
    let second_of = match kind {
        kind::INSERT => has.regions,
        kind::MEMORY => has.translators,
        kind::REPLACE => has.layouts,
        _ => has.blocks,
    };
    Call {
        kind,
        width: if numbers.one_in(10) {
            numbers.any() as u32
        } else {
            1 << numbers.below(4)
        },
        access: if numbers.one_in(10) {
            numbers.any() as u32
        } else {
            numbers.below(4) as u32
        },
        first: numbers.among(first_of) as usize,
        second: numbers.among(second_of) as usize,
        third: numbers.among(has.spaces) as usize,
        address: small(numbers, 0x100),
        target: small(numbers, 0x100),
        length: small(numbers, 0x40) as usize,
        other_length: small(numbers, 0x20) as usize,
        value: if numbers.one_in(10) {
            numbers.any()
        } else {
            numbers.below(2)
        },
    }
}

fn words(numbers: &[u64]) -> Vec<u8> {
    numbers.iter().flat_map(|number| number.to_le_bytes()).collect()
}

// An input, and its word in a script. None where it is no input of a script.
fn input_of(numbers: &mut Numbers, has: &Has, kind: u32) -> (Vec<u8>, Option<String>) {
    let takes_list = matches!(
        kind,
        kind::LAYOUT | kind::READ_FROM | kind::READ_EXACT_FROM | kind::WRITE_TO | kind::WRITE_ALL_TO
    );
    if takes_list && numbers.one_in(40) {
        // Not whole, or, of steps, with no step at its end.
        let input = if kind == kind::LAYOUT || numbers.one_in(2) {
            vec![1; 3]
        } else {
            words(&[999])
        };
        return (input, None);
    }
    match kind {
        kind::WRITE | kind::WRITE_SLICE => {
            let bytes: Vec<u8> = (0..numbers.below(0x40)).map(|_| numbers.next() as u8).collect();
            let word = hex(&bytes);
            (bytes, Some(word))
        }
        kind::LAYOUT => {
            let mut regions: Vec<u64> = (0..numbers.below(4)).map(|_| numbers.among(has.regions)).collect();
            if !numbers.one_in(4) {
                regions.sort_unstable();
            }
            let text = regions.iter().fold(String::new(), |mut text, region| {
                write!(text, " {region}").unwrap();
                text
            });
            (words(&regions), Some(text))
        }
        kind::READ_FROM | kind::READ_EXACT_FROM => {
            let (mut list, mut text) = (Vec::new(), Vec::new());
            for _ in 0..numbers.below(4) {
                let bytes: Vec<u8> = (0..numbers.below(0x20)).map(|_| numbers.next() as u8).collect();
                let (letter, closes) = [("g", 256), ("i", 257), ("f", 258)][numbers.below(3) as usize];
                list.extend(bytes.iter().map(|byte| u64::from(*byte)));
                list.push(closes);
                text.push(format!("{letter}:{}", hex(&bytes)));
            }
            let text = if text.is_empty() {
                "-".to_string()
            } else {
                text.join(",")
            };
            (words(&list), Some(text))
        }
        kind::WRITE_TO | kind::WRITE_ALL_TO => {
            let (mut list, mut text) = (Vec::new(), Vec::new());
            for _ in 0..numbers.below(4) {
                match numbers.below(4) {
                    0 => (list.push(1), text.push("i".to_string())),
                    1 => (list.push(2), text.push("f".to_string())),
                    _ => {
                        let most = numbers.among(0x20);
                        (list.extend([0, most]), text.push(format!("t:{most}")))
                    }
                };
            }
            let text = if text.is_empty() {
                "-".to_string()
            } else {
                text.join(",")
            };
            (words(&list), Some(text))
        }
        // Not read.
        _ => (vec![7; numbers.below(3) as usize], Some(String::new())),
    }
}

// The line that a script has for a call, if it has one.
fn line_of(call: &Call, input: &str) -> Option<String> {
    let Call {
        first,
        second,
        third,
        address,
        target,
        length,
        other_length,
        value,
        ..
    } = *call;
    let access = || ["no", "r", "w", "rw"].get(call.access as usize).copied();
    let switch = || ["off", "on"].get(usize::try_from(value).ok()?).copied();
    let width = || matches!(call.width, 1 | 2 | 4 | 8).then_some(call.width);
    Some(match call.kind {
        kind::BLOCK if other_length > 0 => format!("block {length} {other_length}"),
        kind::SPACE if other_length > 0 => format!("space {length} {other_length}"),
        kind::TABLE => "table".to_string(),
        kind::LIMITED_TABLE if length > 0 => format!("table {length}"),
        kind::REGION => format!("region {first} {address}"),
        kind::TRANSLATOR => format!("translator {first}"),
        kind::LAYOUT => format!("layout{input}"),
        kind::INSERT => format!("insert {first} {second}"),
        kind::REMOVE => format!("remove {first} {address} {length}"),
        kind::PLAIN => format!("plain {first}"),
        kind::MEMORY => format!("memory {first} {second} {third} {}", switch()?),
        kind::REPLACE => format!("replace {first} {second}"),
        kind::ENABLE => format!("enable {first} {}", switch()?),
        kind::READ => format!("read {first} {address} {length}"),
        kind::WRITE => format!("write {first} {address} {input}"),
        kind::READ_SLICE => format!("readx {first} {address} {length}"),
        kind::WRITE_SLICE => format!("writex {first} {address} {input}"),
        kind::STORE => format!("store {first} {} {address} {value}", width()?),
        kind::LOAD => format!("load {first} {} {address}", width()?),
        kind::READ_FROM => format!("from {first} {address} {length} {input}"),
        kind::READ_EXACT_FROM => format!("fromx {first} {address} {length} {input}"),
        kind::WRITE_TO => format!("to {first} {address} {length} {input}"),
        kind::WRITE_ALL_TO => format!("tox {first} {address} {length} {input}"),
        kind::CHECK_RANGE => format!("check {first} {address} {length} {}", access()?),
        kind::COPY => format!("copy {first} {address} {length} {second} {target} {other_length}"),
        kind::SET => format!("set {first} {address} {target} {length} {}", access()?),
        kind::INVALIDATE => format!("invalidate {first} {address} {length}"),
        kind::INVALIDATE_ALL => format!("clear {first}"),
        kind::LOOKUP => format!("lookup {first} {address} {length} {}", access()?),
        kind::DIRTY_BLOCK => format!("dirty block {first}"),
        kind::DIRTY_SPACE => format!("dirty space {first}"),
        kind::HARVEST_BLOCK => format!("harvest block {first}"),
        kind::HARVEST_SPACE => format!("harvest space {first}"),
        _ => return None,
    })
}

fn fault_text(answer: &Answer) -> String {
    let range = format!("0x{:x}+0x{:x}", answer.address, answer.value);
    let text = match answer.code {
        code::NO_SUCH => "NoSuch".to_string(),
        code::BAD_RANGE => "BadRange".to_string(),
        code::MEMORY => "Memory".to_string(),
        code::INVALID_SIZE => "M1".to_string(),
        code::INVALID_REGION => "F3".to_string(),
        code::INVALID_GUEST_ADDRESS => format!("G1 0x{:x}", answer.address),
        code::IO_INTERRUPTED => "G2 Interrupted".to_string(),
        code::IO_WRITE_ZERO => "G2 WriteZero".to_string(),
        code::IO_UNEXPECTED_EOF => "G2 UnexpectedEof".to_string(),
        code::IO_OTHER => "G2 Other".to_string(),
        code::PARTIAL_BUFFER => format!("G3 {} {}", answer.value, answer.count),
        code::INVALID_BACKEND_ADDRESS => "G4".to_string(),
        code::HOST_ADDRESS_NOT_AVAILABLE => "G5".to_string(),
        code::IOMMU_MISSING => format!("G8 I1 {range} missing"),
        code::IOMMU_NOT_ALLOWED => format!("G8 I1 {range} access"),
        code::NO_MEMORY_REGION => "C1".to_string(),
        code::MEMORY_REGION_OVERLAP => "C2".to_string(),
        code::UNSORTED_MEMORY_REGIONS => "C3".to_string(),
        other => format!("code {other}"),
    };
    format!("error {text}")
}

fn word_at(output: &[u8], place: usize) -> u64 {
    u64::from_le_bytes(output[8 * place..8 * place + 8].try_into().unwrap())
}

fn ranges_text(output: &[u8], from: usize, count: usize) -> String {
    let ranges: Vec<String> = (from..from + count)
        .map(|i| format!("0x{:x}+0x{:x}", word_at(output, 2 * i), word_at(output, 2 * i + 1)))
        .collect();
    if ranges.is_empty() {
        "-".to_string()
    } else {
        ranges.join(" ")
    }
}

// The script's reply for an answer, with what the call left of the output.
fn text_of(kind: u32, answer: &Answer, output: &[u8]) -> String {
    let sends = matches!(kind, kind::WRITE_TO | kind::WRITE_ALL_TO);
    if sends && (answer.code == code::DONE || answer.code >= code::INVALID_GUEST_ADDRESS) {
        let ending = match (answer.code, kind) {
            (code::DONE, kind::WRITE_TO) => format!("count {}", answer.count),
            (code::DONE, _) => "ok".to_string(),
            _ => fault_text(answer),
        };
        return format!("sent {ending} taken {}", hex(&output[..answer.count]));
    }
    if answer.code == code::FAILS {
        let (misses, fails) = (answer.count, answer.value as usize);
        return format!(
            "fails misses {} access {}",
            ranges_text(output, 0, misses),
            ranges_text(output, misses, fails)
        );
    }
    if answer.code != code::DONE {
        return fault_text(answer);
    }
    match kind {
        kind::BLOCK => format!("block {}", answer.value),
        kind::SPACE => format!("space {}", answer.value),
        kind::TABLE | kind::LIMITED_TABLE => format!("table {}", answer.value),
        kind::REGION => format!("region {}", answer.value),
        kind::TRANSLATOR => format!("translator {}", answer.value),
        kind::LAYOUT | kind::INSERT | kind::REMOVE => format!("layout {}", answer.value),
        kind::PLAIN | kind::MEMORY | kind::REPLACE => format!("memory {}", answer.value),
        kind::READ | kind::READ_SLICE => format!("bytes {}", hex(&output[..answer.count])),
        kind::WRITE | kind::READ_FROM => format!("count {}", answer.count),
        kind::LOAD => format!("value {}", answer.value),
        kind::CHECK_RANGE => format!("{}", answer.value == 1),
        kind::LOOKUP => format!("pieces {}", ranges_text(output, 0, answer.count)),
        kind::DIRTY_BLOCK | kind::DIRTY_SPACE | kind::HARVEST_BLOCK | kind::HARVEST_SPACE => {
            let pages: Vec<String> = (0..answer.count).map(|i| word_at(output, i).to_string()).collect();
            format!(
                "pages {}",
                if pages.is_empty() {
                    "-".to_string()
                } else {
                    pages.join(" ")
                }
            )
        }
        _ => "ok".to_string(),
    }
}

fn count_made(has: &mut Has, kind: u32, answer: &Answer) {
    if answer.code != code::DONE {
        return;
    }
    let count = match kind {
        kind::BLOCK => &mut has.blocks,
        kind::SPACE => &mut has.spaces,
        kind::TABLE | kind::LIMITED_TABLE => &mut has.tables,
        kind::REGION => &mut has.regions,
        kind::TRANSLATOR => &mut has.translators,
        kind::LAYOUT | kind::INSERT | kind::REMOVE => &mut has.layouts,
        kind::PLAIN | kind::MEMORY | kind::REPLACE => &mut has.memories,
        _ => return,
    };
    *count += 1;
}

// How many bytes a reply lists in an output.
fn listed(reply: &str) -> usize {
    let items = reply.split(' ').filter(|word| *word != "-");
    match reply.split(' ').next() {
        Some("pages") => 8 * (items.count() - 1),
        Some("pieces") => 16 * (items.count() - 1),
        Some("fails") => 16 * (items.count() - 3),
        _ => 0,
    }
}

// What an answer has to be.
enum Wanted {
    // That of the next reply of the script.
    Line,
    // A refusal that no script says.
    Code(Answer),
    // Too short an output for the list of the next reply.
    Short,
}

struct Told {
    call: Call,
    wanted: Wanted,
    answer: Answer,
    text: String,
    stays: bool,
}

// Makes the calls of one session, and gives the lines of its script.
fn session(numbers: &mut Numbers, count: usize) -> (String, Vec<Told>) {
    let machine = Machine::new().unwrap();
    let (mut script, mut told, mut has) = (String::new(), Vec::new(), Has::default());
    let mut output = vec![0u8; 0x2000];
    for place in 0..count {
        let kind = if numbers.one_in(500) {
            numbers.any() as u32 | 64
        } else {
            kind_of(numbers, place)
        };
        // A script sets up before its first command only: tests/later.rs makes these calls.
        let kind = if has.commanded && SETUPS.contains(&kind) {
            kind::LOAD
        } else {
            kind
        };
        let call = call_of(numbers, &has, kind);
        let (input, word) = input_of(numbers, &has, kind);
        let lists = matches!(kind, kind::LOOKUP..=kind::HARVEST_SPACE);
        // The line that says how long a list is would end the script's setup.
        let size = if lists && has.commanded && numbers.one_in(4) {
            numbers.below(0x20) as usize
        } else {
            output.len()
        };
        output.fill(0xa5);
        let answer = machine.call(&call, &input, &mut output[..size]);
        let refused = |code, count| {
            Wanted::Code(Answer {
                code,
                count,
                ..Answer::default()
            })
        };
        let sets_up = SETUPS.contains(&kind);
        let takes = matches!(
            kind,
            kind::READ | kind::READ_SLICE | kind::WRITE_TO | kind::WRITE_ALL_TO
        );
        let line = word.as_ref().and_then(|word| line_of(&call, word));
        let wanted = match line {
            None => refused(code::BAD_CALL, 0),
            Some(_) if takes && call.length > size => refused(code::SHORT, call.length),
            Some(line) if answer.code == code::SHORT => {
                // The pages or the ranges that it would list, which a question does not change.
                writeln!(script, "{}", line.replace("harvest", "dirty")).unwrap();
                Wanted::Short
            }
            Some(line) => {
                writeln!(script, "{line}").unwrap();
                Wanted::Line
            }
        };
        has.commanded |= !sets_up && !matches!(answer.code, code::BAD_CALL | code::SHORT);
        count_made(&mut has, kind, &answer);
        let text = if matches!(wanted, Wanted::Line) {
            text_of(kind, &answer, &output)
        } else {
            String::new()
        };
        let stays = output.iter().all(|byte| *byte == 0xa5);
        told.push(Told {
            call,
            wanted,
            answer,
            text,
            stays,
        });
    }
    (script, told)
}

#[test]
#[cfg_attr(
    not(has_vmmem),
    ignore = "there is no `vmmem`: VMMEM names one, or `rt run < stdin` in crates/vmmem builds it"
)]
fn generated_calls_are_answered_as_by_the_script() {
    let program = program();
    let calls: usize = env::var("CALLS").map_or(1_000_000, |calls| calls.parse().unwrap());
    let mut numbers = Numbers(0x9e37_79b9_7f4a_7c15);
    let (mut made, mut by_line, mut by_code, mut short) = (0, 0, 0, 0);
    while made < calls {
        let count = CALLS_OF_SESSION.min(calls - made);
        let (script, told) = session(&mut numbers, count);
        let replies = replies(&program, script);
        let mut replies = replies.lines();
        for told in told {
            let Told {
                call,
                wanted,
                answer,
                text,
                stays,
            } = told;
            match wanted {
                Wanted::Line => {
                    by_line += 1;
                    assert_eq!(replies.next(), Some(text.as_str()), "{call:?} {answer:?}");
                }
                Wanted::Code(code) => {
                    by_code += 1;
                    assert_eq!(answer, code, "{call:?}");
                    assert!(stays, "{call:?}");
                }
                Wanted::Short => {
                    short += 1;
                    let needed = listed(replies.next().unwrap());
                    let wanted = Answer {
                        code: code::SHORT,
                        count: needed,
                        ..Answer::default()
                    };
                    assert_eq!(answer, wanted, "{call:?}");
                    assert!(stays, "{call:?}");
                }
            }
        }
        assert_eq!(replies.next(), None);
        made += count;
    }
    println!("{made} calls: {by_line} by their lines, {by_code} by codes, {short} by too short a list");
    assert_eq!(by_line + by_code + short, calls);
}
