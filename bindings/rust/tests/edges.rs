//! Calls of a machine at edges, and calls that name nothing, beside the same lines of a script: each is answered as the
//! command of its line.

mod lines;
mod vmmem;

use vm_memory_proved::Machine;
use vmmem::{program, replies};

// One block of 5,000 bytes, each of which is a page. It lies at 0 and at 0x10000.
const SETUP: [&str; 6] = [
    "block 5000 1",
    "space 0x8000 1",
    "table",
    "region 0 0",
    "region 0 0x10000",
    "translator 0",
];

const ROUNDS: usize = 40;

// The calls of a round. Memory 0 is plain, and memory 1 behind the IOMMU. In the first round a write reaches all pages,
// and for what the second read asks no memory is left.
fn round(number: usize) -> Vec<String> {
    let byte = format!("{number:02x}");
    let write = byte.repeat(if number == 0 { 5000 } else { 4 });
    let lines = format!(
        "layout 0
insert 0 1
remove 1 0x10000 5000
plain 1
memory 0 0 0 on
replace 1 1
set 0 0x5000 0 0x1000 rw
invalidate 0 0x5000 8
lookup 0 0x5000 0x20 r
write 0 0 {write}
writex 1 0x5ffe {byte}0203
from 0 0x10 6 g:04{byte}06
fromx 0 0x10 6 g:0708{byte}
to 0 0x10 8 t:5
tox 0 0x10 8 t:3,f
read 0 0x10 0x20
read 0 0x10 0xffffffffffffffff
readx 1 0x5ff0 0x10
store 1 4 0x5010 0x01020304
load 0 4 0x10
check 1 0x5008 8 w
enable 1 off
copy 0 0 9 0 0x100 8
dirty block 0
harvest block 0
dirty block 0
harvest space 0
enable 1 on
clear 0
plain 1000000"
    );
    lines.lines().map(str::to_string).collect()
}

// Where accesses are refused or done in part, and of how many bytes. The regions have the addresses below 0x1388 and
// from 0x10000 on; memory 0 is plain, and memory 1 behind the IOMMU, whose table maps 0x5000 to 0.
const EDGES: [(u64, usize); 8] = [
    (0x1380, 0x10),
    (0x1388, 4),
    (0x5380, 0x100),
    (0x5ff0, 0x20),
    (0xfff8, 0x10),
    (0x1_0000, 0x10),
    (u64::MAX, 3),
    (0x10, 0),
];

fn edges_of(memory: u64) -> Vec<String> {
    let mut lines = Vec::new();
    for (addr, count) in EDGES {
        lines.push(format!("write {memory} {addr} 010203040506070809"));
        lines.push(format!("writex {memory} {addr} 090807060504030201"));
        lines.push(format!("read {memory} {addr} {count}"));
        lines.push(format!("readx {memory} {addr} {count}"));
        for width in [1, 2, 4, 8] {
            lines.push(format!("store {memory} {width} {addr} 0x81"));
            lines.push(format!("load {memory} {width} {addr}"));
        }
        lines.push(format!("check {memory} {addr} {count} r"));
    }
    lines
}

// Where transfers are, whose sources and sinks fail, end or are interrupted.
const FAILING: [u64; 4] = [0x10, 0x1384, 0x53fc, 0x2000];

fn failing_of(memory: u64) -> Vec<String> {
    let lines = FAILING.map(|addr| {
        [
            format!("fromx {memory} {addr} 6 g:030104,f:-"),
            format!("from {memory} {addr} 6 i:-,g:0105"),
            format!("to {memory} {addr} 6 t:2,i,t:1"),
            format!("tox {memory} {addr} 8 t:3,f"),
        ]
    });
    lines.concat()
}

// Calls that name nothing, or a memory that is plain, and ranges that pass their end.
const ABSENT: [&str; 13] = [
    "insert 0 9",
    "remove 0 0 1",
    "replace 0 0",
    "enable 0 on",
    "memory 0 9 0 on",
    "copy 0 5000 0 0 5000 1",
    "copy 0 5000 0 9 0 0",
    "dirty block 9",
    "harvest space 9",
    "invalidate 0 0xffffffffffffffff 1",
    "clear 9",
    "lookup 9 0x5000 1 r",
    "lookup 0 0x5000 0x500 rw",
];

// What is left at the end.
const LAST: [&str; 4] = [
    "read 0 0 5000",
    "harvest block 0",
    "harvest space 0",
    "lookup 0 0 0x6000 r",
];

fn all_lines() -> Vec<String> {
    let owned = |lines: &[&str]| -> Vec<String> { lines.iter().map(|line| line.to_string()).collect() };
    let mut all = owned(&SETUP);
    all.extend((0..ROUNDS).flat_map(round));
    for perm in ["r", "rw"] {
        all.push(format!("set 0 0x5000 0 0x400 {perm}"));
        all.push(format!("set 0 0xffffffffffffffff 0 1 {perm}"));
        for memory in [0, 1, u64::MAX] {
            all.extend(edges_of(memory));
            all.extend(failing_of(memory));
        }
        all.extend(owned(&ABSENT));
    }
    all.extend(owned(&LAST));
    all
}

#[test]
#[cfg_attr(
    not(has_vmmem),
    ignore = "there is no `vmmem`: VMMEM names one, or `rt run < stdin` in crates/vmmem builds it"
)]
fn calls_of_a_machine_answer_as_their_commands() {
    let lines = all_lines();
    let wanted = replies(&program(), lines.join("\n"));
    let machine = Machine::new().unwrap();
    assert_eq!(wanted.lines().count(), lines.len());
    for (line, wanted) in lines.iter().zip(wanted.lines()) {
        assert_eq!(lines::reply(&machine, line), wanted, "{line}");
    }
    assert!(lines.len() > 1700);
}
