//! Calls of plain numbers, by rows of text: what each kind of call is answered.

mod rows;

use rows::{number, try_rows};
use std::collections::HashMap;
use vm_memory_proved::raw::Call;
use vm_memory_proved::Machine;

// The numbers of a module of raw.rs, by their names.
fn numbers_of(module: &str) -> HashMap<&'static str, u64> {
    let (_, rest) = include_str!("../src/raw.rs")
        .split_once(&format!("pub mod {module} {{"))
        .unwrap();
    let lines = rest.lines().take_while(|line| *line != "}");
    let words = lines.filter_map(|line| line.trim().strip_prefix("pub const "));
    words
        .map(|line| {
            let (name, rest) = line.split_once(": u32 = ").unwrap();
            (name, number(rest.strip_suffix(';').unwrap()))
        })
        .collect()
}

// A call with its input, and its output as it is before.
#[derive(Default)]
struct Asked {
    call: Call,
    input: Vec<u8>,
    output: Vec<u8>,
}

impl Asked {
    fn set(&mut self, field: &str, word: &str) {
        let call = &mut self.call;
        match field {
            "width" => call.width = number(word) as u32,
            "access" => call.access = number(word) as u32,
            "first" => call.first = number(word) as usize,
            "second" => call.second = number(word) as usize,
            "third" => call.third = number(word) as usize,
            "address" => call.address = number(word),
            "target" => call.target = number(word),
            "length" => call.length = number(word) as usize,
            "other_length" => call.other_length = number(word) as usize,
            "value" => call.value = number(word),
            "bytes" => self.input = word.split(',').map(|word| number(word) as u8).collect(),
            "list" => self.input = word.split(',').flat_map(|word| number(word).to_le_bytes()).collect(),
            "output" => self.output = vec![0xee; number(word) as usize],
            other => panic!("{other} is no field"),
        }
    }
}

#[test]
fn calls_are_answered_by_numbers() {
    let (kinds, codes) = (numbers_of("kind"), numbers_of("code"));
    let machine = Machine::new().unwrap();
    try_rows("session.txt", |done| {
        let mut words = done.split(' ');
        let kind = words.next().unwrap();
        let mut asked = Asked::default();
        asked.call.kind = kinds.get(kind).copied().unwrap_or_else(|| number(kind)) as u32;
        for word in words {
            let (field, word) = word.split_once('=').unwrap();
            asked.set(field, word);
        }
        let answer = machine.call(&asked.call, &asked.input, &mut asked.output);
        let code = codes.iter().find(|(_, code)| **code == u64::from(answer.code));
        let code = code.map_or("no code", |(name, _)| name);
        let mut told = format!("{code} {} {} {}", answer.count, answer.value, answer.address);
        for byte in asked.output {
            told += &format!(" {byte:02x}");
        }
        vec![told]
    });
}
