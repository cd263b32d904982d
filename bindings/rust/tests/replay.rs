//! The scripts of the replay, by the calls of the facade.

mod lines;

use std::fs;
use std::path::Path;
use vm_memory_proved::Machine;

#[test]
fn scripts_are_answered_as_by_the_rust_crate() {
    let data = Path::new(env!("CARGO_MANIFEST_DIR")).join("../../crates/vmmem_replay/data");
    let scripts = fs::read_to_string(data.join("scripts.txt")).unwrap();
    let replies = fs::read_to_string(data.join("replies.txt")).unwrap();
    assert_eq!(scripts.lines().count(), replies.lines().count());
    let mut machine = Machine::new().unwrap();
    let (mut compared, mut differing) = (0, Vec::new());
    for (place, (line, wanted)) in scripts.lines().zip(replies.lines()).enumerate() {
        if line.starts_with('#') {
            machine = Machine::new().unwrap();
            continue;
        }
        let told = lines::reply(&machine, line);
        compared += 1;
        if told != wanted {
            differing.push(format!("{}: {line}\n  {told}\n  {wanted}", place + 1));
        }
    }
    println!("{compared} lines, {} differ", differing.len());
    assert!(
        differing.is_empty(),
        "{}",
        differing[..differing.len().min(20)].join("\n")
    );
    assert_eq!(compared, 29_061);
}
