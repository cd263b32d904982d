//! Lines of scripts by the calls of the facade, and the texts of replies: docs/SCRIPT.md has both.

use std::fmt::Write as _;
use std::sync::atomic::Ordering::SeqCst;
use vm_memory_proved::script::{SinkStep, SourceStep};
use vm_memory_proved::{
    BlockId, GuestAddress, GuestMemory, GuestMemoryError, GuestRegionCollectionError, IommuError, IotlbFails,
    IovaRange, LayoutId, Machine, MachineError, MemoryId, Permissions, Reason, RegionId, SpaceId, TableId,
    TranslatorId,
};

fn number(word: &str) -> u64 {
    match word.strip_prefix("0x") {
        Some(digits) => u64::from_str_radix(digits, 16).unwrap(),
        None => word.parse().unwrap(),
    }
}

fn size(word: &str) -> usize {
    number(word) as usize
}

fn bytes(word: &str) -> Vec<u8> {
    if word == "-" {
        return Vec::new();
    }
    (0..word.len() / 2)
        .map(|i| u8::from_str_radix(&word[2 * i..2 * i + 2], 16).unwrap())
        .collect()
}

fn access(word: &str) -> Permissions {
    match word {
        "no" => Permissions::No,
        "r" => Permissions::Read,
        "w" => Permissions::Write,
        "rw" => Permissions::ReadWrite,
        _ => panic!("{word} is no access"),
    }
}

fn switch(word: &str) -> bool {
    match word {
        "on" => true,
        "off" => false,
        _ => panic!("{word} is no switch"),
    }
}

fn source(word: &str) -> Vec<SourceStep> {
    if word == "-" {
        return Vec::new();
    }
    let step = |step: &str| match step.split_once(':') {
        Some(("g", given)) => SourceStep::Give(bytes(given)),
        Some(("i", left)) => SourceStep::Interrupted(bytes(left)),
        Some(("f", left)) => SourceStep::Fail(bytes(left)),
        _ => panic!("{step} is no step"),
    };
    word.split(',').map(step).collect()
}

fn sink(word: &str) -> Vec<SinkStep> {
    if word == "-" {
        return Vec::new();
    }
    let step = |step: &str| match step.split_once(':') {
        Some(("t", most)) => SinkStep::Take(size(most)),
        None if step == "i" => SinkStep::Interrupted,
        None if step == "f" => SinkStep::Fail,
        _ => panic!("{step} is no step"),
    };
    word.split(',').map(step).collect()
}

/// The word for bytes.
pub fn hex(bytes: &[u8]) -> String {
    if bytes.is_empty() {
        return "-".to_string();
    }
    bytes.iter().fold(String::new(), |mut text, byte| {
        write!(text, "{byte:02x}").unwrap();
        text
    })
}

fn spaced(items: impl Iterator<Item = String>) -> String {
    let text = items.collect::<Vec<_>>().join(" ");
    if text.is_empty() {
        "-".to_string()
    } else {
        text
    }
}

fn range_text(base: GuestAddress, length: usize) -> String {
    format!("0x{:x}+0x{length:x}", base.0)
}

fn ranges(ranges: &[IovaRange]) -> String {
    spaced(ranges.iter().map(|range| range_text(range.base, range.length)))
}

fn reason(reason: Reason) -> &'static str {
    match reason {
        Reason::MissingMapping => "missing",
        Reason::AccessNotAllowed => "access",
        Reason::NotConfigured => "configuration",
    }
}

/// The code of an error of an access.
pub fn fault(error: &GuestMemoryError) -> String {
    match error {
        GuestMemoryError::InvalidGuestAddress(addr) => format!("G1 0x{:x}", addr.0),
        GuestMemoryError::IOError(error) => {
            let kind = match error.kind() {
                std::io::ErrorKind::Interrupted => "Interrupted",
                std::io::ErrorKind::WriteZero => "WriteZero",
                std::io::ErrorKind::UnexpectedEof => "UnexpectedEof",
                _ => "Other",
            };
            format!("G2 {kind}")
        }
        GuestMemoryError::PartialBuffer { expected, completed } => format!("G3 {expected} {completed}"),
        GuestMemoryError::InvalidBackendAddress => "G4".to_string(),
        GuestMemoryError::HostAddressNotAvailable => "G5".to_string(),
        GuestMemoryError::CallbackOutOfRange => "G6".to_string(),
        GuestMemoryError::GuestAddressOverflow => "G7".to_string(),
        GuestMemoryError::IommuError(error) => match error {
            IommuError::CannotResolve {
                iova_range,
                reason: why,
            } => {
                format!(
                    "G8 I1 {} {}",
                    range_text(iova_range.base, iova_range.length),
                    reason(*why)
                )
            }
            IommuError::Fragmented {
                iova_range,
                continuous_length,
            } => {
                format!(
                    "G8 I2 {} {continuous_length}",
                    range_text(iova_range.base, iova_range.length)
                )
            }
            IommuError::IommuMisconfigured { reason: why } => format!("G8 I3 {}", reason(*why)),
            IommuError::TableTooSmall { .. } => panic!("no script has messages"),
            IommuError::Memory => "G8 I4".to_string(),
        },
        GuestMemoryError::Memory => "Memory".to_string(),
    }
}

fn refusal(error: &MachineError) -> String {
    match error {
        MachineError::NoSuch => "NoSuch".to_string(),
        MachineError::BadRange => "BadRange".to_string(),
        MachineError::Memory => "Memory".to_string(),
        MachineError::InvalidSize => "M1".to_string(),
        MachineError::InvalidRegion => "F3".to_string(),
        MachineError::Layout(GuestRegionCollectionError::NoMemoryRegion) => "C1".to_string(),
        MachineError::Layout(GuestRegionCollectionError::MemoryRegionOverlap) => "C2".to_string(),
        MachineError::Layout(GuestRegionCollectionError::UnsortedMemoryRegions) => "C3".to_string(),
        MachineError::GuestMemory(error) => fault(error),
        MachineError::InUse | MachineError::BadCall | MachineError::Short(_) => format!("no line: {error}"),
    }
}

fn made(word: &str, answer: Result<usize, MachineError>) -> String {
    match answer {
        Ok(number) => format!("{word} {number}"),
        Err(error) => format!("error {}", refusal(&error)),
    }
}

fn done(answer: Result<(), MachineError>) -> String {
    match answer {
        Ok(()) => "ok".to_string(),
        Err(error) => format!("error {}", refusal(&error)),
    }
}

fn pages(answer: Result<Vec<usize>, MachineError>) -> String {
    match answer {
        Ok(pages) => format!("pages {}", spaced(pages.iter().map(usize::to_string))),
        Err(error) => format!("error {}", refusal(&error)),
    }
}

fn accessed<T>(answer: Result<T, GuestMemoryError>, text: impl Fn(T) -> String) -> String {
    match answer {
        Ok(given) => text(given),
        Err(error) => format!("error {}", fault(&error)),
    }
}

// A buffer of this size, if there is memory for it.
fn buffer(size: usize) -> Option<Vec<u8>> {
    let mut bytes = Vec::new();
    bytes.try_reserve_exact(size).ok()?;
    bytes.resize(size, 0);
    Some(bytes)
}

fn on_memory(memory: &GuestMemory<'_>, words: &[&str]) -> String {
    let addr = |at: usize| GuestAddress(number(words[at]));
    match words[0] {
        "read" => match buffer(size(words[3])) {
            None => "error Memory".to_string(),
            Some(mut buf) => {
                let count = memory.read(&mut buf, addr(2));
                accessed(count, |count| format!("bytes {}", hex(&buf[..count])))
            }
        },
        "readx" => match buffer(size(words[3])) {
            None => "error Memory".to_string(),
            Some(mut buf) => {
                let filled = memory.read_slice(&mut buf, addr(2));
                accessed(filled, |()| format!("bytes {}", hex(&buf)))
            }
        },
        "write" => accessed(memory.write(&bytes(words[3]), addr(2)), |count| {
            format!("count {count}")
        }),
        "writex" => accessed(memory.write_slice(&bytes(words[3]), addr(2)), |()| "ok".to_string()),
        "store" => {
            let value = number(words[4]);
            let wide = match words[2] {
                "1" => value > 0xff,
                "2" => value > 0xffff,
                "4" => value > 0xffff_ffff,
                _ => false,
            };
            if wide {
                return "error BadRange".to_string();
            }
            let stored = match number(words[2]) {
                1 => memory.store(value as u8, addr(3), SeqCst),
                2 => memory.store(value as u16, addr(3), SeqCst),
                4 => memory.store(value as u32, addr(3), SeqCst),
                _ => memory.store(value, addr(3), SeqCst),
            };
            accessed(stored, |()| "ok".to_string())
        }
        "load" => {
            let loaded = match number(words[2]) {
                1 => memory.load::<u8>(addr(3), SeqCst).map(u64::from),
                2 => memory.load::<u16>(addr(3), SeqCst).map(u64::from),
                4 => memory.load::<u32>(addr(3), SeqCst).map(u64::from),
                _ => memory.load::<u64>(addr(3), SeqCst),
            };
            accessed(loaded, |value| format!("value {value}"))
        }
        "check" => memory
            .check_range(addr(2), size(words[3]), access(words[4]))
            .to_string(),
        word => panic!("{word} is no line"),
    }
}

fn lookup_text(found: Result<Vec<vm_memory_proved::MappedRange>, IotlbFails>) -> String {
    match found {
        Ok(pieces) => format!("pieces {}", spaced(pieces.iter().map(|p| range_text(p.base, p.length)))),
        Err(fails) => format!(
            "fails misses {} access {}",
            ranges(&fails.misses),
            ranges(&fails.access_fails)
        ),
    }
}

// The numbers of a line, and what they name.
struct Words<'a>(Vec<&'a str>);

impl Words<'_> {
    fn n(&self, at: usize) -> usize {
        size(self.0[at])
    }

    fn addr(&self, at: usize) -> GuestAddress {
        GuestAddress(number(self.0[at]))
    }

    fn block(&self, at: usize) -> BlockId {
        BlockId::new(self.n(at))
    }

    fn space(&self, at: usize) -> SpaceId {
        SpaceId::new(self.n(at))
    }

    fn table(&self, at: usize) -> TableId {
        TableId::new(self.n(at))
    }

    fn region(&self, at: usize) -> RegionId {
        RegionId::new(self.n(at))
    }

    fn layout(&self, at: usize) -> LayoutId {
        LayoutId::new(self.n(at))
    }

    fn memory(&self, at: usize) -> MemoryId {
        MemoryId::new(self.n(at))
    }
}

// The reply to a line that makes something, if it is one.
fn maker(machine: &Machine, w: &Words) -> Option<String> {
    let (n, addr) = (|at| w.n(at), |at| w.addr(at));
    let answer = match w.0[0] {
        "block" => machine.block(n(1), n(2)).map(BlockId::number),
        "space" => machine.space(n(1), n(2)).map(SpaceId::number),
        "table" => machine.table(w.0.get(1).map(|word| size(word))).map(TableId::number),
        "region" => machine.region(w.block(1), addr(2)).map(RegionId::number),
        "translator" => machine.translator(w.table(1)).map(TranslatorId::number),
        "layout" => {
            let regions: Vec<RegionId> = (1..w.0.len()).map(|at| w.region(at)).collect();
            machine.layout(&regions).map(LayoutId::number)
        }
        "insert" => machine.insert(w.layout(1), w.region(2)).map(LayoutId::number),
        "remove" => machine.remove(w.layout(1), addr(2), n(3)).map(LayoutId::number),
        "plain" => machine.plain(w.layout(1)).map(MemoryId::number),
        "memory" => {
            let translator = TranslatorId::new(n(2));
            let made = machine.new_memory(w.layout(1), translator, w.space(3), switch(w.0[4]));
            made.map(MemoryId::number)
        }
        "replace" => machine.replace_backend(w.memory(1), w.layout(2)).map(MemoryId::number),
        _ => return None,
    };
    let word = match w.0[0] {
        "insert" | "remove" => "layout",
        "plain" | "replace" => "memory",
        word => word,
    };
    Some(made(word, answer))
}

// The reply to a line of a transfer, if it is one.
fn transfer(machine: &Machine, w: &Words) -> Option<String> {
    let is_exact = w.0[0].ends_with('x');
    match w.0[0] {
        "from" | "fromx" => {
            let came = machine.receive(w.memory(1), w.addr(2), w.n(3), &source(w.0[4]), is_exact);
            Some(match came {
                Ok(count) if !is_exact => format!("count {count}"),
                came => done(came.map(drop)),
            })
        }
        "to" | "tox" => Some(
            match machine.send(w.memory(1), w.addr(2), w.n(3), &sink(w.0[4]), is_exact) {
                Ok(sent) => {
                    let ending = match &sent.ending {
                        Ok(_) if is_exact => "ok".to_string(),
                        Ok(count) => format!("count {count}"),
                        Err(error) => format!("error {}", fault(error)),
                    };
                    format!("sent {ending} taken {}", hex(&sent.taken))
                }
                Err(error) => format!("error {}", refusal(&error)),
            },
        ),
        _ => None,
    }
}

/// The reply to a line.
pub fn reply(machine: &Machine, line: &str) -> String {
    let w = Words(line.split(' ').collect());
    if let Some(reply) = maker(machine, &w).or_else(|| transfer(machine, &w)) {
        return reply;
    }
    let (n, addr) = (|at| w.n(at), |at| w.addr(at));
    match w.0[0] {
        "enable" => done(machine.set_iommu_enabled(w.memory(1), switch(w.0[2]))),
        "copy" => done(machine.copy((w.block(1), n(2), n(3)), (w.block(4), n(5), n(6)))),
        "set" => done(machine.set_mapping(w.table(1), addr(2), addr(3), n(4), access(w.0[5]))),
        "invalidate" => done(machine.invalidate_mapping(w.table(1), addr(2), n(3))),
        "clear" => done(machine.invalidate_all(w.table(1))),
        "lookup" => match machine.lookup(w.table(1), addr(2), n(3), access(w.0[4])) {
            Ok(found) => lookup_text(found),
            Err(error) => format!("error {}", refusal(&error)),
        },
        "dirty" if w.0[1] == "block" => pages(machine.dirty_block(w.block(2))),
        "dirty" => pages(machine.dirty_space(w.space(2))),
        "harvest" if w.0[1] == "block" => pages(machine.harvest_block(w.block(2))),
        "harvest" => pages(machine.harvest_space(w.space(2))),
        _ => match machine.memory(w.memory(1)) {
            None => "error NoSuch".to_string(),
            Some(memory) => on_memory(&memory, &w.0),
        },
    }
}
