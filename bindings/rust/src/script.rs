//! Sources and sinks that follow a script, for tests of a monitor.

use crate::error::{GuestMemoryError, MachineError};
use crate::machine::{answered, list, zeroed, Machine};
use crate::memory::GuestAddress;
use crate::number::MemoryId;
use crate::raw::{kind, Call};

/// What a source does at its next tries. One with no step left is at its end.
#[derive(Clone, Debug, PartialEq, Eq)]
pub enum SourceStep {
    /// Gives these bytes, over as many tries as they take.
    Give(Vec<u8>),
    /// Leaves these bytes in the buffer, and is interrupted.
    Interrupted(Vec<u8>),
    /// Leaves these bytes in the buffer, and fails.
    Fail(Vec<u8>),
}

/// What a sink does at its next tries. One with no step left takes everything.
#[derive(Clone, Copy, Debug, PartialEq, Eq)]
pub enum SinkStep {
    /// Takes at most this many bytes.
    Take(usize),
    /// Is interrupted.
    Interrupted,
    /// Fails.
    Fail,
}

/// The input that lists the steps of a source: the bytes of each, a number each, and then what it does with them.
pub fn source_input(steps: &[SourceStep]) -> Vec<u8> {
    let mut numbers = Vec::new();
    for step in steps {
        let (bytes, closes) = match step {
            SourceStep::Give(bytes) => (bytes, 256),
            SourceStep::Interrupted(bytes) => (bytes, 257),
            SourceStep::Fail(bytes) => (bytes, 258),
        };
        numbers.extend(bytes.iter().map(|byte| u64::from(*byte)));
        numbers.push(closes);
    }
    list(numbers.into_iter())
}

/// The input that lists the steps of a sink.
pub fn sink_input(steps: &[SinkStep]) -> Vec<u8> {
    let mut numbers = Vec::new();
    for step in steps {
        match step {
            SinkStep::Take(most) => numbers.extend([0, *most as u64]),
            SinkStep::Interrupted => numbers.push(1),
            SinkStep::Fail => numbers.push(2),
        }
    }
    list(numbers.into_iter())
}

/// How a transfer to a sink ended, and what the sink took.
#[derive(Debug)]
pub struct Sent {
    /// How many bytes it took, or why the transfer stopped.
    pub ending: Result<usize, GuestMemoryError>,
    /// The bytes.
    pub taken: Vec<u8>,
}

impl Machine {
    /// Receives at most, or just, `count` bytes of a memory from a source that follows these steps.
    pub fn receive(
        &self,
        memory: MemoryId,
        addr: GuestAddress,
        count: usize,
        steps: &[SourceStep],
        exact: bool,
    ) -> Result<usize, MachineError> {
        let call = Call {
            kind: if exact { kind::READ_EXACT_FROM } else { kind::READ_FROM },
            first: memory.number(),
            address: addr.0,
            length: count,
            ..Call::default()
        };
        Ok(answered(self.call(&call, &source_input(steps), &mut []))?.count)
    }

    /// Sends at most, or just, `count` bytes of a memory to a sink that follows these steps.
    pub fn send(
        &self,
        memory: MemoryId,
        addr: GuestAddress,
        count: usize,
        steps: &[SinkStep],
        exact: bool,
    ) -> Result<Sent, MachineError> {
        let call = Call {
            kind: if exact { kind::WRITE_ALL_TO } else { kind::WRITE_TO },
            first: memory.number(),
            address: addr.0,
            length: count,
            ..Call::default()
        };
        if self.memory(memory).is_none() {
            return Err(MachineError::NoSuch);
        }
        let mut taken = zeroed(count)?;
        let answer = self.call(&call, &sink_input(steps), &mut taken);
        let count = answer.count;
        let ending = match answered(answer) {
            Ok(answer) => Ok(answer.count),
            Err(MachineError::GuestMemory(error)) => Err(error),
            Err(error) => return Err(error),
        };
        taken.truncate(count);
        Ok(Sent { ending, taken })
    }
}
