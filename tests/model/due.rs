// What the rules promise of each exported call: the number that it returns, and the bytes lent for writing as they are
// afterwards. `before` is what they held when the call came; of the simulator's record that is the record.
use crate::model::{self, Model};

/// What a call returned, and the bytes lent to it afterwards.
pub type Outcome = (u32, Vec<u8>);

/// A step.
pub fn step(record: &[u8], sample: u8) -> Outcome {
    let Some(mut chip) = Model::from_record(record) else {
        return (28, record.to_vec());
    };
    match chip.sample(sample) {
        Ok(answer) => (answer_number(answer), chip.record().to_vec()),
        Err(refusal) => (refusal as u32, record.to_vec()),
    }
}

/// An answer as step returns it.
pub fn answer_number((answer, first, second): model::Answer) -> u32 {
    answer as u32 + 256 * first as u32 + 65_536 * second as u32
}

/// An advance.
pub fn advance(record: &[u8], ticks: u16) -> Outcome {
    let Some(mut chip) = Model::from_record(record) else {
        return (28, record.to_vec());
    };
    chip.advance(ticks);
    (0, chip.record().to_vec())
}

/// The pins.
pub fn pins(record: &[u8], before: &[u8]) -> Outcome {
    let Some(chip) = Model::from_record(record) else {
        return (28, before.to_vec());
    };
    if before.len() < 32 {
        return (25, before.to_vec());
    }
    let (sum, cells) = chip.pins();
    (sum, written_first(&cells, before))
}

// Bytes written at the front of a buffer.
fn written_first(bytes: &[u8], before: &[u8]) -> Vec<u8> {
    let mut out = before.to_vec();
    out[..bytes.len()].copy_from_slice(bytes);
    out
}

// A call of the host that makes these bytes or is refused.
fn host(result: Result<Vec<u8>, model::Refusal>, before: &[u8]) -> Outcome {
    match result {
        Ok(bytes) => (bytes.len() as u32, written_first(&bytes, before)),
        Err((refusal, place)) => ((1 << 31) + 256 * place as u32 + refusal as u32, before.to_vec()),
    }
}

/// Power-on of a part.
pub fn power_on(part: usize, memory: &[u8], before: &[u8]) -> Outcome {
    let record = model::power_on(part as u64, memory).map(|chip| chip.record().to_vec());
    let fitted = record.and_then(|bytes| if before.len() < 64 { Err((25, 0)) } else { Ok(bytes) });
    host(fitted, before)
}

/// The stream of a write.
pub fn write(first: usize, nibbles: &[u8], before: &[u8]) -> Outcome {
    host(model::write(first as u64, nibbles, before.len()), before)
}

/// The stream of a read.
pub fn read(first: usize, count: usize, before: &[u8]) -> Outcome {
    host(model::read(first as u64, count as u64, before.len()), before)
}

/// The stream of commands to a part.
pub fn commands(part: usize, codes: &[u8], before: &[u8]) -> Outcome {
    host(model::commands(part as u64, codes, before.len()), before)
}

/// The nibbles of noted bytes.
pub fn decode(noted: &[u8], before: &[u8]) -> Outcome {
    host(model::decode(noted, before.len()), before)
}
