// Compares the simulator's and the host's libraries with the model, call by call.
// build: rustc -O compare.rs -L DIR -l static=simulator -l static=host
// run:   ./compare [--samples N] [--seed N] [--only CHECK]
// The first call that differs is printed on one line and ends the run with status 1.

mod due;
mod model;

use due::{answer_number, Outcome};
use model::Model;
use std::time::{Duration, Instant};

// A buffer lent to a call stands between guard bytes, and every call is judged:
// the guards stand, what is only read is unchanged, a refusal changes no byte and
// a success no byte past what it wrote. All unsafe code is in this module.
mod lent {
    use super::{hex, wrong, Outcome};

    mod c {
        extern "C" {
            pub fn step(record: *mut u8, len: usize, sample: u8) -> u32;
            pub fn advance(record: *mut u8, len: usize, n: u16) -> u32;
            pub fn pins(record: *const u8, len: usize, out: *mut u8, out_len: usize) -> u32;
            pub fn ht1621_power_on(
                part: usize,
                memory: *const u8,
                len: usize,
                record: *mut u8,
                record_len: usize,
            ) -> u32;
            pub fn ht1621_write(
                first: usize,
                nibbles: *const u8,
                len: usize,
                out: *mut u8,
                out_len: usize,
            ) -> u32;
            pub fn ht1621_read(first: usize, count: usize, out: *mut u8, out_len: usize) -> u32;
            pub fn ht1621_commands(
                part: usize,
                codes: *const u8,
                len: usize,
                out: *mut u8,
                out_len: usize,
            ) -> u32;
            pub fn ht1621_decode(noted: *const u8, len: usize, out: *mut u8, out_len: usize) -> u32;
        }
    }

    const GUARD: usize = 32;

    /// A lent buffer and the bytes it held before the call.
    struct Lent {
        bytes: Vec<u8>,
        before: Vec<u8>,
    }

    // The bytes that a buffer for output holds before a call: none of them is a
    // sample, a nibble or a bit.
    pub fn fill(len: usize) -> Vec<u8> {
        (0..len).map(|index| 0x80 | (index * 29 + len) as u8).collect()
    }

    // The guard bytes of one side.
    fn guard() -> Vec<u8> {
        (0..GUARD).map(|index| 0x90 ^ (index * 5) as u8).collect()
    }

    impl Lent {
        // A buffer that holds these bytes.
        fn holding(body: &[u8]) -> Lent {
            let mut bytes = guard();
            bytes.extend_from_slice(body);
            bytes.extend_from_slice(&guard());
            Lent {
                before: bytes.clone(),
                bytes,
            }
        }

        // A buffer for output.
        fn for_output(len: usize) -> Lent {
            Lent::holding(&fill(len))
        }

        // The length lent.
        fn len(&self) -> usize {
            self.bytes.len() - 2 * GUARD
        }

        // The address lent.
        fn start(&mut self) -> *mut u8 {
            self.bytes[GUARD..].as_mut_ptr()
        }

        // The bytes now.
        fn body(&self) -> &[u8] {
            &self.bytes[GUARD..GUARD + self.len()]
        }

        // Whether both guards stand.
        fn guards_stand(&self) -> bool {
            let end = GUARD + self.len();
            self.bytes[..GUARD] == self.before[..GUARD] && self.bytes[end..] == self.before[end..]
        }

        // Whether every byte from a place on is as it was.
        fn unchanged_from(&self, place: usize) -> bool {
            place <= self.len() && self.bytes[GUARD + place..] == self.before[GUARD + place..]
        }
    }

    // Ends the run where a call broke a rule of lent buffers.
    fn must(holds: bool, rule: &str, result: u32, buffer: &Lent, call: &dyn Fn() -> String) {
        if !holds {
            wrong(&format!(
                "{} returned={} buffer={}: {}",
                call(),
                result,
                hex(&buffer.bytes),
                rule
            ));
        }
    }

    // Judges a buffer that is only read.
    fn judge_input(result: u32, input: &Lent, call: &dyn Fn() -> String) {
        must(
            input.unchanged_from(0),
            "a byte only lent for reading changed",
            result,
            input,
            call,
        );
        must(input.guards_stand(), "a guard byte changed", result, input, call);
    }

    // Judges a buffer of which a call has written its first bytes.
    fn judge_output(result: u32, written: usize, output: &Lent, call: &dyn Fn() -> String) {
        must(
            output.guards_stand(),
            "a guard byte changed",
            result,
            output,
            call,
        );
        must(
            output.unchanged_from(written),
            "more bytes claimed than lent, or a byte changed past those written",
            result,
            output,
            call,
        );
    }

    // The bytes that a call of the host wrote.
    fn written(result: u32) -> usize {
        if result >> 31 == 1 {
            0
        } else {
            result as usize
        }
    }

    /// The simulator's step on a copy of a record.
    pub fn step(record: &[u8], sample: u8) -> Outcome {
        let mut lent = Lent::holding(record);
        let result = unsafe { c::step(lent.start(), lent.len(), sample) };
        let changed = if result == 20 || result == 28 {
            0
        } else {
            record.len()
        };
        judge_output(result, changed, &lent, &|| {
            format!("step record={} sample={}", hex(record), sample)
        });
        (result, lent.body().to_vec())
    }

    /// The simulator's advance on a copy of a record.
    pub fn advance(record: &[u8], ticks: u16) -> Outcome {
        let mut lent = Lent::holding(record);
        let result = unsafe { c::advance(lent.start(), lent.len(), ticks) };
        let changed = if result == 28 { 0 } else { record.len() };
        judge_output(result, changed, &lent, &|| {
            format!("advance record={} n={}", hex(record), ticks)
        });
        (result, lent.body().to_vec())
    }

    /// The simulator's pins, with a buffer of a length for the cells.
    pub fn pins(record: &[u8], out_len: usize) -> Outcome {
        let mut input = Lent::holding(record);
        let mut output = Lent::for_output(out_len);
        let result = unsafe { c::pins(input.start(), input.len(), output.start(), out_len) };
        let call = || format!("pins record={} out_len={}", hex(record), out_len);
        judge_input(result, &input, &call);
        judge_output(
            result,
            if result == 25 || result == 28 { 0 } else { 32 },
            &output,
            &call,
        );
        (result, output.body().to_vec())
    }

    /// The host's power-on, with a buffer of a length for the record.
    pub fn power_on(part: usize, memory: &[u8], record_len: usize) -> Outcome {
        let mut input = Lent::holding(memory);
        let mut output = Lent::for_output(record_len);
        let result =
            unsafe { c::ht1621_power_on(part, input.start(), input.len(), output.start(), record_len) };
        let call = || {
            format!(
                "ht1621_power_on part={} memory={} record_len={}",
                part,
                hex(memory),
                record_len
            )
        };
        judge_input(result, &input, &call);
        judge_output(result, written(result), &output, &call);
        (result, output.body().to_vec())
    }

    /// The host's write, with a buffer of a length for the stream.
    pub fn write(first: usize, nibbles: &[u8], out_len: usize) -> Outcome {
        let mut input = Lent::holding(nibbles);
        let mut output = Lent::for_output(out_len);
        let result = unsafe { c::ht1621_write(first, input.start(), input.len(), output.start(), out_len) };
        let call = || {
            format!(
                "ht1621_write first={} nibbles={} out_len={}",
                first,
                hex(nibbles),
                out_len
            )
        };
        judge_input(result, &input, &call);
        judge_output(result, written(result), &output, &call);
        (result, output.body().to_vec())
    }

    /// The host's read, with a buffer of a length for the stream.
    pub fn read(first: usize, count: usize, out_len: usize) -> Outcome {
        let mut output = Lent::for_output(out_len);
        let result = unsafe { c::ht1621_read(first, count, output.start(), out_len) };
        let call = || format!("ht1621_read first={} count={} out_len={}", first, count, out_len);
        judge_output(result, written(result), &output, &call);
        (result, output.body().to_vec())
    }

    /// The host's commands, with a buffer of a length for the stream.
    pub fn commands(part: usize, codes: &[u8], out_len: usize) -> Outcome {
        let mut input = Lent::holding(codes);
        let mut output = Lent::for_output(out_len);
        let result = unsafe { c::ht1621_commands(part, input.start(), input.len(), output.start(), out_len) };
        let call = || format!("ht1621_commands part={} codes={} out_len={}", part, hex(codes), out_len);
        judge_input(result, &input, &call);
        judge_output(result, written(result), &output, &call);
        (result, output.body().to_vec())
    }

    /// The host's decode, with a buffer of a length for the nibbles.
    pub fn decode(noted: &[u8], out_len: usize) -> Outcome {
        let mut input = Lent::holding(noted);
        let mut output = Lent::for_output(out_len);
        let result = unsafe { c::ht1621_decode(input.start(), input.len(), output.start(), out_len) };
        let call = || format!("ht1621_decode noted={} out_len={}", hex(noted), out_len);
        judge_input(result, &input, &call);
        judge_output(result, written(result), &output, &call);
        (result, output.body().to_vec())
    }
}

use lent::fill;

// The parts, as the host is told them and as byte 58 of a record has them.
const HT: usize = 0;
const GN: usize = 1;

// Prints a line that tells a wrong call and ends the run.
fn wrong(line: &str) -> ! {
    println!("WRONG {}", line);
    println!("compare: stopped, 1 wrong");
    std::process::exit(1);
}

// Bytes in hex; `-` for none.
fn hex(bytes: &[u8]) -> String {
    if bytes.is_empty() {
        return "-".to_string();
    }
    bytes.iter().map(|byte| format!("{:02x}", byte)).collect()
}

/// A xorshift generator.
struct Dice(u64);

impl Dice {
    // A generator of a seed; the seed 0 would give only zeros.
    fn seeded(seed: u64) -> Dice {
        let mut dice = Dice(seed.wrapping_mul(0x9E37_79B9_7F4A_7C15) | 1);
        for _ in 0..8 {
            dice.roll();
        }
        dice
    }

    // The next number.
    fn roll(&mut self) -> u64 {
        self.0 ^= self.0 >> 12;
        self.0 ^= self.0 << 25;
        self.0 ^= self.0 >> 27;
        self.0.wrapping_mul(0x2545_F491_4F6C_DD1D) >> 20
    }

    // A number below a bound.
    fn below(&mut self, bound: usize) -> usize {
        (self.roll() % bound as u64) as usize
    }

    // A byte below a bound of at most 256.
    fn byte(&mut self, bound: usize) -> u8 {
        self.below(bound) as u8
    }

    // Whether one chance in so many came up.
    fn once_in(&mut self, chances: usize) -> bool {
        self.below(chances) == 0
    }

    // One of several values.
    fn pick<T: Copy>(&mut self, values: &[T]) -> T {
        values[self.below(values.len())]
    }

    // Bytes below a bound.
    fn bytes(&mut self, count: usize, bound: usize) -> Vec<u8> {
        (0..count).map(|_| self.byte(bound)).collect()
    }
}

/// Counts comparisons; its methods compare one call each with the model.
struct Tally {
    count: u64,
    dice: Dice,
}

impl Tally {
    // Compares an outcome with the one due.
    fn same(&mut self, due: Outcome, got: Outcome, call: &dyn Fn() -> String) {
        self.count += 1;
        if due != got {
            let (expected, found) = (hex(&due.1), hex(&got.1));
            wrong(&format!(
                "{} expected={}:{} got={}:{}",
                call(),
                due.0,
                expected,
                got.0,
                found
            ));
        }
    }

    // Compares one number with the one due.
    fn equal(&mut self, due: u32, got: u32, call: &dyn Fn() -> String) {
        self.count += 1;
        if due != got {
            wrong(&format!("{} expected={} got={}", call(), due, got));
        }
    }

    // One step.
    fn step(&mut self, record: &[u8], sample: u8) -> Outcome {
        let got = lent::step(record, sample);
        self.same(due::step(record, sample), got.clone(), &|| {
            format!("step record={} sample={}", hex(record), sample)
        });
        got
    }

    // One advance.
    fn advance(&mut self, record: &[u8], ticks: u16) -> Outcome {
        let got = lent::advance(record, ticks);
        self.same(due::advance(record, ticks), got.clone(), &|| {
            format!("advance record={} n={}", hex(record), ticks)
        });
        got
    }

    // One look at the pins.
    fn pins(&mut self, record: &[u8], out_len: usize) -> Outcome {
        let got = lent::pins(record, out_len);
        self.same(due::pins(record, &fill(out_len)), got.clone(), &|| {
            format!("pins record={} out_len={}", hex(record), out_len)
        });
        got
    }

    // One write asked of the host.
    fn write(&mut self, first: usize, nibbles: &[u8], out_len: usize) -> Outcome {
        let due = due::write(first, nibbles, &fill(out_len));
        let got = lent::write(first, nibbles, out_len);
        self.same(due, got.clone(), &|| {
            format!(
                "ht1621_write first={} nibbles={} out_len={}",
                first,
                hex(nibbles),
                out_len
            )
        });
        got
    }

    // One read asked of the host.
    fn read(&mut self, first: usize, count: usize, out_len: usize) -> Outcome {
        let due = due::read(first, count, &fill(out_len));
        let got = lent::read(first, count, out_len);
        self.same(due, got.clone(), &|| {
            format!("ht1621_read first={} count={} out_len={}", first, count, out_len)
        });
        got
    }

    // Commands to a part asked of the host.
    fn commands(&mut self, part: usize, codes: &[u8], out_len: usize) -> Outcome {
        let due = due::commands(part, codes, &fill(out_len));
        let got = lent::commands(part, codes, out_len);
        self.same(due, got.clone(), &|| {
            format!("ht1621_commands part={} codes={} out_len={}", part, hex(codes), out_len)
        });
        got
    }

    // Noted bytes given to the host.
    fn decode(&mut self, noted: &[u8], out_len: usize) -> Outcome {
        let due = due::decode(noted, &fill(out_len));
        let got = lent::decode(noted, out_len);
        self.same(due, got.clone(), &|| {
            format!("ht1621_decode noted={} out_len={}", hex(noted), out_len)
        });
        got
    }

    // One power-on of a part.
    fn power_on(&mut self, part: usize, memory: &[u8], record_len: usize) -> Outcome {
        let got = lent::power_on(part, memory, record_len);
        self.same(due::power_on(part, memory, &fill(record_len)), got.clone(), &|| {
            format!(
                "ht1621_power_on part={} memory={} record_len={}",
                part,
                hex(memory),
                record_len
            )
        });
        got
    }
}

// A random valid record in a phase.
fn record_in(dice: &mut Dice, phase: u8) -> [u8; 64] {
    let mut record = [0; 64];
    record[..32].copy_from_slice(&dice.bytes(32, 16));
    record[32] = 2 * dice.byte(8) + (phase == 0) as u8;
    record[33] = phase;
    record[34] = dice.byte(most_bits(phase) as usize + 1);
    record[35] = dice.byte(1 << record[34]);
    if phase == 4 || phase == 5 {
        record[37] = dice.byte(64);
        record[38] = dice.byte(4);
        record[39] = dice.byte(3);
    }
    set_settings(dice, &mut record);
    set_counters(dice, &mut record);
    let part = dice.byte(2);
    set_scan(dice, &mut record, part);
    record
}

// Makes a record one of a part, with a random scan, often on the edge of a step.
fn set_scan(dice: &mut Dice, record: &mut [u8; 64], part: u8) {
    let last = last_counter(part);
    record[58] = part;
    record[59] = if dice.once_in(2) {
        dice.pick(&[0, 1, last - 1, last])
    } else {
        dice.byte(last as usize + 1)
    };
    record[60] = dice.byte(record[44] as usize);
}

// Where the scan's counter of a part ends.
fn last_counter(part: u8) -> u8 {
    [127, 95][part as usize]
}

// Gives a record random settings.
fn set_settings(dice: &mut Dice, record: &mut [u8; 64]) {
    record[40] = dice.pick(&[0, 1, 1]);
    record[41] = dice.byte(3);
    record[42] = dice.pick(&[0, 1, 1]);
    record[43] = dice.pick(&[2, 3]);
    record[44] = dice.pick(&[2, 3, 4]);
    record[45] = dice.byte(2);
    record[46] = dice.pick(&[2, 4]);
    record[47] = dice.pick(&[0, 1, 1]);
    record[48] = dice.byte(8);
    record[49] = dice.pick(&[0, 1, 1]);
    record[50] = dice.byte(3);
    record[51] = dice.byte(2);
    record[57] = dice.byte(2);
}

// Gives a record random counters, often on the edge of a step.
fn set_counters(dice: &mut Dice, record: &mut [u8; 64]) {
    let edge = dice.once_in(2);
    record[52] = if edge { dice.pick(&[0, 6, 7]) } else { dice.byte(8) };
    record[53] = if edge {
        dice.pick(&[0, 3, 4, 7, 8, 11, 12, 15])
    } else {
        dice.byte(16)
    };
    record[54] = if edge {
        dice.pick(&[0, 1, 63, 126, 127])
    } else {
        dice.byte(128)
    };
    record[55] = if edge {
        dice.pick(&[0, 1, 127, 128, 254, 255])
    } else {
        dice.byte(256)
    };
    record[56] = if edge { dice.pick(&[0, 3]) } else { dice.byte(4) };
}

// A random valid record in any phase.
fn random_record(dice: &mut Dice) -> [u8; 64] {
    let phase = dice.byte(8);
    record_in(dice, phase)
}

// The most unfinished bits of a phase.
fn most_bits(phase: u8) -> u8 {
    [0, 2, 5, 5, 0, 3, 8, 0][phase as usize]
}

// The two samples that send a bit.
fn sent(bit: u8) -> [u8; 2] {
    [4 + 8 * bit, 6 + 8 * bit]
}

// The samples that send a number's bits, first bit highest.
fn sent_number(width: u8, number: u16) -> Vec<u8> {
    (0..width).rev().flat_map(|place| sent((number >> place & 1) as u8)).collect()
}

// Feeds samples to a record and gives the last answer and the record.
fn fed(tally: &mut Tally, record: &[u8], samples: &[u8]) -> Outcome {
    let mut last = (0, record.to_vec());
    for &sample in samples {
        last = tally.step(&last.1, sample);
    }
    last
}

// The examples and cases of the rules, with their numbers and not the model's.
fn cases_of_the_rules(tally: &mut Tally) {
    let chip = tally.power_on(HT, &[0; 32], 64).1;
    answer_cases(tally, &chip);
    length_cases(tally);
    let four_commons = commanded(tally, &chip, &[0x2B]);
    tally.equal(4, four_commons[44] as u32, &|| {
        format!("(f) byte 44 after 2b of record={}", hex(&chip))
    });
    clear_cases(tally, &chip);
    tick_cases(tally, &chip);
    past_cases(tally, &chip);
    part_cases(tally);
    scan_cases(tally);
}

// Cases (a) and (b).
fn answer_cases(tally: &mut Tally, chip: &[u8]) {
    let opened = lent::step(chip, 15);
    tally.equal(0, opened.0, &|| {
        format!("(a) step record={} sample=15", hex(chip))
    });
    tally.equal(1, lent::step(&opened.1, 14).0, &|| {
        format!("(a) step record={} sample=14", hex(&opened.1))
    });
    tally.equal(20, lent::step(chip, 16).0, &|| {
        format!("(b) step record={} sample=16", hex(chip))
    });
}

// Cases (c), (d), (e), the second half of (f), (k) and the 29 samples of the listing.
fn length_cases(tally: &mut Tally) {
    let write = |first, nibbles: &[u8]| lent::write(first, nibbles, 300).0;
    tally.equal(29, write(0, &[1]), &|| {
        "(c) ht1621_write first=0 nibbles=01 out_len=300".to_string()
    });
    tally.equal(277, write(0, &[1; 32]), &|| {
        "(c) ht1621_write first=0, 32 nibbles 01, out_len=300".to_string()
    });
    tally.equal(29, write(31, &[1]), &|| {
        "(d) ht1621_write first=31 nibbles=01 out_len=300".to_string()
    });
    let past_end = (1 << 31) + 30;
    tally.equal(past_end, write(31, &[1; 2]), &|| {
        "(d) ht1621_write first=31 nibbles=0101 out_len=300".to_string()
    });
    let undefined = (1 << 31) + 24;
    for part in [HT, GN] {
        let commands = |codes: &[u8]| lent::commands(part, codes, 300).0;
        tally.equal(27, commands(&[1]), &|| {
            format!("(e) ht1621_commands part={} codes=01 out_len=300", part)
        });
        tally.equal(undefined, commands(&[0x2C]), &|| {
            format!("(f) ht1621_commands part={} codes=2c out_len=300", part)
        });
    }
    let decoded = lent::decode(&[1, 0, 1, 0], 1);
    tally.same((1, vec![5]), decoded, &|| {
        "(k) ht1621_decode noted=01000100 out_len=1".to_string()
    });
    let five: Vec<u8> = b"fece46ce46464646cecece46ce46f"
        .iter()
        .map(|&digit| digit_value(digit))
        .collect();
    let written = lent::write(3, &[5], 29);
    tally.same((29, five), written, &|| {
        "ht1621_write first=3 nibbles=05 out_len=29".to_string()
    });
}

// The value of a hex digit.
fn digit_value(digit: u8) -> u8 {
    if digit <= b'9' {
        digit - b'0'
    } else {
        digit - b'a' + 10
    }
}

// Case (g).
fn clear_cases(tally: &mut Tally, chip: &[u8]) {
    let mut counted = chip.to_vec();
    counted[55] = 200;
    counted[56] = 2;
    for &(code, w) in [(0x0C, 2), (0x0D, 2), (0x0E, 0), (0x0F, 0)].iter() {
        let cleared = commanded(tally, &counted, &[code]);
        let after = |index: usize| {
            format!(
                "(g) byte {} after {:02x} of record={}",
                index,
                code,
                hex(&counted)
            )
        };
        tally.equal(0, cleared[55] as u32, &|| after(55));
        tally.equal(w, cleared[56] as u32, &|| after(56));
    }
}

// Cases (h), (i) and (j).
fn tick_cases(tally: &mut Tally, chip: &[u8]) {
    let flag = commanded(tally, chip, &[0x01, 0x14, 0xA7, 0x0E, 0x07]);
    let timer = commanded(tally, chip, &[0x01, 0x14, 0xA7, 0x0C, 0x06, 0x88]);
    let slow = commanded(tally, chip, &[0x01, 0x18, 0xA7, 0x0C, 0x06, 0x88]);
    for &(ticks, due) in [(1023, 0), (1024, 1)].iter() {
        let set = lent::advance(&flag, ticks).1[51] as u32;
        tally.equal(due, set, &|| {
            format!("(h) byte 51 after advance record={} n={}", hex(&flag), ticks)
        });
    }
    for &(ticks, due) in [(127, 0), (128, 1)].iter() {
        let low = irq_after(&timer, ticks);
        tally.equal(due, low, &|| {
            format!("(i) IRQ after advance record={} n={}", hex(&timer), ticks)
        });
    }
    for &(ticks, due) in [(1023, 0), (1024, 1)].iter() {
        let low = irq_after(&slow, ticks);
        tally.equal(due, low, &|| {
            format!("(j) IRQ after advance record={} n={}", hex(&slow), ticks)
        });
    }
}

// A write frame from 31 and a read frame from 63, with memory zero but for address 0: what the frame's last sample is
// answered, and what the memory holds then at 0 and 31.
fn past_cases(tally: &mut Tally, chip: &[u8]) {
    let mut held = chip.to_vec();
    held[0] = 6;
    let (write, read) = (sent_number(9, 5 * 64 + 31), sent_number(9, 6 * 64 + 63));
    let nine = sent_number(4, 9);
    let round: Vec<u8> = nine.repeat(34);
    for (head, rest, due, at_0, at_31) in [
        (&write, &nine[..], 5 + 256 * 31 + 65_536 * 9, 6, 9),
        (&write, &nine.repeat(2), 5 + 256 * 32 + 65_536 * 9, 6, 9),
        (&write, &nine.repeat(33), 5 + 256 * 63 + 65_536 * 9, 6, 9),
        (&write, &round, 5 + 65_536 * 9, 9, 9),
        (&write, &[&nine[..], &[10]].concat(), 8 + 256 * 32, 6, 9),
        (&read, &[10], 8 + 256 * 63, 6, 0),
        (&read, &[10, 14, 10, 14, 10, 14, 10, 14, 10, 14, 10], 8 + 65_536, 6, 0),
    ] {
        let samples = [&[14], &head[..], rest].concat();
        let (answer, after) = fed(tally, &held, &samples);
        let frame = || format!("last step of record={} samples={}", hex(&held), hex(&samples));
        tally.equal(due, answer, &frame);
        tally.equal(at_0, after[0] as u32, &|| format!("address 0 after the {}", frame()));
        tally.equal(at_31, after[31] as u32, &|| format!("address 31 after the {}", frame()));
    }
}

// What each part makes of 08 to 0F: the driver's answer, the chip's, and b afterwards, which was 200; and what power-on
// and the driver say of parts that are none.
fn part_cases(tally: &mut Tally) {
    for (code, kept) in [
        (0x08, [Some(200), Some(200)]),
        (0x09, [Some(200), Some(200)]),
        (0x0A, [None, Some(0)]),
        (0x0B, [None, Some(0)]),
        (0x0C, [Some(0), None]),
        (0x0D, [Some(0), None]),
        (0x0E, [Some(0), Some(0)]),
        (0x0F, [Some(0), Some(0)]),
    ] {
        for part in [HT, GN] {
            let of = || format!("code {:02x} in part {}", code, part);
            let due = if kept[part].is_some() { 27 } else { (1 << 31) + 24 };
            tally.equal(due, lent::commands(part, &[code], 27).0, &of);
            let mut chip = lent::power_on(part, &[0; 32], 64).1;
            chip[55] = 200;
            let samples = [&[14, 12, 14, 4, 6, 4, 6], &sent_number(9, 2 * code as u16)[..]].concat();
            let (answer, after) = fed(tally, &chip, &samples);
            let due = if kept[part].is_some() { 6 } else { 7 };
            tally.equal(due + 256 * code as u32, answer, &of);
            tally.equal(kept[part].unwrap_or(200), after[55] as u32, &of);
        }
    }
    for part in [2, 255, 256, 257, 1 << 32, (1 << 32) + 1, usize::MAX] {
        let unknown = (1 << 31) + 43;
        tally.equal(unknown, lent::commands(part, &[], 0).0, &|| format!("commands of part {}", part));
        tally.equal(unknown, lent::power_on(part, &[], 0).0, &|| format!("power-on of part {}", part));
    }
}

// The scan from power-on with a crystal: SYS EN, XTAL and bias 1/3 with 3 commons. After so many ticks counter and common
// are these.
fn scan_cases(tally: &mut Tally) {
    let of_ht = [(127, 127, 0), (128, 0, 1), (255, 127, 1), (256, 0, 2), (383, 127, 2), (384, 0, 0), (96, 96, 0)];
    let of_gn = [(95, 95, 0), (96, 0, 1), (191, 95, 1), (192, 0, 2), (287, 95, 2), (288, 0, 0), (128, 32, 1)];
    for (part, cases) in [(HT, of_ht), (GN, of_gn)] {
        let fresh = tally.power_on(part, &[0; 32], 64).1;
        let chip = commanded(tally, &fresh, &[0x01, 0x14, 0x25]);
        for (ticks, counter, common) in cases {
            let after = lent::advance(&chip, ticks).1;
            let got = (after[58] as u32) << 16 | (after[59] as u32) << 8 | after[60] as u32;
            tally.equal((part as u32) << 16 | counter << 8 | common, got, &|| {
                format!("bytes 58 to 60 after advance record={} n={}", hex(&chip), ticks)
            });
        }
    }
}

// Whether IRQ is low after ticks.
fn irq_after(record: &[u8], ticks: u16) -> u32 {
    lent::pins(&lent::advance(record, ticks).1, 32).0 & 1
}

// A record after commands to its part that the host has put into samples.
fn commanded(tally: &mut Tally, record: &[u8], codes: &[u8]) -> Vec<u8> {
    let stream = tally.commands(record[58] as usize, codes, 9 + 18 * codes.len());
    fed(tally, record, &stream.1).1
}

// All 512 nine-bit codes, bit by bit, from the chips of both parts at power-on and
// from such with many settings; then each once more as the second command of its
// frame.
fn codes(tally: &mut Tally) {
    let mut chips = vec![tally.power_on(HT, &[0; 32], 64).1, tally.power_on(GN, &[0; 32], 64).1];
    for clock in 0..3 {
        for kind in 0..6 {
            let (irq_source, part) = (kind % 3, kind / 3);
            let mut record = record_in(&mut tally.dice, 0);
            set_scan(&mut tally.dice, &mut record, part);
            record[40] = 1;
            record[41] = clock;
            record[42] = 1;
            record[50] = irq_source;
            record[51] = 1;
            record[54] = 77;
            record[55] = 201;
            record[56] = 3;
            chips.push(record.to_vec());
        }
    }
    for chip in &chips {
        let frame = fed(tally, chip, &[15, 14, 12, 14, 4, 6, 4, 6]).1;
        let passed_over: u32 = (0..512).map(|code| nine_bits(tally, &frame, code)).sum();
        tally.equal(176, passed_over, &|| {
            format!("undefined codes from record={}", hex(chip))
        });
    }
}

// Sends a nine-bit code twice into a command frame; 1 if it was passed over.
fn nine_bits(tally: &mut Tally, frame: &[u8], code: u32) -> u32 {
    let samples = sent_number(9, code as u16);
    let first = fed(tally, frame, &samples);
    let sends = || format!("last step of record={} samples={}", hex(frame), hex(&samples));
    tally.equal(code >> 1, first.0 >> 8, &|| {
        format!("first detail of the {}", sends())
    });
    let second = fed(tally, &first.1, &samples);
    tally.equal(first.0, second.0, &|| format!("second time, {}", sends()));
    (second.0 & 255 == 7) as u32
}

// Every sample from records of every phase, count, value, address, position and
// DATA, with every state of the lines that the phase allows.
fn every_sample(tally: &mut Tally) {
    for phase in 0..8 {
        for count in 0..=most_bits(phase) {
            for value in 0..1u16 << count {
                from_values(tally, phase, count, value as u8);
            }
        }
    }
}

// Every sample from records with a phase, a count and a value: at every address, and at some of them every sample that is
// refused too.
fn from_values(tally: &mut Tally, phase: u8, count: u8, value: u8) {
    let in_data = phase == 4 || phase == 5;
    for address in 0..if in_data { 64 } else { 1 } {
        let most = if [0, 1, 15, 30, 31, 32, 47, 63].contains(&address) { 255 } else { 16 };
        for place in 0..if in_data { 12 } else { 1 } {
            let mut record = record_in(&mut tally.dice, phase);
            record[34] = count;
            record[35] = value;
            record[37] = address;
            record[38] = place / 3;
            record[39] = place % 3;
            from_lines(tally, record, most);
        }
    }
}

// Every sample up to one from a record with each state of its lines.
fn from_lines(tally: &mut Tally, mut record: [u8; 64], most: u8) {
    let cs = (record[33] == 0) as u8;
    for others in 0..8 {
        record[32] = 2 * others + cs;
        for sample in 0..=most {
            tally.step(&record, sample);
        }
    }
}

// Frames from every first address, in which nibbles are read, written, or both, so many that they come round to it and go on.
fn long_frames(tally: &mut Tally) {
    for first in 0..64 {
        for (reads, writes) in [(true, false), (false, true), (true, true)] {
            let mut record = record_in(&mut tally.dice, 0).to_vec();
            let mut chip = Model::from_record(&record).expect("a valid record");
            for sample in long_frame(&mut tally.dice, first, reads, writes) {
                record = walk_sample(tally, &mut chip, record, sample);
            }
            walk_pins(tally, &chip, &record);
        }
    }
}

// The samples of such a frame. Where it does both, up to five bits are read before each nibble.
fn long_frame(dice: &mut Dice, first: u16, reads: bool, writes: bool) -> Vec<u8> {
    let mut samples = vec![15, 14];
    samples.extend(sent_number(9, if writes { 5 * 64 } else { 6 * 64 } + first));
    for _ in 0..70 {
        if reads {
            let bits = if writes { dice.below(6) } else { 4 };
            samples.extend([10, 14].repeat(bits));
        }
        if writes {
            samples.extend(sent_number(4, dice.below(16) as u16));
        }
    }
    samples.push(15);
    samples
}

// Writes and reads of every first and count from 0 to 40, huge ones, long
// buffers, and every nibble at every place.
fn spans(tally: &mut Tally) {
    for first in 0..=40 {
        for count in 0..=40 {
            let nibbles = tally.dice.bytes(count, 16);
            tally.write(first, &nibbles, 400);
            tally.read(first, count, 400);
        }
    }
    huge_spans(tally);
    for &len in [64, 255, 256, 257, 288, 512, 65_535, 65_536, 65_537, 65_568].iter() {
        for &first in [
            0,
            1,
            31,
            32,
            usize::MAX,
            usize::MAX - len + 1,
            usize::MAX - len + 33,
        ]
        .iter()
        {
            tally.write(first, &vec![3; len], 300);
            tally.read(first, len, 300);
        }
    }
    for place in 0..32 {
        for nibble in 0..=255 {
            let mut nibbles = tally.dice.bytes(32, 16);
            nibbles[place] = nibble;
            tally.write(0, &nibbles, 277);
        }
    }
}

// Numbers near the ends of 8, 16, 32 and 64 bits.
fn huge_numbers() -> Vec<usize> {
    let mut numbers = vec![usize::MAX / 2, usize::MAX / 2 + 1, usize::MAX / 2 + 2];
    for &width in [8, 16, 31, 32, 33, 48, 63].iter() {
        numbers.extend((0..40).map(|more| (1usize << width) + more));
        numbers.extend((1..40).map(|less| (1usize << width) - less));
    }
    numbers.extend((0..40).map(|less| usize::MAX - less));
    numbers
}

// Writes and reads with huge firsts and counts, also such whose sum wraps.
fn huge_spans(tally: &mut Tally) {
    for &huge in &huge_numbers() {
        for &small in [0, 1, 2, 16, 31, 32, 33].iter() {
            tally.write(huge, &vec![5; small], 300);
            tally.read(huge, small, 300);
            tally.read(small, huge, 300);
            tally.read(huge, usize::MAX - huge + 1 + small, 300);
        }
        tally.read(huge, huge, 300);
    }
}

// For each part, commands of every number from 0 to 40 and many more, and every
// code at every place of a short and a full list; then parts that are none.
fn commands_asked(tally: &mut Tally) {
    for part in [HT, GN] {
        let defined: Vec<u8> = (0..=255).filter(|&code| model::defined(part as u8, code)).collect();
        for count in (0..=40).chain([64, 255, 256, 257, 288, 65_536, 65_537, 65_568].iter().copied()) {
            let codes: Vec<u8> = (0..count).map(|_| tally.dice.pick(&defined)).collect();
            tally.commands(part, &codes, 600);
            tally.commands(1 - part, &codes, 600);
            tally.commands(part, &vec![0x2C; count], 600);
        }
        for &count in [1, 2, 5, 32].iter() {
            for place in 0..count {
                for code in 0..=255 {
                    let mut codes: Vec<u8> = (0..count).map(|_| tally.dice.pick(&defined)).collect();
                    codes[place] = code;
                    tally.commands(part, &codes, 9 + 18 * count);
                    tally.commands(1 - part, &codes, 9 + 18 * count);
                }
            }
        }
    }
    for part in (2..300).chain(huge_numbers()) {
        for codes in [&[1][..], &[0x0A], &[0x0C], &[], &[0x2C], &[1; 33]] {
            tally.commands(part, codes, 27);
            tally.commands(part, codes, 0);
        }
    }
}

// Buffers for output that lack bytes, fit, or have bytes to spare.
fn near(needed: usize) -> Vec<usize> {
    vec![0, 1, needed.saturating_sub(1), needed, needed + 1, needed + 40]
}

// Lists of a length with no fault, and with a fault at the first, a middle and
// the last place and at two places.
fn faulty(len: usize, good: u8, bad: u8) -> Vec<Vec<u8>> {
    let mut lists = vec![vec![good; len]];
    if len > 0 {
        for &(one, two) in [
            (0, 0),
            (len / 2, len / 2),
            (len - 1, len - 1),
            (len / 2, len - 1),
            (0, len - 1),
        ]
        .iter()
        {
            let mut list = vec![good; len];
            list[one] = bad;
            list[two] = bad;
            lists.push(list);
        }
    }
    lists
}

// Inputs that earn several refusals at once, for every call.
fn refusal_orders(tally: &mut Tally) {
    for &count in [0, 1, 2, 27, 28, 31, 32, 33, 64].iter() {
        for &first in [0, 4, 5, 30, 31, 32, 33, usize::MAX].iter() {
            for &out_len in &near(21 + 8 * count) {
                for nibbles in faulty(count, 9, 16).iter().chain(&faulty(count, 15, 255)) {
                    tally.write(first, nibbles, out_len);
                }
                tally.read(first, count, out_len);
            }
        }
        let lists = [(0x2B, 0x2C), (0xE3, 0xFF), (0x0A, 0x0C), (0x0C, 0x0A)].map(|(good, bad)| faulty(count, good, bad));
        for &out_len in &near(9 + 18 * count) {
            for list in lists.iter().flatten() {
                for part in [HT, GN, 2, usize::MAX] {
                    tally.commands(part, list, out_len);
                }
            }
        }
    }
    for &len in [
        0, 1, 2, 3, 4, 5, 8, 31, 32, 33, 63, 64, 127, 128, 129, 130, 132, 256,
    ]
    .iter()
    {
        for &out_len in &near(len / 4) {
            for noted in faulty(len, 1, 2).iter().chain(&faulty(len, 0, 255)) {
                tally.decode(noted, out_len);
            }
        }
        for &out_len in &near(64) {
            for memory in faulty(len, 15, 16).iter().chain(&faulty(len, 0, 255)) {
                for part in [HT, GN, 2, usize::MAX] {
                    tally.power_on(part, memory, out_len);
                }
            }
        }
    }
    malformed_first(tally);
}

// A malformed record goes before a sample above 15 and before a short buffer.
fn malformed_first(tally: &mut Tally) {
    for _ in 0..200 {
        let mut record = random_record(&mut tally.dice).to_vec();
        let place = tally.dice.pick(&[0, 31, 32, 33, 34, 37, 40, 57, 58, 59, 60, 61, 63]);
        for malformed in 0..2 {
            record[place] |= 0x80 * malformed;
            for &sample in [0, 15, 16, 255].iter() {
                tally.step(&record, sample);
            }
            for &out_len in &near(32) {
                tally.pins(&record, out_len);
            }
            tally.advance(&record, 65_535);
        }
    }
}

// The three calls of the simulator on a record.
fn three_calls(tally: &mut Tally, record: &[u8]) {
    let (sample, ticks) = (tally.dice.byte(16), tally.dice.byte(20));
    tally.step(record, sample);
    tally.advance(record, ticks as u16);
    tally.pins(record, 32);
}

// Each byte of many valid records set to every value.
fn record_bytes(tally: &mut Tally) {
    for round in 0..64 {
        let record = record_in(&mut tally.dice, round % 8);
        for index in 0..64 {
            for byte in 0..=255 {
                let mut changed = record;
                changed[index] = byte;
                three_calls(tally, &changed);
            }
        }
    }
}

// Every unfinished count with every value's low byte and some high bytes, every
// phase with every state of the lines and of bytes 37 to 39, and every address.
fn record_pairs(tally: &mut Tally) {
    for phase in 0..8 {
        let mut record = record_in(&mut tally.dice, phase);
        for count in (0..12).chain([15, 16, 31, 32, 33, 64, 128, 255].iter().copied()) {
            for value in 0..=255 {
                for &high in [0, 1, 2, 128, 255].iter() {
                    record[34] = count;
                    record[35] = value;
                    record[36] = high;
                    tally.advance(&record, 0);
                }
            }
        }
        let mut record = record_in(&mut tally.dice, phase);
        for lines in 0..16 {
            for place in 0..168 {
                record[32] = lines;
                record[37] = [0, 1, 31, 32, 63, 64, 255][place % 7];
                record[38] = [0, 1, 2, 3, 4, 255][place / 7 % 6];
                record[39] = (place / 42) as u8;
                tally.advance(&record, 0);
            }
        }
        for _ in 0..16 {
            let mut record = record_in(&mut tally.dice, phase);
            for address in 0..=255 {
                record[37] = address;
                three_calls(tally, &record);
                tally.step(&record, 16);
            }
        }
    }
}

// Each part, and such as are none, with each number of commons, each counter and
// each common, and some beyond them: one tick from the crystal, and all calls.
fn record_scans(tally: &mut Tally) {
    for state in 0..3 * 5 * 7 {
        let (part, commons) = ([0, 1, 2][state % 3], (1 + state / 3 % 5) as u8);
        let common = [0, 1, 2, 3, 4, 5, 255][state / 15];
        for counter in 0..=255 {
            let mut record = random_record(&mut tally.dice);
            (record[40], record[41]) = (1, 0);
            record[44] = commons;
            record[58..61].copy_from_slice(&[part, counter, common]);
            tally.advance(&record, 1);
            three_calls(tally, &record);
            (record[41], record[52]) = (tally.dice.pick(&[1, 2]), tally.dice.pick(&[6, 7]));
            tally.advance(&record, 1);
            record[40] = 0;
            tally.advance(&record, 1);
        }
    }
}

// The same bytes as either part, and as none: with the counter at each value.
fn crossed_records(tally: &mut Tally) {
    for round in 0..32 {
        let mut record = record_in(&mut tally.dice, round % 8);
        for counter in 0..=255 {
            record[59] = counter;
            for part in [0, 1, 2, 3, 255] {
                record[58] = part;
                three_calls(tally, &record);
            }
        }
        for part in 0..=255 {
            record[58] = part;
            record[59] = tally.dice.pick(&[0, 95, 96, 127, 128]);
            three_calls(tally, &record);
        }
    }
}

// Every command that sets the commons, 2C and 2D beside them, and others, from each
// part, number of commons and common, with the counter at 0, at its end and within.
fn scans_begun(tally: &mut Tally) {
    for (part, commons) in [(0, 2), (0, 3), (0, 4), (1, 2), (1, 3), (1, 4)] {
        for common in 0..commons {
            for counter in [0, 1, 50, last_counter(part)] {
                let mut record = record_in(&mut tally.dice, 0);
                record[44] = commons;
                record[58..61].copy_from_slice(&[part, counter, common]);
                let frame = fed(tally, &record, &[14, 12, 14, 4, 6, 4, 6]).1;
                for code in (0x20..=0x2F).chain([0x00, 0x01, 0x02, 0x03, 0x0A, 0x0C, 0x0E, 0x14, 0x18, 0x1C]) {
                    let (_, after) = fed(tally, &frame, &sent_number(9, 2 * code));
                    let due = if (0x20..=0x2B).contains(&code) { [0, 0] } else { [counter, common] };
                    tally.same((0, due.to_vec()), (0, after[59..61].to_vec()), &|| {
                        format!("bytes 59 and 60 after {:02x} of record={}", code, hex(&frame))
                    });
                }
            }
        }
    }
}

// Records of every length from 0 to 130.
fn record_lengths(tally: &mut Tally) {
    for round in 0..16 {
        let record = record_in(&mut tally.dice, round % 8);
        for len in 0..=130 {
            let mut cut = record.to_vec();
            cut.resize(len, 0);
            three_calls(tally, &cut);
            tally.step(&cut, 16);
            tally.pins(&cut, 31);
        }
    }
}

// Buffers for output of every length up to past the needed one.
fn output_lengths(tally: &mut Tally) {
    for count in 1..=32 {
        let nibbles = tally.dice.bytes(count, 16);
        for out_len in 0..=21 + 8 * count + 9 {
            tally.write(32 - count, &nibbles, out_len);
            tally.read(32 - count, count, out_len);
        }
        let codes = vec![0x88; count];
        for out_len in 0..=9 + 18 * count + 19 {
            tally.commands(count % 2, &codes, out_len);
        }
        let noted = tally.dice.bytes(4 * count, 2);
        for out_len in 0..=count + 5 {
            tally.decode(&noted, out_len);
        }
    }
    for round in 0..16 {
        let record = record_in(&mut tally.dice, round % 8);
        for out_len in 0..=130 {
            tally.pins(&record, out_len);
            tally.power_on(HT, &record[..32], out_len);
            tally.power_on(GN, &record[..32], out_len);
        }
    }
}

// Noted bytes of every length from 0 to 140 and many more, and bad bytes at
// every place.
fn decodings(tally: &mut Tally) {
    for len in (0..=140).chain([255, 256, 260, 384, 512, 65_536, 65_540, 65_664].iter().copied()) {
        for _ in 0..8 {
            let noted = tally.dice.bytes(len, 2);
            tally.decode(&noted, 40);
        }
    }
    for len in 0..=140 {
        for place in 0..len {
            for &bad in [2, 3, 16, 128, 254, 255].iter() {
                let mut noted = tally.dice.bytes(len, 2);
                noted[place] = bad;
                tally.decode(&noted, 40);
                noted[len - 1] = 7;
                tally.decode(&noted, 0);
            }
        }
    }
    for four in 0..16u8 {
        tally.decode(&[four & 1, four >> 1 & 1, four >> 2 & 1, four >> 3], 1);
    }
    for byte in 0..=255 {
        tally.decode(&[0, 1, byte, 1], 1);
    }
}

// For each part, memories of every length from 0 to 130, and every value at every
// place; then parts that are none.
fn power_ons(tally: &mut Tally) {
    for part in [HT, GN] {
        for len in (0..=130).chain([256, 288, 65_536, 65_568].iter().copied()) {
            let memory = tally.dice.bytes(len, 16);
            tally.power_on(part, &memory, 64);
            tally.power_on(part, &vec![16; len], 64);
        }
        for place in 0..32 {
            for value in 0..=255 {
                let mut memory = tally.dice.bytes(32, 16);
                memory[place] = value;
                tally.power_on(part, &memory, 64);
                memory[31] = 99;
                tally.power_on(part, &memory, 64);
            }
        }
    }
    for part in (2..300).chain(huge_numbers()) {
        for memory in [&[7; 32][..], &[], &[16; 32], &[16; 31]] {
            tally.power_on(part, memory, 64);
            tally.power_on(part, memory, 63);
        }
    }
}

// Advances by edge numbers of ticks at every rate and clock of each part, and by
// single ticks.
fn advances(tally: &mut Tally) {
    let edges = [
        0, 1, 2, 7, 8, 9, 15, 16, 17, 63, 64, 95, 96, 97, 127, 128, 129, 192, 255, 256, 288, 383, 384, 385, 511,
        512, 767, 768, 769, 1023, 1024, 1025, 3071, 3072, 4096, 8191, 8192, 32_767, 32_768, 65_534, 65_535,
    ];
    for kind in 0..192 {
        for _ in 0..4 {
            let mut record = random_record(&mut tally.dice);
            record[40] = kind & 1;
            record[41] = kind / 2 % 3;
            record[48] = kind / 6 % 8;
            record[49] = kind / 48 % 2;
            set_scan(&mut tally.dice, &mut record, kind / 96);
            for &ticks in edges.iter() {
                let advanced = tally.advance(&record, ticks).1;
                tally.pins(&advanced, 32);
            }
            single_ticks(tally, record);
        }
    }
}

// So many single ticks come to the same as one advance.
fn single_ticks(tally: &mut Tally, record: [u8; 64]) {
    let ticks = tally.dice.below(3000) as u16;
    let mut one_by_one = record.to_vec();
    for _ in 0..ticks {
        one_by_one = lent::advance(&one_by_one, 1).1;
    }
    let at_once = lent::advance(&record, ticks);
    tally.same((0, one_by_one), at_once, &|| {
        format!("advance record={} n={}", hex(&record), ticks)
    });
}

// Advances by every number of ticks, from three random records of each source, rate,
// part and number of commons; two of them run with the time base on, one of these
// with the flag clear.
fn every_number_of_ticks(tally: &mut Tally) {
    for kind in 0..3 * 144 {
        let mut record = random_record(&mut tally.dice);
        record[41] = (kind % 3) as u8;
        record[48] = (kind / 3 % 8) as u8;
        record[44] = (2 + kind / 24 % 3) as u8;
        set_scan(&mut tally.dice, &mut record, (kind / 72 % 2) as u8);
        if kind < 2 * 144 {
            record[40] = 1;
            record[49] = 1;
        }
        if kind < 144 {
            record[51] = 0;
        }
        advances_from(tally, &record);
    }
}

// Each advance from a record is held to the model, which ticks once between two of
// them.
fn advances_from(tally: &mut Tally, record: &[u8; 64]) {
    let mut chip = Model::from_record(record).expect("a valid record");
    for ticks in 0..=u16::MAX {
        let got = lent::advance(record, ticks);
        tally.same((0, chip.record().to_vec()), got, &|| {
            format!("advance record={} n={}", hex(record), ticks)
        });
        chip.tick();
    }
}

// The least time that a hundred advances by so many ticks take.
fn time_of(record: &[u8], ticks: u16) -> Duration {
    let hundred = |_| {
        let start = Instant::now();
        (0..100).for_each(|_| drop(lent::advance(record, ticks)));
        start.elapsed()
    };
    (0..50).map(hundred).min().expect("fifty times")
}

// An advance by 65,535 ticks takes no longer than by one: eight times as long at most,
// as machines waver. A walk through them would take hundreds of times as long.
fn cost_of_ticks(tally: &mut Tally) {
    for source in 0..3 {
        let mut record = tally.power_on(HT, &[0; 32], 64).1;
        record[40] = 1;
        record[41] = source;
        record[49] = 1;
        let (one, many) = (time_of(&record, 1), time_of(&record, u16::MAX));
        tally.equal(1, (many < 8 * one) as u32, &|| {
            format!("advance record={} by 1 takes {:?}, by 65535 {:?}", hex(&record), one, many)
        });
    }
}

/// The samples still to come in a walk, last one first.
struct Plan {
    samples: Vec<u8>,
}

impl Plan {
    // A frame of a random kind, often disturbed and sometimes cut short.
    fn frame(dice: &mut Dice) -> Plan {
        let mut plan = Plan {
            samples: vec![
                2 * dice.byte(8) + 1,
                dice.pick(&[14, 14, 14, 0, 2, 4, 6, 8, 10, 12]),
            ],
        };
        match dice.below(9) {
            0 | 1 => plan.read_frame(dice),
            2 | 3 | 4 => plan.write_frame(dice),
            5 | 6 => plan.command_frame(dice),
            7 => plan.dead_frame(dice),
            _ => plan.noise(dice),
        }
        if dice.once_in(5) {
            let keep = dice.below(plan.samples.len()) + 1;
            plan.samples.truncate(keep);
        }
        plan.samples.reverse();
        plan
    }

    // Sends a bit.
    fn send(&mut self, dice: &mut Dice, bit: u8) {
        self.samples.extend_from_slice(&sent(bit));
        self.disturb(dice);
    }

    // Sends a number's bits, first bit highest.
    fn send_number(&mut self, dice: &mut Dice, width: u8, number: u16) {
        for place in (0..width).rev() {
            self.send(dice, (number >> place & 1) as u8);
        }
    }

    // Reads a bit.
    fn read(&mut self, dice: &mut Dice) {
        self.samples.extend_from_slice(&[10, 14]);
        self.disturb(dice);
    }

    // Now and then a sample that does not belong here.
    fn disturb(&mut self, dice: &mut Dice) {
        if dice.once_in(40) {
            self.samples.push(2 * dice.byte(8));
        }
        if dice.once_in(400) {
            self.samples.push(dice.byte(16));
        }
        if dice.once_in(200) {
            self.samples.push(16 + dice.byte(240));
        }
        if dice.once_in(60) {
            self.samples.extend_from_slice(&[4, 2, 14]);
        }
    }

    // An ID and a random address.
    fn head(&mut self, dice: &mut Dice, id: u16) {
        self.send_number(dice, 3, id);
        let address = dice.below(64) as u16;
        self.send_number(dice, 6, address);
    }

    // A read frame, sometimes with stray WR rises.
    fn read_frame(&mut self, dice: &mut Dice) {
        self.head(dice, 6);
        for _ in 0..dice.pick(&[3, 9, 40, 160, 300]) {
            if dice.once_in(20) {
                self.send(dice, 1);
            }
            self.read(dice);
        }
    }

    // A write frame, with bits read in between.
    fn write_frame(&mut self, dice: &mut Dice) {
        self.head(dice, 5);
        for _ in 0..dice.pick(&[2, 6, 20, 160, 300]) {
            if dice.once_in(3) {
                for _ in 0..dice.below(7) {
                    self.read(dice);
                }
            }
            let bit = dice.byte(2);
            self.send(dice, bit);
        }
    }

    // A command frame, most of its codes defined.
    fn command_frame(&mut self, dice: &mut Dice) {
        self.send_number(dice, 3, 4);
        for _ in 0..=dice.below(8) {
            let mut code = dice.byte(256);
            if !model::defined(0, code) || dice.once_in(2) {
                code = dice.pick(&[
                    0, 1, 1, 2, 3, 4, 5, 6, 7, 8, 9, 10, 11, 12, 13, 14, 0x15, 0x19, 0x1D, 0x20, 0x25, 0x2A, 0x88, 0xA6,
                    0xB7, 0xFF,
                ]);
            }
            let ninth = dice.byte(2) as u16;
            self.send_number(dice, 9, 2 * code as u16 + ninth);
            if dice.once_in(10) {
                self.read(dice);
            }
        }
    }

    // A frame with an unknown ID.
    fn dead_frame(&mut self, dice: &mut Dice) {
        let id = dice.pick(&[0, 1, 2, 3, 7]);
        self.send_number(dice, 3, id);
        for _ in 0..dice.below(12) {
            self.read(dice);
            self.send(dice, 1);
        }
    }

    // Samples at random, CS mostly low.
    fn noise(&mut self, dice: &mut Dice) {
        for _ in 0..dice.below(200) {
            let sample = dice.byte(16);
            self.samples
                .push(if dice.once_in(30) { sample } else { sample & 14 });
        }
    }
}

// A number of ticks for a walk, mostly small.
fn some_ticks(dice: &mut Dice) -> u16 {
    match dice.below(64) {
        0 => dice.below(65_536) as u16,
        1..=6 => dice.below(1100) as u16,
        _ => dice.below(17) as u16,
    }
}

// Walks of so many samples, of chips of either part: the model goes on living from
// sample to sample while the library has only the record.
fn walks(tally: &mut Tally, samples: u64) {
    let mut record = random_record(&mut tally.dice).to_vec();
    let mut chip = Model::from_record(&record).expect("a valid record");
    let mut plan = Plan::frame(&mut tally.dice);
    for number in 0..samples {
        if plan.samples.is_empty() {
            plan = Plan::frame(&mut tally.dice);
            if tally.dice.once_in(16) {
                record = random_record(&mut tally.dice).to_vec();
                chip = Model::from_record(&record).expect("a valid record");
            }
        }
        if tally.dice.once_in(8) {
            record = walk_ticks(tally, &mut chip, record);
        }
        let sample = plan.samples.pop().unwrap_or(15);
        record = walk_sample(tally, &mut chip, record, sample);
        if number % 16 == 0 {
            walk_pins(tally, &chip, &record);
        }
    }
}

// Ticks of a walk.
fn walk_ticks(tally: &mut Tally, chip: &mut Model, record: Vec<u8>) -> Vec<u8> {
    let ticks = some_ticks(&mut tally.dice);
    chip.advance(ticks);
    let got = lent::advance(&record, ticks);
    tally.same((0, chip.record().to_vec()), got.clone(), &|| {
        format!("advance record={} n={}", hex(&record), ticks)
    });
    got.1
}

// A sample of a walk.
fn walk_sample(tally: &mut Tally, chip: &mut Model, record: Vec<u8>, sample: u8) -> Vec<u8> {
    let number = match chip.sample(sample) {
        Ok(answer) => answer_number(answer),
        Err(refusal) => refusal as u32,
    };
    let got = lent::step(&record, sample);
    let due = (number, chip.record().to_vec());
    tally.same(due, got.clone(), &|| {
        format!("step record={} sample={}", hex(&record), sample)
    });
    got.1
}

// The pins of a walk.
fn walk_pins(tally: &mut Tally, chip: &Model, record: &[u8]) {
    let (sum, cells) = chip.pins();
    let got = lent::pins(record, 32);
    tally.same((sum, cells.to_vec()), got, &|| {
        format!("pins record={} out_len=32", hex(record))
    });
}

/// A chip that calls have brought from one record to another.
#[derive(Clone)]
struct Journey {
    from: Vec<u8>,
    calls: Vec<Call>,
    now: Vec<u8>,
}

/// A call of a journey.
#[derive(Clone, Copy)]
enum Call {
    Step(u8),
    Advance(u16),
}

impl Journey {
    // A journey that starts at a record.
    fn from(record: &[u8]) -> Journey {
        Journey {
            from: record.to_vec(),
            calls: Vec::new(),
            now: record.to_vec(),
        }
    }

    // Steps with a sample and gives the answer.
    fn step(&mut self, sample: u8) -> u32 {
        self.calls.push(Call::Step(sample));
        let (answer, after) = lent::step(&self.now, sample);
        self.now = after;
        answer
    }

    // Advances by ticks.
    fn advance(&mut self, ticks: u16) {
        self.calls.push(Call::Advance(ticks));
        self.now = lent::advance(&self.now, ticks).1;
    }

    // The journey's ticks alone, from where it started.
    fn ticks_alone(&self) -> Journey {
        let mut twin = Journey::from(&self.from);
        for call in &self.calls {
            if let Call::Advance(ticks) = *call {
                twin.advance(ticks);
            }
        }
        twin
    }

    // The journey as words: where it started, and its samples and +ticks.
    fn told(&self) -> String {
        let calls: Vec<String> = self.calls.iter().map(|call| call.told()).collect();
        format!("record={} calls={}", hex(&self.from), calls.join(","))
    }
}

impl Call {
    // A call as a word.
    fn told(&self) -> String {
        match *self {
            Call::Step(sample) => format!("{}", sample),
            Call::Advance(ticks) => format!("+{}", ticks),
        }
    }
}

/// A write asked for, and the stream that the host made of it.
struct Request {
    first: usize,
    nibbles: Vec<u8>,
    stream: Vec<u8>,
}

impl Request {
    // A random write and its stream, which has 21 + 8N samples.
    fn random(tally: &mut Tally) -> Request {
        let first = tally.dice.below(32);
        let most = tally.dice.pick(&[1, 3, 6, 12, 32]);
        let count = 1 + tally.dice.below(std::cmp::min(most, 32 - first));
        let nibbles = tally.dice.bytes(count, 16);
        let needed = 21 + 8 * count;
        let (written, stream) = lent::write(first, &nibbles, needed);
        tally.equal(needed as u32, written, &|| {
            format!("ht1621_write first={} nibbles={}", first, hex(&nibbles))
        });
        Request {
            first,
            nibbles,
            stream,
        }
    }

    // How many nibbles are complete after so many samples.
    fn complete(&self, samples: usize) -> usize {
        (1..=self.nibbles.len()).filter(|i| 20 + 8 * i <= samples).count()
    }

    // The memory due after so many samples on a memory.
    fn memory_due(&self, before: &[u8], samples: usize) -> Vec<u8> {
        let complete = self.complete(samples);
        let mut memory = before[..32].to_vec();
        memory[self.first..self.first + complete].copy_from_slice(&self.nibbles[..complete]);
        memory
    }

    // The answer due to a sample after the first, counted from 1.
    fn answer_due(&self, number: usize) -> u32 {
        if number == 2 {
            return 1;
        }
        if number == self.stream.len() {
            return 2;
        }
        if number >= 28 && (number - 20) % 8 == 0 {
            let index = (number - 20) / 8 - 1;
            return 5 + 256 * (self.first + index) as u32 + 65_536 * self.nibbles[index] as u32;
        }
        if number % 2 == 0 {
            4
        } else {
            0
        }
    }

    // Sends the first samples of the stream with random ticks in between.
    fn send(&self, tally: &mut Tally, chip: &mut Journey, samples: usize) {
        for number in 1..=samples {
            if tally.dice.once_in(6) {
                chip.advance(some_ticks(&mut tally.dice));
            }
            let answer = chip.step(self.stream[number - 1]);
            if number > 1 {
                tally.equal(self.answer_due(number), answer, &|| {
                    format!("last answer from {}", chip.told())
                });
            }
        }
    }

    // Checks the memory that so many samples of the stream leave of an earlier one.
    fn check(&self, tally: &mut Tally, before: &[u8], samples: usize, chip: &Journey) {
        let due = self.memory_due(before, samples);
        let memory = chip.now[..32].to_vec();
        tally.same((0, due), (0, memory), &|| {
            let nibbles = hex(&self.nibbles);
            format!(
                "memory in a write first={} nibbles={} from {}",
                self.first,
                nibbles,
                chip.told()
            )
        });
    }

    // Stops the write after so many samples, sends it again and reads it back.
    fn interrupt(&self, tally: &mut Tally, before: &[u8], samples: usize) {
        let mut chip = Journey::from(before);
        self.send(tally, &mut chip, samples);
        self.check(tally, before, samples, &chip);
        let (twin, now) = (chip.ticks_alone(), &chip.now[40..]);
        tally.same((0, twin.now[40..].to_vec()), (0, now.to_vec()), &|| {
            format!("settings and counters in a write from {}", chip.told())
        });
        let mut closed = chip.clone();
        closed.step(15);
        self.check(tally, before, samples, &closed);
        self.send(tally, &mut chip, self.stream.len());
        self.check(tally, before, self.stream.len(), &chip);
        read_back(tally, &chip.now, self.first, &self.nibbles);
        if samples % 8 == 0 {
            read_back(tally, &chip.now, 0, &self.memory_due(before, self.stream.len()));
        }
    }
}

// Reads nibbles back: the host's stream, DATA noted at each 14 that raises RD,
// and the host's decoding.
fn read_back(tally: &mut Tally, record: &[u8], first: usize, nibbles: &[u8]) {
    let stream = tally.read(first, nibbles.len(), 21 + 8 * nibbles.len()).1;
    let mut chip = Journey::from(record);
    let mut noted = Vec::new();
    for &sample in &stream {
        let raises = sample == 14 && chip.now[32] & 4 == 0;
        chip.step(sample);
        if raises {
            noted.push(noted_bit(lent::pins(&chip.now, 32).0));
        }
    }
    let got = lent::decode(&noted, nibbles.len());
    tally.same((nibbles.len() as u32, nibbles.to_vec()), got, &|| {
        format!(
            "ht1621_decode noted={} out_len={} noted from {}",
            hex(&noted),
            nibbles.len(),
            chip.told()
        )
    });
}

// What a host notes of DATA: 9 where the chip does not drive it.
fn noted_bit(pins: u32) -> u8 {
    match pins / 8 {
        1 => 0,
        2 => 1,
        _ => 9,
    }
}

// Writes into random valid chips, stopped after every number of samples.
fn interrupted_writes(tally: &mut Tally) {
    for _ in 0..150 {
        let before = random_record(&mut tally.dice);
        let request = Request::random(tally);
        for samples in 0..=request.stream.len() {
            request.interrupt(tally, &before, samples);
        }
    }
}

/// What the program was asked on its command line.
struct Asked {
    samples: u64,
    seed: u64,
    only: Option<String>,
}

impl Asked {
    // Takes one option; false where it is none or its value is not a number.
    fn take(&mut self, option: &str, value: String) -> bool {
        match (option, value.parse()) {
            ("--samples", Ok(number)) => self.samples = number,
            ("--seed", Ok(number)) => self.seed = number,
            ("--only", _) => self.only = Some(value),
            _ => return false,
        }
        true
    }
}

// Reads the command line; None where it is not understood.
fn asked() -> Option<Asked> {
    let mut asked = Asked {
        samples: 5_000_000,
        seed: 1621,
        only: None,
    };
    let mut words = std::env::args().skip(1);
    while let Some(option) = words.next() {
        if !asked.take(&option, words.next()?) {
            return None;
        }
    }
    Some(asked)
}

// Runs one check from the seed and prints its count.
fn run(name: &str, seed: u64, check: &dyn Fn(&mut Tally)) -> u64 {
    let mut tally = Tally {
        count: 0,
        dice: Dice::seeded(seed),
    };
    check(&mut tally);
    println!("{}: {}", name, tally.count);
    tally.count
}

// Runs every check, or the one asked for.
fn main() {
    let Some(asked) = asked() else {
        eprintln!("usage: compare [--samples N] [--seed N] [--only CHECK]");
        std::process::exit(2);
    };
    println!("seed {}, samples {}", asked.seed, asked.samples);
    let walk = |tally: &mut Tally| walks(tally, asked.samples);
    let checks: [(&str, &dyn Fn(&mut Tally)); 21] = [
        ("cases of the rules", &cases_of_the_rules),
        ("codes", &codes),
        ("every sample", &every_sample),
        ("long frames", &long_frames),
        ("spans", &spans),
        ("commands asked", &commands_asked),
        ("refusal orders", &refusal_orders),
        ("record bytes", &record_bytes),
        ("record pairs", &record_pairs),
        ("record scans", &record_scans),
        ("crossed records", &crossed_records),
        ("scans begun", &scans_begun),
        ("record lengths", &record_lengths),
        ("output lengths", &output_lengths),
        ("decodings", &decodings),
        ("power-ons", &power_ons),
        ("advances", &advances),
        ("every number of ticks", &every_number_of_ticks),
        ("cost of ticks", &cost_of_ticks),
        ("walks", &walk),
        ("interrupted writes", &interrupted_writes),
    ];
    let wanted = |name: &str| asked.only.as_ref().map_or(true, |only| only == name);
    if !checks.iter().any(|&(name, _)| wanted(name)) {
        eprintln!("no such check");
        std::process::exit(2);
    }
    let chosen = checks.iter().filter(|&&(name, _)| wanted(name));
    let total: u64 = chosen.map(|&(name, check)| run(name, asked.seed, check)).sum();
    println!("compare: {} checks, 0 wrong", total);
}
