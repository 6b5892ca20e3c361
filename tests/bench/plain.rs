// The same as plain.c in plain Rust: safe, in place on the 64-byte record, with the checks and refusals of the libraries.
use std::io::Write;

type Record = [u8; 64];

const LINES: usize = 32;
const PHASE: usize = 33;
const COUNT: usize = 34;
const VALUE: usize = 35;
const ADDRESS: usize = 37;
const POSITION: usize = 38;
const DATA: usize = 39;
const SYSTEM: usize = 40;
const SOURCE: usize = 41;
const LCD: usize = 42;
const BIAS: usize = 43;
const COMMONS: usize = 44;
const TONE: usize = 45;
const PITCH: usize = 46;
const IRQ: usize = 47;
const RATE: usize = 48;
const BASE: usize = 49;
const IRQ_SOURCE: usize = 50;
const FLAG: usize = 51;
const P: usize = 52;
const Q: usize = 53;
const D: usize = 54;
const B: usize = 55;
const W: usize = 56;
const TEST: usize = 57;
const PART: usize = 58;
const SCAN: usize = 59;
const COMMON: usize = 60;

// A frame's addresses, and those of them that the memory has.
const ADDRESSES: u8 = 64;
const HELD: u8 = 32;

// ---- the record ----

const MOST: Record = [
    15, 15, 15, 15, 15, 15, 15, 15, 15, 15, 15, 15, 15, 15, 15, 15, 15, 15, 15, 15, 15, 15, 15, 15, 15, 15, 15, 15, 15,
    15, 15, 15, 15, 7, 8, 255, 255, 63, 3, 2, 1, 2, 1, 3, 4, 1, 4, 1, 7, 1, 2, 1, 7, 15, 127, 255, 3, 1, 1, 127, 3, 0,
    0, 0,
];

// How many base ticks a common is scanned.
const HT_SCANNED: u32 = 128;
const GN_SCANNED: u32 = 96;

fn scanned(part: u8) -> u32 {
    if part == 0 {
        HT_SCANNED
    } else {
        GN_SCANNED
    }
}

fn value_in(r: &Record) -> u16 {
    u16::from_le_bytes([r[VALUE], r[VALUE + 1]])
}

fn valid(r: &Record) -> bool {
    let in_range = r.iter().zip(&MOST).all(|(byte, most)| byte <= most);
    if !in_range || r[BIAS] < 2 || r[COMMONS] < 2 || !matches!(r[PITCH], 2 | 4) {
        return false;
    }
    if r[SCAN] as u32 >= scanned(r[PART]) || r[COMMON] >= r[COMMONS] {
        return false;
    }
    if (r[PHASE] == 0) != (r[LINES] % 2 == 1) {
        return false;
    }
    let most_bits = [0, 2, 5, 5, 0, 3, 8, 0][r[PHASE] as usize];
    if r[COUNT] > most_bits || value_in(r) >> r[COUNT] != 0 {
        return false;
    }
    matches!(r[PHASE], 4 | 5) || r[ADDRESS..=DATA] == [0, 0, 0]
}

// ---- commands ----

fn defined(part: u8, code: u8) -> bool {
    match code {
        0x0a | 0x0b => part == 1,
        0x0c | 0x0d => part == 0,
        _ => matches!(code, 0x00..=0x0f | 0x14..=0x2b | 0x40..=0xbf | 0xe0 | 0xe3),
    }
}

fn obey(r: &mut Record, code: u8) -> u32 {
    if !defined(r[PART], code) {
        return answer(7, code, 0);
    }
    match code {
        0x00 if r[SOURCE] == 2 => {}
        0x00 => (r[SYSTEM], r[LCD]) = (0, 0),
        0x01 => r[SYSTEM] = 1,
        0x02 | 0x03 => r[LCD] = code % 2,
        0x04 if r[IRQ_SOURCE] == 1 => r[IRQ_SOURCE] = 0,
        0x04 => {}
        0x05 => {
            r[BASE] = 0;
            if r[IRQ_SOURCE] == 2 {
                r[IRQ_SOURCE] = 0;
            }
        }
        0x06 | 0x07 => (r[BASE], r[IRQ_SOURCE]) = (1, code - 5),
        0x08 | 0x09 => r[TONE] = code % 2,
        0x0a..=0x0d => (r[D], r[B]) = (0, 0),
        0x0e | 0x0f => (r[D], r[B], r[W], r[FLAG]) = (0, 0, 0, 0),
        0x14..=0x1f => r[SOURCE] = (code - 0x14) / 4,
        0x20..=0x2b => (r[BIAS], r[COMMONS], r[SCAN], r[COMMON]) = (2 + code % 2, 2 + code / 4 % 4, 0, 0),
        0x40..=0x5f => r[PITCH] = 4,
        0x60..=0x7f => r[PITCH] = 2,
        0x80..=0x87 | 0x90..=0x97 => (r[IRQ], r[FLAG]) = (0, 0),
        0x88..=0x9f => r[IRQ] = 1,
        0xa0..=0xbf => r[RATE] = code % 8,
        _ => r[TEST] = (code == 0xe0) as u8,
    }
    answer(6, code, 0)
}

// ---- samples ----

fn answer(number: u8, first: u8, second: u8) -> u32 {
    u32::from_le_bytes([number, first, second, 0])
}

fn set_bits(r: &mut Record, count: u8, value: u16) {
    r[COUNT] = count;
    r[VALUE..VALUE + 2].copy_from_slice(&value.to_le_bytes());
}

fn identify(r: &mut Record, id: u16) -> u32 {
    r[PHASE] = match id {
        6 => 2,
        5 => 3,
        4 => 6,
        _ => 7,
    };
    if r[PHASE] == 7 {
        10
    } else {
        4
    }
}

fn store(r: &mut Record, value: u16) -> u32 {
    let address = r[ADDRESS] % ADDRESSES;
    let nibble = (value as u8).reverse_bits() >> 4; // D0 came first
    if address < HELD {
        r[address as usize] = nibble;
    }
    r[ADDRESS] = (address + 1) % ADDRESSES;
    r[POSITION] = 0;
    answer(5, address, nibble)
}

fn take_bit(r: &mut Record, bit: u16) -> u32 {
    let (phase, count, value) = (r[PHASE], r[COUNT] + 1, 2 * value_in(r) + bit);
    let whole = match phase {
        1 => 3,
        2 | 3 => 6,
        5 => 4,
        6 => 9,
        _ => return 9,
    };
    r[DATA] = 0;
    if count < whole {
        set_bits(r, count, value);
        return 4;
    }
    set_bits(r, 0, 0);
    match phase {
        1 => identify(r, value),
        5 => store(r, value),
        6 => obey(r, (value / 2) as u8),
        _ => {
            r[PHASE] = phase + 2;
            r[ADDRESS] = value as u8;
            4
        }
    }
}

fn offer_bit(r: &mut Record) -> u32 {
    if !matches!(r[PHASE], 4 | 5) {
        return 9;
    }
    let (address, position) = (r[ADDRESS] % ADDRESSES, r[POSITION] % 4);
    let bit = if address < HELD { r[address as usize] >> position & 1 } else { 0 };
    r[DATA] = 1 + bit;
    r[POSITION] = (position + 1) % 4;
    if r[PHASE] == 4 && position == 3 {
        r[ADDRESS] = (address + 1) % ADDRESSES;
    }
    answer(8, address, bit)
}

// A sample to 15 and a valid record.
fn sampled(r: &mut Record, sample: u8) -> u32 {
    let before = r[LINES];
    r[LINES] = sample;
    match (before & 1, sample & 1) {
        (1, 1) => return 0,
        (0, 1) => {
            let unfinished = r[COUNT];
            r[PHASE..=DATA].fill(0);
            return if unfinished == 0 { 2 } else { 3 };
        }
        (1, _) => {
            r[PHASE] = 1;
            return 1;
        }
        _ => {}
    }
    let (rise, fall) = (!before & sample & 2 != 0, before & !sample & 4 != 0);
    match (rise, fall) {
        (true, true) => 11,
        (true, false) => take_bit(r, (sample >> 3) as u16),
        (false, true) => offer_bit(r),
        (false, false) => 0,
    }
}

pub fn step(record: &mut [u8], sample: u8) -> u32 {
    match <&mut Record>::try_from(record) {
        Ok(r) if valid(r) => {
            if sample > 15 {
                return 20;
            }
            sampled(r, sample)
        }
        _ => 28,
    }
}

// ---- ticks and pins ----

fn running(r: &Record) -> bool {
    r[SYSTEM] == 1 || r[SOURCE] == 2
}

// Steps a counter that stands below its size, and returns how often it came back to 0. Where the size is a constant so is the divisor.
#[inline]
fn turn(counter: &mut u8, size: u32, steps: u32) -> u32 {
    let sum = *counter as u32 + steps;
    *counter = (sum % size) as u8;
    sum / size
}

fn scan(r: &mut Record, base_ticks: u32) {
    let rounds = if r[PART] == 0 {
        turn(&mut r[SCAN], HT_SCANNED, base_ticks)
    } else {
        turn(&mut r[SCAN], GN_SCANNED, base_ticks)
    };
    match r[COMMONS] {
        2 => turn(&mut r[COMMON], 2, rounds),
        3 => turn(&mut r[COMMON], 3, rounds),
        _ => turn(&mut r[COMMON], 4, rounds),
    };
}

// So many ticks while running.
fn run(r: &mut Record, ticks: u32) {
    let base_ticks = if r[SOURCE] == 0 { ticks } else { turn(&mut r[P], 8, ticks) };
    turn(&mut r[Q], 16, base_ticks);
    scan(r, base_ticks);
    if r[BASE] == 0 {
        return;
    }
    let (shift, d) = (7 - r[RATE] % 8, r[D] as u32);
    let turns = ((d + base_ticks) >> shift) - (d >> shift);
    turn(&mut r[D], 128, base_ticks);
    let rounds = turn(&mut r[B], 256, turns);
    if turn(&mut r[W], 4, rounds) > 0 {
        r[FLAG] = 1;
    }
}

pub fn advance(record: &mut [u8], ticks: u16) -> u32 {
    match <&mut Record>::try_from(record) {
        Ok(r) if valid(r) => {
            if running(r) {
                run(r, ticks as u32);
            }
            0
        }
        _ => 28,
    }
}

pub fn pins(record: &[u8], cells: &mut [u8]) -> u32 {
    let r = match <&Record>::try_from(record) {
        Ok(r) if valid(r) => r,
        _ => return 28,
    };
    let Some(cells) = cells.get_mut(..32) else {
        return 25;
    };
    let irq = r[IRQ] == 1 && (r[IRQ_SOURCE] == 2 && r[FLAG] == 1 || r[IRQ_SOURCE] == 1 && r[B] >= 128);
    let sounds = running(r) && r[TONE] == 1;
    let high = if r[PITCH] == 4 { r[Q] % 8 >= 4 } else { r[Q] >= 8 };
    let mask = if running(r) && r[LCD] == 1 { (1 << r[COMMONS]) - 1 } else { 0 };
    for (cell, nibble) in cells.iter_mut().zip(r) {
        *cell = nibble & mask;
    }
    irq as u32 + 2 * (sounds && high) as u32 + 4 * (sounds && !high) as u32 + 8 * r[DATA] as u32
}

// ---- the host's side ----

fn refused(number: u32, place: usize) -> u32 {
    (1 << 31) + 256 * place as u32 + number
}

// A stream in a buffer that is long enough for it.
struct Stream<'a> {
    out: &'a mut [u8],
    at: usize,
}

impl Stream<'_> {
    fn put(&mut self, samples: &[u8]) {
        self.out[self.at..][..samples.len()].copy_from_slice(samples);
        self.at += samples.len();
    }

    // The lowest `count` bits of a value, the highest of them first.
    fn put_bits(&mut self, value: usize, count: u32) {
        for place in (0..count).rev() {
            let data = 8 * (value >> place & 1) as u8;
            self.put(&[4 + data, 6 + data]);
        }
    }

    fn opened(out: &mut [u8], id: usize) -> Stream<'_> {
        let mut stream = Stream { out, at: 0 };
        stream.put(&[15, 14]);
        stream.put_bits(id, 3);
        stream
    }

    fn closed(mut self) -> u32 {
        self.put(&[15]);
        self.at as u32
    }
}

pub fn write(first: usize, nibbles: &[u8], out: &mut [u8]) -> u32 {
    if nibbles.is_empty() {
        return refused(21, 0);
    }
    if first > 31 {
        return refused(22, 0);
    }
    if nibbles.len() > 32 - first {
        return refused(30, 0);
    }
    if let Some(place) = nibbles.iter().position(|&nibble| nibble > 15) {
        return refused(23, place);
    }
    if out.len() < 21 + 8 * nibbles.len() {
        return refused(25, 0);
    }
    let mut stream = Stream::opened(out, 5);
    stream.put_bits(first, 6);
    for &nibble in nibbles {
        (0..4).for_each(|place| stream.put_bits(nibble as usize >> place, 1));
    }
    stream.closed()
}

pub fn read(first: usize, count: usize, out: &mut [u8]) -> u32 {
    if count == 0 {
        return refused(21, 0);
    }
    if first > 31 {
        return refused(22, 0);
    }
    if count > 32 - first {
        return refused(30, 0);
    }
    if out.len() < 21 + 8 * count {
        return refused(25, 0);
    }
    let mut stream = Stream::opened(out, 6);
    stream.put_bits(first, 6);
    for _ in 0..count {
        stream.put(&[10, 14, 10, 14, 10, 14, 10, 14]);
    }
    stream.closed()
}

pub fn commands(part: usize, codes: &[u8], out: &mut [u8]) -> u32 {
    if part > 1 {
        return refused(43, 0);
    }
    if codes.is_empty() {
        return refused(21, 0);
    }
    if codes.len() > 32 {
        return refused(31, 0);
    }
    if let Some(place) = codes.iter().position(|&code| !defined(part as u8, code)) {
        return refused(24, place);
    }
    if out.len() < 9 + 18 * codes.len() {
        return refused(25, 0);
    }
    let mut stream = Stream::opened(out, 4);
    for &code in codes {
        stream.put_bits(2 * code as usize, 9);
    }
    stream.closed()
}

pub fn decode(noted: &[u8], out: &mut [u8]) -> u32 {
    if noted.is_empty() || noted.len() > 128 || noted.len() % 4 != 0 {
        return refused(26, 0);
    }
    if let Some(place) = noted.iter().position(|&bit| bit > 1) {
        return refused(27, place);
    }
    if out.len() < noted.len() / 4 {
        return refused(25, 0);
    }
    for (nibble, bits) in out.iter_mut().zip(noted.chunks_exact(4)) {
        *nibble = bits[0] + 2 * bits[1] + 4 * bits[2] + 8 * bits[3];
    }
    (noted.len() / 4) as u32
}

// ---- the listing ----

pub fn list(input: &[u8]) -> Vec<u8> {
    let mut out = Vec::new();
    if input.len() > 65536 {
        return b"long\n".to_vec();
    }
    let mut chip = [0; 64];
    (chip[LINES], chip[SOURCE], chip[BIAS], chip[COMMONS], chip[PITCH], chip[RATE]) = (15, 1, 2, 2, 4, 7);
    let (mut samples, mut ticks) = (0, 0);
    for (i, &byte) in input.iter().enumerate() {
        let sample = match byte {
            b'0'..=b'9' => byte - b'0',
            b'a'..=b'f' => byte - b'a' + 10,
            b't' => {
                ticks += 1;
                if running(&chip) {
                    run(&mut chip, 1);
                }
                continue;
            }
            b' ' | b'\n' => continue,
            _ => {
                writeln!(out, "bad {i}").unwrap();
                return out;
            }
        };
        samples += 1;
        let answered = sampled(&mut chip, sample);
        if answered != 0 && answered != 4 {
            let [number, first, second, _] = answered.to_le_bytes();
            writeln!(out, "{samples} {number} {first} {second}").unwrap();
        }
    }
    writeln!(out, "end {samples} {ticks}").unwrap();
    out
}
