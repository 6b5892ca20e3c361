// What is timed: records, frames, captures.
use crate::packs::packs;

pub const SOURCE: usize = 41;
pub const COMMONS: usize = 44;
pub const RATE: usize = 48;
pub const PART: usize = 58;
pub const HT: usize = 0;
pub const GN: usize = 1;
pub const RUNS: [(usize, u8); 2] = [(40, 1), (49, 1)]; // system and time base on

// An HT at power-on.
pub fn power_on() -> [u8; 64] {
    with(&[(32, 15), (SOURCE, 1), (43, 2), (44, 2), (46, 4), (RATE, 7)], [0; 64])
}

pub fn with(bytes: &[(usize, u8)], mut record: [u8; 64]) -> [u8; 64] {
    bytes.iter().for_each(|&(at, byte)| record[at] = byte);
    record
}

// Commands of every kind, 32 of them: SYS EN, RC, bias 1/3 and 4 commons, LCD ON come first, as at a start.
pub const CODES: [u8; 32] = [
    0x01, 0x18, 0x29, 0x03, 0x06, 0x88, 0xa7, 0x09, 0x40, 0x0d, 0x07, 0x0f, 0x80, 0x60, 0x08, 0xa3, 0x05, 0x04, 0x14,
    0x24, 0xe3, 0x02, 0x00, 0x01, 0x1c, 0x2b, 0x5f, 0x9f, 0xbf, 0xe0, 0x18, 0x03,
];

// The same for a part: CLR TIMER has another code in a GN.
pub fn codes(part: usize) -> [u8; 32] {
    CODES.map(|code| if part == GN && code == 0x0d { 0x0b } else { code })
}

// The nibbles of the timed writes, and bits as a host notes them.
pub fn nibbles() -> Vec<u8> {
    (0..32).map(|i| (i * 7 + 3) % 16).collect()
}

pub fn noted() -> Vec<u8> {
    (0..128).map(|i| (i * i + i / 3) as u8 % 2).collect()
}

fn stream(make: impl Fn(&mut [u8]) -> u32) -> Vec<u8> {
    let mut out = vec![0; 600];
    let count = make(&mut out) as usize;
    out[..count].to_vec()
}

pub fn frames(count: usize) -> [Vec<u8>; 3] {
    let pack = packs()[0];
    [
        stream(|out| pack.write(0, &nibbles()[..count], out)),
        stream(|out| pack.read(0, count, out)),
        commands_of(HT, count),
    ]
}

pub fn commands_of(part: usize, count: usize) -> Vec<u8> {
    stream(|out| packs()[0].commands(part, &codes(part)[..count], out))
}

// The frame 32 addresses further on, where there is no memory: A5, the fourth bit sent, is 1.
pub fn above(mut frame: Vec<u8>) -> Vec<u8> {
    frame[8..10].iter_mut().for_each(|sample| *sample += 8);
    frame
}

pub fn mixed() -> Vec<u8> {
    (1..=8).flat_map(|count| frames(count).concat()).collect()
}

// A capture: frames of 1 to 32 nibbles or commands with a tick after every eighth sample.
pub fn capture(bytes: usize) -> Vec<u8> {
    let mut text = Vec::new();
    for count in (1..=32).cycle() {
        for &sample in frames(count).concat().iter() {
            text.push(b"0123456789abcdef"[sample as usize]);
            if text.len() % 9 == 8 {
                text.push(b't');
            }
        }
        if text.len() >= bytes {
            break;
        }
    }
    text.truncate(bytes);
    text
}
