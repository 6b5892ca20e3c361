// Writes the script that crates/vectors answers: feed SEED; or the capture that crates/listing lists: feed SEED listing. They
// are made so that every rule that is made wrong changes an answer; changes.txt lists such changes, and the
// measure holds them to it.
// build: rustc -O feed.rs
// run:   ./feed 1621 > crates/vectors/stdin
//        ./feed 1621 listing > crates/listing/stdin

mod feed_calls;
mod feed_chip;
mod feed_listing;
mod random;

use random::Random;

// Some bytes of a record, by place and value.
type Bytes<'a> = &'a [(usize, u8)];

// Everything on, every selection other than at power-on, every counter moving.
const ON: Bytes = &[
    (40, 1), (42, 1), (43, 3), (44, 4), (45, 1), (46, 2), (47, 1), (48, 3), (49, 1), (50, 2), (51, 1),
    (52, 5), (53, 9), (54, 77), (55, 201), (56, 3), (57, 1), (59, 90), (60, 2),
];

// Everything off, with the crystal for a clock, and counters that have moved.
const OFF: Bytes = &[(41, 0), (48, 4), (52, 2), (53, 3), (54, 5), (55, 6), (56, 1), (59, 7), (60, 1)];

// A command frame, and read and write frames at address 31, with no unfinished bits.
const COMMAND: Bytes = &[(32, 14), (33, 6)];
const READ: Bytes = &[(32, 14), (33, 4), (37, 31)];
const WRITE: Bytes = &[(32, 14), (33, 5), (37, 31)];

// A running chip with the crystal and the time base on.
const TIMED: Bytes = &[(40, 1), (41, 0), (49, 1)];

// A running chip with the crystal, the time base off.
const RUNNING: Bytes = &[(40, 1), (41, 0)];

// A GN in place of an HT.
const GN: Bytes = &[(58, 1)];

// The parts as records have them, the bytes that make each, and where their scans' counters end.
const PARTS: [(Bytes, u8); 2] = [(&[], 127), (GN, 95)];

// The record at power-on with a memory in which every nibble and every neighbour differs, changed in these bytes.
fn record(changes: &[Bytes]) -> Vec<u8> {
    let mut bytes: Vec<u8> = (0..32).map(|address| (address * 7 + address / 16 + 3) % 16).collect();
    bytes.resize(64, 0);
    let power_on: Bytes = &[(32, 15), (41, 1), (43, 2), (44, 2), (46, 4), (48, 7)];
    for &(place, byte) in [power_on].iter().chain(changes).copied().flatten() {
        bytes[place] = byte;
    }
    bytes
}

// The script's lines.
struct Script {
    lines: Vec<String>,
    list: Vec<u8>,
}

impl Script {
    fn words(&mut self, words: &str) {
        self.lines.push(format!("# {words}"));
    }

    // Makes a list the one that requests are about.
    fn list(&mut self, bytes: &[u8]) {
        if self.list != bytes {
            let digits: String = bytes.iter().map(|byte| format!("{byte:02x}")).collect();
            self.lines.push(format!("= {digits}"));
            self.list = bytes.to_vec();
        }
    }

    fn capture(&mut self, record: &[u8], calls: &str) {
        self.list(record);
        self.lines.push(format!("s 0001 {calls}"));
    }

    fn advance(&mut self, record: &[u8], ticks: u16) {
        self.list(record);
        self.lines.push(format!("s {ticks:04x} t"));
    }

    // Pins and decoding, by their letters.
    fn lend(&mut self, letter: char, list: &[u8], room: usize) {
        self.list(list);
        self.lines.push(format!("{letter} {room:03x}"));
    }

    fn power_on(&mut self, part: u64, memory: &[u8], room: usize) {
        self.list(memory);
        self.lines.push(format!("o {room:03x} {part:016x}"));
    }

    fn commands(&mut self, part: u64, codes: &[u8], room: usize) {
        self.list(codes);
        self.lines.push(format!("c {room:03x} {part:016x}"));
    }

    fn write(&mut self, first: u64, nibbles: &[u8], room: usize) {
        self.list(nibbles);
        self.lines.push(format!("w {room:03x} {first:016x}"));
    }

    fn read(&mut self, first: u64, count: u64, room: usize) {
        self.lines.push(format!("r {room:03x} {first:016x} {count:016x}"));
    }
}

// Samples as digits.
fn digits(samples: &[u8]) -> String {
    samples.iter().map(|&sample| b"0123456789abcdefg"[sample as usize] as char).collect()
}

// The digits that send a text of bits; R is a bit read and X a clash.
fn sent(text: &str) -> String {
    let pair = |letter| match letter {
        '0' => "46",
        '1' => "ce",
        'R' => "ae",
        _ => "42",
    };
    text.chars().map(pair).collect()
}

// A frame left open, and one closed.
fn open(text: &str) -> String {
    "fe".to_string() + &sent(text)
}

fn closed(text: &str) -> String {
    open(text) + "f"
}

// A record changed in these bytes.
fn changed(record: &[u8], changes: Bytes) -> Vec<u8> {
    let mut bytes = record.to_vec();
    for &(place, byte) in changes {
        bytes[place] = byte;
    }
    bytes
}

// The script.
fn script(random: &mut Random) -> String {
    let mut script = Script { lines: Vec::new(), list: vec![255] };
    feed_chip::codes(&mut script);
    feed_chip::ticks(&mut script);
    feed_chip::scan_steps(&mut script);
    feed_chip::scan_lengths(&mut script);
    feed_chip::scan_begun(&mut script);
    feed_chip::rates_and_flag(&mut script);
    feed_chip::tone_and_irq(&mut script);
    feed_chip::data_and_cells(&mut script);
    feed_chip::levels(&mut script);
    feed_chip::frames(&mut script);
    feed_chip::past_the_memory(&mut script);
    feed_chip::wild(random, &mut script);
    feed_calls::limits(&mut script);
    feed_calls::parts_of_records(&mut script);
    feed_calls::addresses(&mut script);
    feed_calls::couplings(&mut script);
    feed_calls::streams(&mut script);
    feed_calls::refused_streams(&mut script);
    feed_calls::sent_commands(&mut script);
    feed_calls::refused_commands(&mut script);
    feed_calls::noted(&mut script);
    feed_calls::power_on(&mut script);
    script.lines.join("\n") + "\n"
}

fn main() {
    let words: Vec<String> = std::env::args().collect();
    let mut random = Random(words[1].parse::<u64>().expect("a seed is a number") * 2 + 1);
    match words.get(2).map(String::as_str) {
        None => print!("{}", script(&mut random)),
        Some("listing") => print!("{}", feed_listing::capture(&mut random)),
        Some(what) => panic!("there is no {what} to feed"),
    }
}
