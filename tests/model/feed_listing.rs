// The capture that crates/listing is run on: the examples of the rules, then frames of every kind, with every answer and every
// digit, then random frames until sample numbers have five digits. It reads memory that nothing has written, so that it
// shows what the listing starts with.
use crate::random::{frame, Random};
use crate::{closed, digits, open};

// The examples of RULES "The listing".
const EXAMPLES: [&str; 2] = ["fece46ce46464646cecece46ce46f", "fece46ce46464646cececece46ce46f"];

// Frames with strays and clashes in each phase, and with every ID, closed with unfinished bits and without.
const FRAMES: [&str; 20] = [
    "1", "11", "110", "11011111", "110111111RRRRRRRRR1RR", "X1X10X0001R01XRXR", "10101", "101011111RRRRR11RR01R0RRRRRR", "1X01X00X0101X1X0RX11",
    "110011111RRRRR1XRRRRR", "1101010001RR", "101101000RRR11R01RRRRR1RR", "1X0111111X1RR01X1RRR0110R11",
    "100X0X0000001XR1", "10010101", "0001R", "0011R", "0101X", "0111R", "111X1R",
];

// The whole memory, read as it is at the start, written with nibbles that differ, and read again round the end of the
// addresses; then written past its end and round, and read once more.
fn memory() -> Vec<String> {
    let nibble = |i| format!("{:04b}", (i * 11 + i / 16 * 3 + 5) % 16);
    let read = |first: &str, count| closed(&format!("110{first}{}", "RRRR".repeat(count)));
    let write = |first: &str, from, to| closed(&format!("101{first}{}", (from..to).map(nibble).collect::<String>()));
    vec![read("000000", 32), write("000000", 0, 32), read("011110", 68), write("011110", 40, 77), read("111111", 35)]
}

// Every code in one frame, with the ninth bit as it comes.
fn codes() -> String {
    let bits: String = (0..512).step_by(2).map(|code| format!("{:09b}", code + code / 2 % 2)).collect();
    closed(&format!("100{bits}"))
}

// A write in which DATA changes with each WR rise.
fn late_data() -> String {
    let pair = |bit| if bit == '1' { "4e" } else { "c6" };
    "fe".to_string() + &"1010001011001".chars().map(pair).collect::<String>() + "f"
}

// Every sample after every other.
fn pairs() -> Vec<String> {
    (0..16).map(|before| (0..16).map(|after| digits(&[before, after])).collect()).collect()
}

// A line of random samples, with ticks and blanks among them.
fn wild(random: &mut Random) -> String {
    let samples: Vec<u8> = match random.below(3) {
        0 => (0..40).map(|_| random.below(16) as u8).collect(),
        _ => frame(random),
    };
    let mut line = String::new();
    for digit in digits(&samples).chars() {
        line.push(digit);
        line += ["", "", "", "", "", "", "", "", "t", " ", "tt", "  ", " t "][random.below(13) as usize];
    }
    line.trim_end().to_string()
}

/// The capture.
pub fn capture(random: &mut Random) -> String {
    let mut lines: Vec<String> = EXAMPLES.map(String::from).to_vec();
    lines.extend(memory());
    lines.extend(FRAMES.map(closed));
    lines.extend(FRAMES.map(|text| open(text) + " t"));
    lines.extend([String::new(), late_data(), codes()]);
    lines.extend(pairs());
    let samples = |lines: &[String]| lines.iter().flat_map(|line| line.bytes()).filter(u8::is_ascii_hexdigit).count();
    while samples(&lines) < 10_100 {
        lines.push(wild(random));
    }
    lines.join("\n") + "\n"
}
