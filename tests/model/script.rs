// Answers the lines of a script of calls in the form of crates/vectors (its main.rt says what a script is), by what the
// rules promise of each call.
use crate::due::{self, Outcome};

// What a byte holds that no call has written yet.
const FRESH: u8 = 0x5a;

/// A line of a script, and the list of bytes that it is about.
pub struct Request<'a> {
    pub line: &'a str,
    pub list: Vec<u8>,
}

/// The lines of a script, each with its list.
pub fn requests(script: &str) -> Vec<Request<'_>> {
    let mut list = Vec::new();
    let mut all = Vec::new();
    for line in script.lines() {
        if let Some(digits) = line.strip_prefix("= ") {
            list = listed(digits);
        }
        all.push(Request { line, list: list.clone() });
    }
    all
}

// The bytes of hex digits.
fn listed(digits: &str) -> Vec<u8> {
    digits.as_bytes().chunks(2).map(|pair| number(std::str::from_utf8(pair).expect("digits")) as u8).collect()
}

fn number(digits: &str) -> usize {
    usize::from_str_radix(digits, 16).expect("a number in hex")
}

fn hex(bytes: &[u8]) -> String {
    bytes.iter().map(|byte| format!("{byte:02x}")).collect()
}

/// The sample of a digit; `g` is 16.
pub fn sample_of(digit: u8) -> u8 {
    match digit {
        b'0'..=b'9' => digit - b'0',
        b'a'..=b'g' => digit - b'a' + 10,
        _ => panic!("there is no sample {digit}"),
    }
}

/// What is written for a request.
pub fn answer(request: &Request) -> String {
    let words: Vec<&str> = request.line.split(' ').collect();
    match words[0] {
        "=" => String::new(),
        "#" => request.line.to_string() + "\n",
        "s" => {
            let mut record = request.list.clone();
            let ticks = number(words[1]) as u16;
            let returned = words[2].bytes().map(|byte| called(&mut record, byte, ticks)).collect();
            ran(returned, &record)
        }
        _ => lent(&words, &request.list),
    }
}

/// A call of a capture; `t` advances by so many ticks.
pub fn called(record: &mut Vec<u8>, byte: u8, ticks: u16) -> u32 {
    let (returned, after) = match byte {
        b't' => due::advance(record, ticks),
        _ => due::step(record, sample_of(byte)),
    };
    *record = after;
    returned
}

// What was returned; the pins and the cells; the record.
fn ran(returned: Vec<u32>, record: &[u8]) -> String {
    let numbers: String = returned.iter().map(|number| format!("{number:x} ")).collect();
    let (pins, cells) = due::pins(record, &[FRESH; 33]);
    format!("{numbers}\n{pins:x} {}\n{}\n", hex(&cells), hex(record))
}

// What was returned, and the buffer. The number after the room is a first address or a part.
fn lent(words: &[&str], list: &[u8]) -> String {
    let before = vec![FRESH; number(words[1])];
    let first = || number(words[2]);
    let (returned, buffer): Outcome = match words[0] {
        "p" => due::pins(list, &before),
        "o" => due::power_on(first(), list, &before),
        "w" => due::write(first(), list, &before),
        "r" => due::read(first(), number(words[3]), &before),
        "c" => due::commands(first(), list, &before),
        "d" => due::decode(list, &before),
        letter => panic!("there is no request {letter}"),
    };
    format!("{returned:x} {}\n", hex(&buffer))
}
