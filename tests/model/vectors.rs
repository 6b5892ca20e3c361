// Reads the script that crates/vectors is run on and writes what the model makes of it, in that program's form; or, with
// --coverage, how often each thing came up that there is a whole table of, and fails where one did not. What is rather a rule
// than a row of a table is held by the measure (changes.txt).
// build: rustc -O vectors.rs
// run:   ./vectors < crates/vectors/stdin > crates/vectors/stdout

mod due;
mod model;
mod script;

use script::{answer, called, requests, Request};
use std::collections::BTreeMap;
use std::io::{Read, Write};

type Counts = BTreeMap<String, u32>;

fn note(seen: &mut Counts, what: String) {
    *seen.entry(what).or_insert(0) += 1;
}

// A step of a capture: what it returned, with the code or the phase that it is about.
fn note_step(before: &[u8], returned: u32, after: &[u8], seen: &mut Counts) {
    let (number, first) = (returned % 256, returned / 256 % 256);
    note(seen, format!("answer {number}"));
    let phase = if before.len() == 64 { before[33] } else { 0 };
    match number {
        2 | 3 => note(seen, format!("closed in phase {phase} with {} bits", before[34])),
        6 | 7 => note(seen, format!("part {}: code {first:02x}, system {}", before[58], before[40])),
        5 => note(seen, format!("stored at {first}")),
        8 => {
            note(seen, format!("phase {phase} offers level {}", after[39]));
            note(seen, format!("phase {phase} offers of address {first}"));
        }
        9 | 11 => note(seen, format!("answer {number} in phase {phase}")),
        _ => {}
    }
}

// Ticks of a capture that pass the scan on to another common, or leave it there: where the counter stood before.
fn note_ticks(before: &[u8], ticks: u16, after: &[u8], seen: &mut Counts) {
    if before.len() != 64 || ticks != 1 || before[59] == after[59] {
        return;
    }
    let (part, commons) = (before[58], before[44]);
    note(seen, format!("part {part}: counter {} to {}", before[59], after[59]));
    if before[60] != after[60] {
        note(seen, format!("part {part}, {commons} commons: common {} to {}", before[60], after[60]));
    }
}

// The first call on a record of 64 bytes: whether it is refused, by the bytes of its part and its scan.
fn note_record(record: &[u8], returned: u32, seen: &mut Counts) {
    let taken = if returned == 28 { "refused" } else { "taken" };
    note(seen, format!("part {} {taken}", record[58]));
    note(seen, format!("part {}: counter {} {taken}", record[58], record[59]));
    note(seen, format!("part {}, {} commons: common {} {taken}", record[58], record[44], record[60]));
    for place in 61..64 {
        if record[place] != 0 {
            note(seen, format!("part {}: byte {place} {taken}", record[58]));
        }
    }
}

// A capture: the record that it starts from, and each call.
fn note_capture(request: &Request, seen: &mut Counts) {
    let ticks = u16::from_str_radix(&request.line[2..6], 16).expect("a number of ticks");
    let mut record = request.list.clone();
    for (place, byte) in request.line[7..].bytes().enumerate() {
        let before = record.clone();
        let returned = called(&mut record, byte, ticks);
        if place == 0 && before.len() == 64 {
            note_record(&before, returned, seen);
        }
        match byte {
            b't' => note_ticks(&before, ticks, &record, seen),
            _ => note_step(&before, returned, &record, seen),
        }
    }
}

// A call that lends a buffer: whether it is refused, and for which part where it is told one.
fn note_lent(request: &Request, seen: &mut Counts) {
    let letter = &request.line[..1];
    let text = answer(request);
    let number = text.split(' ').next().and_then(|digits| u32::from_str_radix(digits, 16).ok()).unwrap_or(0);
    let refused = if letter == "p" { number > 24 } else { number >> 31 == 1 };
    let part = if letter == "o" || letter == "c" { format!(" of part {:x}", u64::from_str_radix(&request.line[6..], 16).expect("a part")) } else { String::new() };
    note(seen, if refused { format!("{letter}{part} refused {}", number % 256) } else { format!("{letter}{part} accepted") });
}

// A request.
fn note_request(request: &Request, seen: &mut Counts) {
    match &request.line[..1] {
        "=" | "#" => {}
        "s" => note_capture(request, seen),
        _ => note_lent(request, seen),
    }
}

// What must come up of the parts and the scan: each part's counter and common at their ends, and both sides of each limit.
fn required_of_parts() -> Vec<String> {
    let mut all = vec!["part 0 taken".to_string(), "part 1 taken".to_string(), "part 2 refused".to_string(), "part 255 refused".to_string()];
    for (part, last) in [(0, 127), (1, 95)] {
        for (from, to) in [(0, 1), (94, 95), (last - 1, last), (last, 0)] {
            all.push(format!("part {part}: counter {from} to {to}"));
        }
        all.push(format!("part {part}: counter {last} taken"));
        all.push(format!("part {part}: counter {} refused", last + 1));
        for commons in 2..=4 {
            all.extend((0..commons).map(|common| format!("part {part}, {commons} commons: common {common} to {}", (common + 1) % commons)));
            all.push(format!("part {part}, {commons} commons: common {} taken", commons - 1));
            all.push(format!("part {part}, {commons} commons: common {commons} refused"));
        }
        all.extend((61..64).map(|place| format!("part {part}: byte {place} refused")));
    }
    all
}

// All that must come up.
fn required() -> Vec<String> {
    let mut all: Vec<String> = (0..=11).chain([20, 28]).map(|answer| format!("answer {answer}")).collect();
    for (part, system) in [(0, 0), (0, 1), (1, 0), (1, 1)] {
        all.extend((0..=255).map(|code: u8| format!("part {part}: code {code:02x}, system {system}")));
    }
    all.extend(required_of_parts());
    for (phase, most) in [(1, 2), (2, 5), (3, 5), (4, 0), (5, 3), (6, 8), (7, 0)] {
        all.extend((0..=most).map(|count| format!("closed in phase {phase} with {count} bits")));
    }
    all.extend([1, 2, 3, 4, 6, 7].map(|phase| format!("answer 9 in phase {phase}")));
    all.extend((1..=7).map(|phase| format!("answer 11 in phase {phase}")));
    for (phase, level) in [(4, 1), (4, 2), (5, 1), (5, 2)] {
        all.push(format!("phase {phase} offers level {level}"));
    }
    all.extend((0..64).map(|address| format!("stored at {address}")));
    for phase in [4, 5] {
        all.extend((0..64).map(|address| format!("phase {phase} offers of address {address}")));
    }
    let refusals: [(&str, &[u8]); 8] = [
        ("w", &[21, 22, 23, 25, 30]), ("r", &[21, 22, 25, 30]), ("d", &[25, 26, 27]), ("p", &[25, 28]), ("c of part 0", &[21, 24, 25, 31]),
        ("c of part 1", &[21, 24, 25, 31]), ("o of part 0", &[23, 25, 29]), ("o of part 1", &[23, 25, 29]),
    ];
    for (letter, numbers) in refusals {
        all.push(format!("{letter} accepted"));
        all.extend(numbers.iter().map(|number| format!("{letter} refused {number}")));
    }
    for part in ["2", "3", "100", "101", "100000000", "100000001", "ffffffffffffffff"] {
        all.extend(["c", "o"].map(|letter| format!("{letter} of part {part} refused 43")));
    }
    all
}

// How often each thing came up; whether all did that must.
fn coverage(all: &[Request]) -> bool {
    let mut seen = Counts::new();
    for request in all {
        note_request(request, &mut seen);
    }
    for (what, count) in &seen {
        println!("{what}: {count}");
    }
    let missing: Vec<String> = required().into_iter().filter(|what| !seen.contains_key(what)).collect();
    for what in &missing {
        println!("{what}: never");
    }
    missing.is_empty()
}

fn main() -> std::io::Result<()> {
    let mut text = String::new();
    std::io::stdin().read_to_string(&mut text)?;
    let all = requests(&text);
    if std::env::args().any(|word| word == "--coverage") {
        std::process::exit(if coverage(&all) { 0 } else { 1 });
    }
    let answers: String = all.iter().map(answer).collect();
    std::io::stdout().write_all(answers.as_bytes())
}
