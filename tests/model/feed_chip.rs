// The part of the script that shows what the chip does: commands, ticks, pins, and frames.
use crate::random::{frame, Random};
use crate::{closed, digits, open, record, sent, Bytes, Script, COMMAND, GN, OFF, ON, PARTS, READ, RUNNING, TIMED, WRITE};
use std::collections::BTreeSet;

// Every code in a command frame of a chip with everything on, and of one with everything off, of each part; the ninth bit,
// which is ignored, is 0 for half of the codes on each. Then what depends on a selection: SYS DIS on the clock, TIMER DIS and
// WDT DIS on the source; and IRQ DIS, IRQ EN and CLR WDT, which depend on nothing.
pub fn codes(script: &mut Script) {
    for (part, (of_part, _)) in PARTS.into_iter().enumerate() {
        for (name, state, last) in [("on", ON, 0), ("off", OFF, 1)] {
            script.words(&format!("every code, part {part}, everything {name}"));
            for code in 0..=255u8 {
                let bits = format!("{code:08b}{}", code % 2 ^ last);
                script.capture(&record(&[state, COMMAND, of_part]), &sent(&bits));
            }
        }
    }
    for clock in 0..3 {
        for source in 0..3 {
            script.words(&format!("everything on, clock {clock}, source {source}"));
            for code in [0x00, 0x01, 0x04, 0x05, 0x06, 0x07] {
                let state = record(&[ON, &[(41, clock), (50, source)], COMMAND]);
                script.capture(&state, &sent(&format!("{code:08b}0")));
            }
        }
    }
    script.words("SYS DIS of a GN, with each clock");
    for clock in 0..3 {
        script.capture(&record(&[ON, GN, &[(41, clock)], COMMAND]), &sent("000000000"));
    }
    script.words("IRQ DIS, IRQ EN and CLR WDT for each source, output and flag, with all else on, and off");
    for state in 0..24u8 {
        let (source, output, flag) = (state / 4 % 3, state / 2 % 2, state % 2);
        for code in [0x80, 0x88, 0x0E] {
            let base = [ON, OFF][state as usize / 12];
            let state = record(&[base, &[(47, output), (50, source), (51, flag)], COMMAND]);
            script.capture(&state, &sent(&format!("{code:08b}0")));
        }
    }
    script.words("commands that follow each other in one frame, and a frame that stops within one");
    script.capture(&record(&[]), &closed("100000000010000000111000001101"));
    script.capture(&record(&[ON]), &closed("1001110001101110000011"));
    script.capture(&record(&[ON, GN]), &closed("100000010100000011000000010111000001001"));
}

// Ticks of each clock, running or not, with the time base on or off, at the end of every counter; and advancing by numbers
// of all sizes.
pub fn ticks(script: &mut Script) {
    let full: Bytes = &[(52, 6), (53, 15), (54, 126), (55, 255), (56, 3)];
    for (part, (of_part, last)) in PARTS.into_iter().enumerate() {
        for state in 0..12u8 {
            let (clock, system, time_base) = (state / 4, state / 2 % 2, state % 2);
            script.words(&format!("ticks: part {part}, clock {clock}, system {system}, time base {time_base}"));
            let switches: Bytes = &[(40, system), (41, clock), (49, time_base)];
            let state = record(&[full, switches, of_part, &[(59, last), (60, 1)]]);
            for calls in ["t", "tt", "ttttttttttt"] {
                script.capture(&state, calls);
            }
            for ticks in [0, 1, 8, 1000, 65_535] {
                script.advance(&state, ticks);
            }
        }
    }
}

// One step of the scan: from each common to the next, with each number of commons; from counters that are an end in neither
// part or in the other; and with the LCD on and off, by each clock, with p before and at its end.
pub fn scan_steps(script: &mut Script) {
    for (part, (of_part, last)) in PARTS.into_iter().enumerate() {
        script.words(&format!("the scan of part {part}: from common to common"));
        for (commons, common) in [(2, 0), (2, 1), (3, 0), (3, 1), (3, 2), (4, 0), (4, 1), (4, 2), (4, 3)] {
            script.capture(&record(&[RUNNING, of_part, &[(44, commons), (59, last), (60, common)]]), "t");
        }
        script.words(&format!("the scan of part {part}: the counter"));
        for counter in [0, 1, 31, 63, 93, 94, 95, 96, 125, 126].into_iter().filter(|&counter| counter < last) {
            let state = record(&[RUNNING, of_part, &[(44, 4), (59, counter), (60, 2)]]);
            script.capture(&state, "t");
            script.capture(&state, "tt");
        }
        script.words(&format!("the scan of part {part}: what it steps with"));
        for state in 0..24u8 {
            let (clock, system, lcd, p) = (state % 3, state / 3 % 2, state / 6 % 2, 6 + state / 12);
            let switches: Bytes = &[(40, system), (41, clock), (42, lcd), (49, (clock + lcd + p) % 2), (52, p)];
            script.capture(&record(&[switches, of_part, &[(44, 3), (59, last), (60, 1)]]), "t");
        }
        script.capture(&record(&[of_part, &[(40, 1), (44, 3), (59, last), (60, 1)]]), &"t".repeat(18));
    }
}

// The scan over many ticks, from its beginning and from elsewhere.
pub fn scan_lengths(script: &mut Script) {
    for (part, (of_part, last)) in PARTS.into_iter().enumerate() {
        for commons in 2..=4 {
            script.words(&format!("the scan of part {part} with {commons} commons"));
            for (counter, common) in [(0, 0), (last - 5, commons - 1)] {
                let state = record(&[RUNNING, of_part, &[(44, commons), (59, counter), (60, common)]]);
                for ticks in [2, 5, 6, 7, 95, 96, 97, 127, 128, 129, 192, 255, 256, 288, 383, 384, 511, 512, 10_000, 65_535] {
                    script.advance(&state, ticks);
                }
            }
            for (clock, ticks) in [(1, 768), (1, 1024), (2, 65_535)] {
                script.advance(&record(&[of_part, &[(40, 1), (41, clock), (44, commons)]]), ticks);
            }
        }
    }
}

// The commands that set the commons, from each number of commons, while the scan runs; and with the counter or the common
// at 0 already.
pub fn scan_begun(script: &mut Script) {
    for (part, (of_part, last)) in PARTS.into_iter().enumerate() {
        for commons in 2..=4 {
            script.words(&format!("the scan of part {part} begun anew, from {commons} commons"));
            let state = record(&[RUNNING, of_part, COMMAND, &[(44, commons), (59, last), (60, commons - 1)]]);
            for code in 0x20..=0x2cu8 {
                script.capture(&state, &sent(&format!("{code:08b}0")));
            }
            script.capture(&state, &(sent("0010010") + "t" + &sent("00") + "tt"));
        }
        for (counter, common) in [(0, 2), (last, 0)] {
            let state = record(&[ON, of_part, COMMAND, &[(44, 3), (59, counter), (60, common)]]);
            for code in [0x20, 0x25, 0x2b, 0x2f, 0x08] {
                script.capture(&state, &sent(&format!("{code:08b}1")));
            }
        }
    }
}

// Each rate beside the numbers that it divides; the flag, set for each source and kept; and the figures of the rules.
pub fn rates_and_flag(script: &mut Script) {
    for rate in 0..8u8 {
        script.words(&format!("rate {rate}"));
        let every = 1u8 << (7 - rate);
        for divider in BTreeSet::from([every - 1, (every + 126) % 128, 63, 127, 0]) {
            script.capture(&record(&[TIMED, &[(48, rate), (54, divider), (55, 9)]]), "t");
        }
        for ticks in [5000, 65_535] {
            script.advance(&record(&[TIMED, &[(48, rate), (54, 1), (55, 100)]]), ticks);
        }
    }
    script.words("the end of b under each w, and the flag for each source");
    for (w, flag) in [(0, 0), (1, 0), (2, 0), (3, 0), (0, 1), (2, 1), (3, 1)] {
        script.capture(&record(&[TIMED, &[(51, flag), (54, 3), (55, 255), (56, w)]]), "t");
    }
    for source in 0..3 {
        let before: Bytes = &[(50, source), (47, 1)];
        script.capture(&record(&[TIMED, before, &[(55, 254), (56, 3)]]), "t");
        script.capture(&record(&[TIMED, before, &[(55, 255), (56, 3)]]), "t");
        script.capture(&record(&[TIMED, before, &[(51, 1)]]), "t");
        script.advance(&record(&[TIMED, before, &[(51, 1), (55, 255), (56, 2)]]), 60_000);
        script.advance(&record(&[before, &[(51, 1), (40, 1), (41, 0)]]), 60_000);
    }
    script.words("a time-out that IRQ DIS lets go of, just come and two ticks before the next, which comes before or after IRQ EN");
    let [off, on] = ["10000000", "10001000"].map(|code| closed(&format!("100{code}0")));
    for (b, w) in [(0, 0), (254, 3), (254, 2)] {
        let low = record(&[TIMED, &[(47, 1), (50, 2), (51, 1), (55, b), (56, w)]]);
        for (between, after) in [("", ""), ("", "t"), ("", "tt"), ("t", ""), ("tt", "")] {
            script.capture(&low, &(off.clone() + between + &on + after));
        }
    }
    script.words("cases h, i and j of the rules");
    for (clock, source, last) in [(0, 2, 1024), (0, 1, 128), (1, 1, 1024), (2, 2, 8192)] {
        for ticks in [last - 1, last] {
            script.advance(&record(&[TIMED, &[(41, clock), (50, source), (47, 1)]]), ticks);
        }
    }
}

// Pins: the tone at every q, and IRQ under all that it depends on and does not.
pub fn tone_and_irq(script: &mut Script) {
    script.words("the tone");
    for kind in [4, 2] {
        for q in 0..16 {
            script.lend('p', &record(&[&[(40, 1), (45, 1), (46, kind), (53, q)]]), 32);
        }
        for (system, clock, tone) in [(1, 0, 0), (0, 0, 1), (0, 1, 1), (0, 2, 1), (1, 2, 1)] {
            let switches: Bytes = &[(40, system), (41, clock), (45, tone)];
            script.lend('p', &record(&[switches, &[(46, kind), (53, 15), (52, 7)]]), 32);
        }
    }
    script.words("IRQ");
    for state in 0..96u8 {
        let (output, flag, b) = (state % 2, state / 2 % 2, 127 + state / 4 % 2);
        let (system, time_base, source) = (state / 8 % 2, state / 16 % 2, state / 32);
        if output == 1 || system == time_base {
            let switches: Bytes = &[(40, system), (47, output), (49, time_base)];
            script.lend('p', &record(&[switches, &[(50, source), (51, flag), (55, b)]]), 32);
        }
    }
    for b in [0, 64, 191, 192, 255] {
        script.lend('p', &record(&[&[(47, 1), (50, 1), (55, b)]]), 32);
    }
}

// Pins: DATA, the cells, and rooms for them.
pub fn data_and_cells(script: &mut Script) {
    script.words("DATA");
    for state in [READ, WRITE] {
        for (address, data) in [(31, 0), (31, 1), (31, 2), (32, 0), (63, 1), (63, 2)] {
            script.lend('p', &record(&[state, &[(37, address), (39, data)]]), 32);
        }
    }
    script.words("the cells");
    for state in 0..24u8 {
        let (commons, lcd) = (2 + state % 3, state / 3 % 2);
        let (system, clock) = [(1, 0), (0, 0), (0, 2), (0, 1)][state as usize / 6];
        script.lend('p', &record(&[&[(40, system), (41, clock), (42, lcd), (44, commons)]]), 32);
    }
    script.words("pins of each part, wherever its scan stands");
    for (counter, common) in [(0, 0), (90, 1), (63, 2), (3, 3)] {
        for (of_part, _) in PARTS {
            script.lend('p', &record(&[ON, of_part, &[(59, counter), (60, common)]]), 32);
        }
    }
    script.words("rooms for the cells");
    let shown = record(&[ON]);
    for room in [0, 1, 31, 33, 64] {
        script.lend('p', &shown, room);
    }
    for room in [0, 31, 32] {
        script.lend('p', &record(&[ON, &[(57, 2)]]), room);
    }
}

// A step from each level of the lines to each, while the chip drives DATA and while it does not.
pub fn levels(script: &mut Script) {
    script.words("each level to each, in read and write frames, at the end of the memory and past it");
    for (frame, address, data) in [(READ, 31, 2), (WRITE, 31, 1), (READ, 45, 2), (WRITE, 45, 2)] {
        for before in (0..16).step_by(2) {
            let state = record(&[frame, &[(32, before), (37, address), (38, 2), (39, data)]]);
            for after in (0..16).step_by(2).chain([before + 1]) {
                script.capture(&state, &digits(&[after]));
            }
        }
    }
    for (frame, data) in [(READ, 0), (READ, 1), (WRITE, 0), (WRITE, 2)] {
        let state = record(&[frame, &[(38, 1), (39, data)]]);
        for calls in ["6", "c", "4", "8", "a", "f", "46", "ce", "4e", "c6", "a", "42", "ca"] {
            script.capture(&state, calls);
        }
    }
    script.words("each level to each, within the bits of each phase, in a dead frame, and without a frame");
    let states: [Bytes; 5] = [
        &[(33, 1), (34, 1), (35, 1)],
        &[(33, 2), (34, 3), (35, 5)],
        &[(33, 3), (34, 4), (35, 9)],
        &[(33, 6), (34, 7), (35, 85)],
        &[(33, 7)],
    ];
    for state in states {
        for before in [0, 4, 6, 8, 12, 14] {
            let held = record(&[state, &[(32, before)]]);
            for after in [before ^ 2, before ^ 4, before ^ 6, before ^ 10, before ^ 8, 15] {
                script.capture(&held, &digits(&[after]));
            }
        }
    }
    for before in [1, 9, 13, 15] {
        for calls in ["0", "4", "6", "a", "e", "f", "1", "d", "g"] {
            script.capture(&record(&[&[(32, before)]]), calls);
        }
    }
}

// Frames of each kind, cut after each bit: left open, and closed; with strays and clashes in every phase.
pub fn frames(script: &mut Script) {
    let whole = [
        "110111111RRRRRRRRR1RR",
        "110011111RRRRRRRRR1RR",
        "110101000RRRRR1RR",
        "1010111111011001",
        "1011111111011001",
        "101011111RRRRR11RR01R0RRRRRR",
        "101101000RRR11R01RRRRR1RR",
        "101111111RRRRR11RR01R0RRRRRR",
        "1001010101110010",
        "0001R",
        "0011R",
        "0101R",
        "0111R",
        "1111R",
    ];
    let mut texts = BTreeSet::new();
    for text in whole {
        texts.extend((0..=text.len()).map(|length| &text[..length]));
    }
    script.words("frames cut after each bit");
    for text in texts {
        script.capture(&record(&[]), &open(text));
        script.capture(&record(&[]), &closed(text));
    }
    script.words("frames that clash in each phase");
    for text in ["X1X10X0001R01XRXR", "1X01X00X0101X1X0RX11", "100X0X0000001XR1", "111X1R"] {
        script.capture(&record(&[]), &(open(text) + "t"));
    }
    script.words("all addresses, written, read, and read and written, round the end");
    let nibbles: Vec<String> = (0..67).map(|i| format!("{:04b}", (i * 11 + i / 16 * 3 + 5) % 16)).collect();
    for first in ["011110", "111111"] {
        script.capture(&record(&[]), &closed(&format!("101{first}{}", nibbles.concat())));
        script.capture(&record(&[]), &closed(&format!("110{first}{}", "RRRR".repeat(67))));
    }
    script.capture(&record(&[]), &closed(&format!("101000000RRRR{}", nibbles.join("RRRR"))));
}

// Frames that begin around the end of the memory and of the addresses, and frames that go on from a record there: at each
// reading position and, in a write, with each number of unfinished bits.
pub fn past_the_memory(script: &mut Script) {
    script.words("frames that begin below, at and past the end of the memory");
    for first in [29, 31, 32, 33, 47, 62, 63] {
        for (id, rest) in [("110", "RRRRRRRRRRRRR"), ("101", "110101101011R01RR"), ("101", "RR0110RRR1")] {
            script.capture(&record(&[]), &closed(&format!("{id}{first:06b}{rest}")));
        }
    }
    script.words("read frames that go on there");
    for address in [31, 32, 40, 62, 63] {
        for position in 0..4 {
            let held = record(&[READ, &[(37, address), (38, position), (39, (address + position) % 3)]]);
            for calls in ["a", "ce", "42", "f", "aeaeaeaeae"] {
                script.capture(&held, calls);
            }
        }
    }
    script.words("write frames that go on there");
    for address in [31, 32, 63] {
        for state in 0..16u8 {
            let (count, position) = (state / 4, state % 4);
            let unfinished: Bytes = &[(34, count), (35, [0, 1, 1, 5][count as usize])];
            let held = record(&[WRITE, unfinished, &[(37, address), (38, position), (39, (address + state) % 3)]]);
            for calls in ["a", "46", "cecececea", "42", "f"] {
                script.capture(&held, calls);
            }
        }
    }
}

// A valid record with random settings and counters.
fn any_record(random: &mut Random) -> Vec<u8> {
    let limits = [2, 3, 2, 2, 3, 2, 2, 2, 8, 2, 3, 2, 8, 16, 128, 256, 4, 2];
    let mut bytes = record(&[]);
    for (place, limit) in (40..58).zip(limits) {
        bytes[place] = random.below(limit) as u8;
    }
    bytes[43] += 2;
    bytes[44] += 2;
    bytes[46] = 2 + 2 * bytes[46];
    bytes[58] = random.below(2) as u8;
    bytes[59] = random.below([128, 96][bytes[58] as usize]) as u8;
    bytes[60] = random.below(bytes[44] as u64) as u8;
    bytes
}

// Random frames with wild samples, refused ones and ticks among them, from random settings.
pub fn wild(random: &mut Random, script: &mut Script) {
    script.words("wild captures");
    for _ in 0..24 {
        let mut capture = String::new();
        while capture.len() < 150 {
            let samples: Vec<u8> = match random.below(3) {
                0 => (0..random.below(40)).map(|_| random.below(17) as u8).collect(),
                _ => frame(random),
            };
            capture += &(digits(&samples) + &"t".repeat(random.below(4) as usize));
        }
        script.capture(&any_record(random), &capture);
    }
}
