// The part of the script that shows what calls refuse: damaged records, and requests at the limits of what is accepted.
use crate::{changed, record, Bytes, Script, COMMAND, GN, ON, PARTS, READ, WRITE};
use std::collections::BTreeSet;

// Calls that a record answers in one way if it is valid and in another if not: a sample that is refused, one that opens a
// frame or clocks in it, a tick, and then the pins.
const CALLS: &str = "gct";

// Records at and beyond the limit of each byte.
pub fn limits(script: &mut Script) {
    script.words("each byte at its limits and beyond");
    let write = record(&[ON, WRITE, &[(60, 0)]]);
    for place in 0..32 {
        script.lend('p', &changed(&write, &[(place, 16)]), 32);
    }
    for nibble in [0, 14, 15] {
        script.lend('p', &[&[nibble; 32], &write[32..]].concat(), 32);
    }
    let values: [(usize, &[u8]); 26] = [
        (0, &[15, 16]), (1, &[16]), (31, &[15, 16, 128]), (32, &[0, 14, 16, 18, 30, 254]),
        (33, &[4, 5, 8, 12, 255]), (37, &[63, 64, 255]), (38, &[3, 4, 255]), (39, &[2, 3, 255]),
        (40, &[0, 1, 2, 255]), (41, &[0, 2, 3, 255]), (42, &[0, 1, 2, 255]), (43, &[0, 1, 2, 3, 4, 255]),
        (44, &[0, 1, 2, 3, 4, 5, 255]), (45, &[0, 1, 2, 255]), (46, &[0, 1, 2, 3, 4, 5, 255]),
        (47, &[0, 1, 2, 255]), (48, &[0, 7, 8, 15, 255]), (49, &[0, 1, 2, 255]), (50, &[0, 2, 3, 255]),
        (51, &[0, 1, 2, 255]), (52, &[0, 7, 8, 255]), (53, &[0, 15, 16, 255]), (54, &[0, 127, 128, 255]),
        (55, &[0, 255]), (56, &[0, 3, 4, 255]), (57, &[0, 1, 2, 255]),
    ];
    for (place, bytes) in values {
        for &byte in bytes {
            script.capture(&changed(&write, &[(place, byte)]), CALLS);
        }
    }
}

// Records of each part: the part itself, the scan's counter and common at their limits and beyond, and what follows them.
// The same bytes stand for both parts where they can, so that some are valid in one and not in the other.
pub fn parts_of_records(script: &mut Script) {
    script.words("parts");
    for counter in [0, 95, 96] {
        for part in [0, 1, 2, 3, 255] {
            script.capture(&record(&[ON, READ, &[(58, part), (59, counter)]]), CALLS);
        }
    }
    for (part, (of_part, _)) in PARTS.into_iter().enumerate() {
        script.words(&format!("part {part}: the scan's counter"));
        let held = record(&[ON, of_part]);
        for counter in [0, 1, 94, 95, 96, 97, 126, 127, 128, 129, 223, 255] {
            script.capture(&changed(&held, &[(59, counter)]), CALLS);
        }
        script.lend('p', &changed(&held, &[(59, 96)]), 32);
        script.advance(&changed(&held, &[(59, 128)]), 9);
        script.words(&format!("part {part}: the common"));
        for commons in 2..=4 {
            for common in [commons - 1, commons, commons + 1, 128 + commons - 1, 255] {
                script.capture(&changed(&held, &[(44, commons), (60, common)]), CALLS);
            }
        }
        script.words(&format!("part {part}: the last bytes"));
        for place in 61..64 {
            for byte in [1, 255] {
                script.capture(&changed(&held, &[(place, byte)]), CALLS);
            }
        }
    }
    script.words("a GN in each phase");
    for phase in 0..8 {
        let lines = if phase == 0 { 15 } else { 14 };
        script.capture(&record(&[ON, GN, &[(32, lines), (33, phase)]]), CALLS);
    }
}

// The address of a read and of a write: below and past the end of the memory, the last, and beyond.
pub fn addresses(script: &mut Script) {
    script.words("addresses in read and write frames, and beyond");
    for frame in [READ, WRITE] {
        for address in [0, 30, 31, 32, 33, 62, 63, 64, 65, 95, 96, 127, 128, 160, 255] {
            let held = record(&[ON, frame, &[(37, address), (39, address % 3)]]);
            script.capture(&held, CALLS);
            script.lend('p', &held, 32);
            script.advance(&held, 9);
        }
    }
}

// Records whose bytes contradict each other: the phase and CS, the phase and the count, the count and the value, the
// phase and bytes 37 to 39; and records of a wrong length.
pub fn couplings(script: &mut Script) {
    script.words("phases with CS low and high");
    for phase in 0..9 {
        for lines in [14, 15, 0, 1] {
            script.capture(&record(&[&[(32, lines), (33, phase)]]), CALLS);
        }
    }
    script.words("counts, values, and what belongs to data, in each phase");
    for (phase, most) in [(0, 0), (1, 2), (2, 5), (3, 5), (4, 0), (5, 3), (6, 8), (7, 0)] {
        let frame = record(&[&[(32, if phase == 0 { 15 } else { 14 }), (33, phase)]]);
        for count in BTreeSet::from([most, most + 1, 9, 255]) {
            script.capture(&changed(&frame, &[(34, count)]), CALLS);
        }
        for value in [(1u16 << most) - 1, 1 << most, 256, 0x8000] {
            let bytes: Bytes = &[(34, most), (35, value as u8), (36, (value >> 8) as u8)];
            script.capture(&changed(&frame, bytes), CALLS);
        }
        for (place, byte) in [(37, 1), (37, 32), (37, 63), (38, 1), (39, 1)] {
            script.capture(&changed(&frame, &[(place, byte)]), CALLS);
        }
    }
    for count in 0..8 {
        for value in [(1u8 << count) - 1, 1 << count] {
            script.capture(&record(&[COMMAND, &[(34, count), (35, value)]]), CALLS);
        }
    }
    script.words("lengths");
    let whole = record(&[ON]);
    for length in [0, 1, 32, 63] {
        script.capture(&whole[..length], CALLS);
    }
    for more in [1, 64] {
        script.capture(&[&whole[..], &vec![0; more]].concat(), CALLS);
    }
}

// Nibbles to write, more of them than are accepted.
fn some_nibbles() -> Vec<u8> {
    (0..40).map(|i| (i * 3 + 1) % 16).collect()
}

// Writes and reads that are accepted, and refused for want of room: each address, and lengths.
pub fn streams(script: &mut Script) {
    script.words("writes and reads at each address");
    for first in 0..32 {
        script.write(first, &[(first * 5 + 2) as u8 % 16], 29);
        script.read(first, 1, 29);
    }
    let nibbles = some_nibbles();
    script.words("writes and reads of each size, and at the end of the memory");
    for (first, count) in [(0, 1), (0, 2), (3, 3), (0, 31), (0, 32), (1, 31), (31, 1), (30, 2), (24, 8)] {
        let needed = 21 + 8 * count;
        for room in [needed, needed + 2] {
            script.write(first, &nibbles[..count], room);
            script.read(first, count as u64, room);
        }
        script.write(first, &nibbles[..count], needed - 1);
        script.read(first, count as u64, needed - 1);
    }
}

// Writes and reads that are refused at the limits, in the order of the refusals, with their places.
pub fn refused_streams(script: &mut Script) {
    const MOST: u64 = u64::MAX;
    let nibbles = some_nibbles();
    script.words("21, 22 and 30");
    for (first, count) in [
        (0, 0), (31, 0), (32, 0), (MOST, 0), (0, 33), (1, 32), (16, 32), (16, 40), (31, 2), (31, 3), (31, 33), (32, 1), (32, 2), (33, 1),
        (34, 33), (63, 1), (64, 1), (255, 1), (256, 1), (1 << 32, 1), (MOST, 1), (MOST, 2), (MOST, 33), (MOST - 30, 32), (MOST - 31, 32),
    ] {
        for room in [0, 29, 400] {
            script.write(first, &nibbles[..count], room);
            script.read(first, count as u64, room);
        }
    }
    for (first, count) in [(0, MOST), (1, MOST), (2, MOST), (31, MOST), (32, MOST), (MOST, MOST), (0, 1 << 32), (5, MOST - 3), (0, 256), (0, 65)] {
        script.read(first, count, 64);
        script.read(first, count, 0);
    }
    script.words("23 and its place, after 21, 22 and 30 and before 25");
    for (first, list) in [
        (0, vec![16]), (3, vec![255]), (3, vec![1, 16]), (3, vec![1, 2, 16, 16]), (0, [vec![15; 31], vec![16]].concat()),
        (31, vec![1, 16]), (32, vec![16]), (32, vec![1, 16]), (0, vec![16; 33]), (4, vec![15, 0, 128, 17]),
    ] {
        for room in [0, 60] {
            script.write(first, &list, room);
        }
    }
}

// Commands as the driver sends them to each part: each code by itself, then their number.
pub fn sent_commands(script: &mut Script) {
    script.words("each code as a stream, to each part");
    for code in 0..=255 {
        script.commands(0, &[code], 27);
        script.commands(1, &[code], 27);
    }
    script.words("several commands");
    let many = many_commands();
    for part in [0, 1] {
        for count in [1, 2, 3, 31, 32] {
            let needed = 9 + 18 * count;
            script.commands(part, &many[..count], needed);
            script.commands(part, &many[..count], needed - 1);
        }
    }
    script.commands(0, &many[..2], 48);
}

// Commands that both parts have, more of them than are accepted.
fn many_commands() -> Vec<u8> {
    (0..40).map(|i| [0x01, 0x29, 0x5f, 0xab, 0xe3][i % 5]).collect()
}

// Parts that are none: beside those that are, and such as end in their bits.
const UNKNOWN: [u64; 10] = [2, 3, 4, 255, 256, 257, 1 << 32, (1 << 32) + 1, 1 << 63, u64::MAX];

// Commands that are refused, of each part and of none, in the order of the refusals, with their places.
pub fn refused_commands(script: &mut Script) {
    script.words("refused commands");
    let many = many_commands();
    for list in [
        vec![], many[..33].to_vec(), vec![0x2c; 33], vec![0x2c], vec![0x01, 0x0a], vec![0x01, 0x29, 0xff, 0xc0],
        [many[..31].to_vec(), vec![0xe1]].concat(), [many[..32].to_vec(), vec![0x2c]].concat(), many[..40].to_vec(), vec![0x01; 160],
    ] {
        for room in [0, 26, 100] {
            script.commands(0, &list, room);
        }
        script.commands(1, &list, 0);
        script.commands(2, &list, 0);
    }
    script.words("codes that one part has, beside others");
    for list in [
        vec![0x0a, 0x0c], vec![0x0c, 0x0a], vec![0x01, 0x0b, 0x0f], vec![0x01, 0x0e, 0x0d], vec![0x09, 0x0a, 0x0b, 0x2c],
        [many[..31].to_vec(), vec![0x0d]].concat(), [many[..31].to_vec(), vec![0x0b]].concat(), vec![0x0a; 33], vec![0x0c; 33],
    ] {
        for part in [0, 1] {
            script.commands(part, &list, 585);
            script.commands(part, &list, 0);
        }
    }
    script.words("43 of commands, before 21, 31, 24 and 25");
    for list in [vec![0x01], vec![], vec![0x2c], vec![0x0a], vec![0x0c], vec![0x01; 33]] {
        for part in UNKNOWN {
            script.commands(part, &list, 27);
        }
        script.commands(2, &list, 26);
        script.commands(u64::MAX, &list, 0);
    }
}

// Decoding: each nibble, numbers of noted bytes, and refusals.
pub fn noted(script: &mut Script) {
    script.words("decoding");
    let noted: Vec<u8> = (0..16u8).flat_map(|nibble| (0..4).map(move |bit| nibble >> bit & 1)).collect();
    let long = [&noted[..], &noted[..], &noted[..8]].concat();
    for length in [4, 8, 60, 64, 68, 124, 128] {
        script.lend('d', &long[..length], length / 4);
        script.lend('d', &long[..length], length / 4 + 1);
        script.lend('d', &long[..length], length / 4 - 1);
    }
    script.words("26, 27 and 25");
    for length in [0, 1, 2, 3, 5, 6, 7, 63, 65, 66, 127, 129, 130, 131, 132, 136] {
        for room in [0, 40] {
            script.lend('d', &long[..length], room);
        }
    }
    for list in [vec![2, 0, 0, 0], vec![0, 1, 2, 3], vec![1, 1, 1, 255], vec![2, 0, 0], vec![2; 132], vec![0, 0, 0, 0, 1, 1, 1, 2], [vec![1; 127], vec![2]].concat()] {
        for room in [0, 1, 40] {
            script.lend('d', &list, room);
        }
    }
}

// Power-on: of each part, and refused.
pub fn power_on(script: &mut Script) {
    script.words("power-on");
    let memory: Vec<u8> = (0..32).map(|i| (i * 5 + 1) % 16).collect();
    let mut lists = vec![vec![], vec![1; 31], vec![1; 33], vec![1; 64], vec![16; 31], vec![16; 33], vec![15; 32]];
    lists.extend([0, 1, 30, 31].map(|place| changed(&memory, &[(place, 16)])));
    lists.push(changed(&memory, &[(7, 255), (9, 16)]));
    for part in [0, 1] {
        for room in [0, 63, 64, 65] {
            script.power_on(part, &memory, room);
        }
    }
    for list in &lists {
        for room in [0, 64] {
            script.power_on(0, list, room);
        }
        script.power_on(1, list, 64);
        script.power_on(2, list, 64);
    }
    script.words("43 of power-on, before 29, 23 and 25");
    for list in [&memory, &lists[0], &lists[4], &lists[7]] {
        for part in UNKNOWN {
            script.power_on(part, list, 64);
        }
        script.power_on(2, list, 0);
        script.power_on(u64::MAX, list, 63);
    }
}
