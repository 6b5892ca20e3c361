// Runs the examples and cases of the rules (docs/RULES.md) on the model.
// build: rustc -O selftest.rs
// run:   ./selftest

mod model;

use model::{commands, decode, defined, listing, power_on, read, write, Model};

// The parts, as power-on and the driver are told them.
const HT: u64 = 0;
const GN: u64 = 1;

/// Counts the checks and those that went wrong.
struct Tally {
    checks: u64,
    wrong: u64,
}

impl Tally {
    // Checks that two values are equal.
    fn same<T: PartialEq + std::fmt::Debug>(&mut self, what: &str, expected: T, got: T) {
        self.checks += 1;
        if expected != got {
            self.wrong += 1;
            println!("{}: expected {:?}, got {:?}", what, expected, got);
        }
    }
}

/// A xorshift generator.
struct Dice(u64);

impl Dice {
    // The next number.
    fn roll(&mut self) -> u64 {
        self.0 ^= self.0 << 13;
        self.0 ^= self.0 >> 7;
        self.0 ^= self.0 << 17;
        self.0.wrapping_mul(0x2545_F491_4F6C_DD1D) >> 16
    }

    // A number below a bound.
    fn below(&mut self, bound: u64) -> u64 {
        self.roll() % bound
    }
}

// The chip at power-on with zero memory.
fn fresh() -> Model {
    fresh_of(HT)
}

// The chip of a part at power-on with zero memory.
fn fresh_of(part: u64) -> Model {
    power_on(part, &[0; 32]).expect("32 zeros are a memory")
}

// A chip that has obeyed commands.
fn commanded(codes: &[u8]) -> Model {
    commanded_of(HT, codes)
}

// A chip of a part that has obeyed commands.
fn commanded_of(part: u64, codes: &[u8]) -> Model {
    let mut chip = fresh_of(part);
    feed(&mut chip, &commands(part, codes, 1000).expect("defined commands"));
    chip
}

// Feeds samples and gives the answers.
fn feed(chip: &mut Model, samples: &[u8]) -> Vec<(u8, u8, u8)> {
    samples
        .iter()
        .map(|&sample| chip.sample(sample).expect("a sample"))
        .collect()
}

// A record with some of its bytes set.
fn with_bytes(mut record: [u8; 64], bytes: &[(usize, u8)]) -> [u8; 64] {
    for &(index, byte) in bytes {
        record[index] = byte;
    }
    record
}

// Cases (a) and (b), and what samples above 15 leave.
fn opening_cases(tally: &mut Tally) {
    let mut chip = fresh();
    tally.same("(a) 15 at power-on", Ok((0, 0, 0)), chip.sample(15));
    tally.same("(a) then 14", Ok((1, 0, 0)), chip.sample(14));
    let before = chip.record();
    for sample in 16..=255 {
        tally.same("(b) above 15", Err(20), chip.sample(sample));
        tally.same("(b) nothing changes", before.to_vec(), chip.record().to_vec());
    }
}

// Cases (c), (d), (e) and the lengths of all streams.
fn stream_cases(tally: &mut Tally) {
    tally.same("(c) N=1", 29, write(0, &[7], 1000).map_or(0, |s| s.len()));
    tally.same("(c) N=32", 277, write(0, &[7; 32], 1000).map_or(0, |s| s.len()));
    tally.same("(d) 31, 1", 29, write(31, &[7], 1000).map_or(0, |s| s.len()));
    tally.same("(d) 31, 2", Err((30, 0)), write(31, &[7, 7], 1000));
    tally.same("(d) read 31, 1", 29, read(31, 1, 1000).map_or(0, |s| s.len()));
    tally.same("(d) read 31, 2", Err((30, 0)), read(31, 2, 1000));
    tally.same("(e) K=1", 27, commands(HT, &[1], 1000).map_or(0, |s| s.len()));
    for count in 1..=32 {
        let needed = 21 + 8 * count;
        tally.same(
            "write length",
            Ok(needed),
            write(0, &vec![3; count], needed).map(|s| s.len()),
        );
        tally.same("write 25", Err((25, 0)), write(0, &vec![3; count], needed - 1));
        tally.same(
            "read length",
            Ok(needed),
            read(0, count as u64, needed).map(|s| s.len()),
        );
        tally.same("read 25", Err((25, 0)), read(0, count as u64, needed - 1));
        let needed = 9 + 18 * count;
        tally.same(
            "command length",
            Ok(needed),
            commands(HT, &vec![3; count], needed).map(|s| s.len()),
        );
        tally.same("command 25", Err((25, 0)), commands(HT, &vec![3; count], needed - 1));
    }
    let five = [
        15, 14, 12, 14, 4, 6, 12, 14, 4, 6, 4, 6, 4, 6, 4, 6, 12, 14, 12, 14, 12, 14, 4, 6, 12, 14, 4, 6, 15,
    ];
    tally.same("5 at address 3", Ok(five.to_vec()), write(3, &[5], 29));
}

// Which range is wrong: the first address, or the end, with room enough and with none.
fn range_cases(tally: &mut Tally) {
    const MOST: u64 = u64::MAX;
    for (first, count, number) in [
        (32, 1, 22), (32, 2, 22), (32, 33, 22), (34, 40, 22), (255, 1, 22), (MOST, 1, 22), (MOST, 2, 22), (MOST, 33, 22),
        (0, 33, 30), (1, 32, 30), (1, 40, 30), (16, 17, 30), (16, 40, 30), (30, 3, 30), (31, 2, 30), (31, 3, 30), (31, 33, 30),
    ] {
        for room in [0, 1000] {
            let told = Err((number, 0));
            tally.same(&format!("write {first}, {count}"), told.clone(), write(first, &vec![5; count as usize], room));
            tally.same(&format!("read {first}, {count}"), told, read(first, count, room));
        }
    }
    for (first, count, number) in [(32, MOST, 22), (MOST, MOST, 22), (MOST, MOST - 1, 22), (0, MOST, 30), (1, MOST, 30), (31, MOST, 30)] {
        for room in [0, 1000] {
            tally.same(&format!("read {first}, {count}"), Err((number, 0)), read(first, count, room));
        }
    }
}

// Refusals of the driver, in their order.
fn refusal_cases(tally: &mut Tally) {
    tally.same("21 before 22", Err((21, 0)), write(99, &[], 0));
    for nibbles in [[16, 1], [1, 16]] {
        tally.same("22 before 23", Err((22, 0)), write(32, &nibbles, 0));
        tally.same("30 before 23", Err((30, 0)), write(31, &nibbles, 0));
    }
    tally.same("23 before 25", Err((23, 1)), write(0, &[15, 16, 17], 0));
    tally.same("25", Err((25, 0)), write(0, &[15], 28));
    tally.same("read 21", Err((21, 0)), read(u64::MAX, 0, 0));
    range_cases(tally);
    tally.same("commands 21", Err((21, 0)), commands(HT, &[], 0));
    tally.same("commands 31", Err((31, 0)), commands(HT, &[0x01; 33], 1000));
    tally.same("commands 31, 160", Err((31, 0)), commands(HT, &[0x01; 160], 3000));
    tally.same("31 before 24", Err((31, 0)), commands(HT, &[0x2C; 33], 0));
    tally.same("31 before 24, the last", Err((31, 0)), commands(HT, &[&[0x01; 32][..], &[0x2C]].concat(), 0));
    tally.same("commands 24", Err((24, 2)), commands(HT, &[0, 1, 0x2C, 0x2C], 0));
    tally.same("decode 26, none", Err((26, 0)), decode(&[], 0));
    tally.same("decode 26, three", Err((26, 0)), decode(&[2, 2, 2], 0));
    tally.same("decode 26, 132", Err((26, 0)), decode(&[2; 132], 0));
    tally.same("decode 27", Err((27, 2)), decode(&[0, 1, 2, 3], 0));
    tally.same("decode 25", Err((25, 0)), decode(&[0, 1, 1, 1], 0));
    tally.same("power-on 29", Some((29, 0)), power_on(HT, &[16; 31]).err());
    tally.same("power-on 29", Some((29, 0)), power_on(HT, &[16; 33]).err());
    let mut memory = [15; 32];
    memory[30] = 16;
    memory[31] = 255;
    tally.same("power-on 23", Some((23, 30)), power_on(HT, &memory).err());
}

// Case (f), the defined bytes and the 512 codes.
fn command_cases(tally: &mut Tally) {
    tally.same("(f) 2B commons", 4, commanded(&[0x2B]).record()[44]);
    tally.same("(f) 2B bias", 3, commanded(&[0x2B]).record()[43]);
    for part in [HT, GN] {
        tally.same("(f) 2C", false, defined(part as u8, 0x2C));
        let undefined = (0..=255).filter(|&code| !defined(part as u8, code)).count();
        tally.same("undefined bytes", 88, undefined);
        let passed_over: u32 = (0..512).map(|code| nine_bits(tally, part, code)).sum();
        tally.same("undefined codes", 176, passed_over);
        for code in 0..=255u8 {
            tally.same("defined as tabled", tabled(part, code), defined(part as u8, code));
        }
    }
}

// Sends a nine-bit code to a chip of a part; 1 if it was passed over.
fn nine_bits(tally: &mut Tally, part: u64, code: u16) -> u32 {
    let mut chip = fresh_of(part);
    feed(&mut chip, &[14, 12, 14, 4, 6, 4, 6]);
    let before = chip.record();
    let mut answer = (0, 0, 0);
    for place in (0..9).rev() {
        let bit = (code >> place & 1) as u8;
        answer = feed(&mut chip, &[4 + 8 * bit, 6 + 8 * bit])[1];
        tally.same("code bit", place > 0, answer.0 == 4);
    }
    tally.same("code answered", (code >> 1) as u8, answer.1);
    if answer.0 == 7 {
        tally.same("passed over", before[40..].to_vec(), chip.record()[40..].to_vec());
    }
    tally.same("6 or 7", true, answer.0 == 6 || answer.0 == 7);
    (answer.0 == 7) as u32
}

// The defined codes of a part, as the table of the rules lists them.
fn tabled(part: u64, code: u8) -> bool {
    match code {
        0x0A..=0x0B => part == GN,
        0x0C..=0x0D => part == HT,
        0x00..=0x09 | 0x0E..=0x0F | 0x14..=0x1F | 0x20..=0x2B => true,
        0x40..=0x7F | 0x80..=0x9F | 0xA0..=0xBF | 0xE0 | 0xE3 => true,
        _ => false,
    }
}

// Case (g), of each part.
fn clear_cases(tally: &mut Tally) {
    let counted: &[(usize, u8)] = &[(51, 1), (54, 9), (55, 200), (56, 2)];
    for (part, code, w, flag) in [
        (HT, 0x0C, 2, 1), (HT, 0x0D, 2, 1), (HT, 0x0E, 0, 0), (HT, 0x0F, 0, 0),
        (GN, 0x0A, 2, 1), (GN, 0x0B, 2, 1), (GN, 0x0E, 0, 0), (GN, 0x0F, 0, 0),
    ] {
        let mut chip = holding(part, counted);
        feed(&mut chip, &commands(part, &[code], 27).expect("a clear command"));
        let record = chip.record();
        tally.same("(g) d", 0, record[54]);
        tally.same("(g) b", 0, record[55]);
        tally.same("(g) w", w, record[56]);
        tally.same("(g) flag", flag, record[51]);
    }
}

// The chip of a part at power-on with some bytes of its record set.
fn holding(part: u64, bytes: &[(usize, u8)]) -> Model {
    Model::from_record(&with_bytes(fresh_of(part).record(), bytes)).expect("a valid record")
}

// Sends a byte as a command's code in a frame of its own, by hand: what completes it is answered, and the record then.
fn sent_by_hand(chip: &mut Model, code: u8) -> ((u8, u8, u8), [u8; 64]) {
    feed(chip, &[15, 14]);
    let answers = told(chip, &format!("100{code:08b}0"));
    feed(chip, &[15]);
    (answers[11], chip.record())
}

// 08 to 0F in each part, sent by hand to a chip with the tone off or on, the flag set and d, b and w moved: the answer, and
// the bytes that differ afterwards.
fn part_code_cases(tally: &mut Tally) {
    let clear_timer: &[(usize, u8)] = &[(54, 0), (55, 0)];
    let clear_wdt: &[(usize, u8)] = &[(51, 0), (54, 0), (55, 0), (56, 0)];
    let cases: [(u8, [(u8, &[(usize, u8)]); 2]); 8] = [
        (0x08, [(6, &[(45, 0)]), (6, &[(45, 0)])]),
        (0x09, [(6, &[(45, 1)]), (6, &[(45, 1)])]),
        (0x0A, [(7, &[]), (6, clear_timer)]),
        (0x0B, [(7, &[]), (6, clear_timer)]),
        (0x0C, [(6, clear_timer), (7, &[])]),
        (0x0D, [(6, clear_timer), (7, &[])]),
        (0x0E, [(6, clear_wdt), (6, clear_wdt)]),
        (0x0F, [(6, clear_wdt), (6, clear_wdt)]),
    ];
    for (code, of_parts) in cases {
        for (part, (answer, changed)) in [HT, GN].into_iter().zip(of_parts) {
            for tone in [0, 1] {
                let mut chip = holding(part, &[(45, tone), (51, 1), (54, 9), (55, 200), (56, 2), (59, 7), (60, 1)]);
                let due = with_bytes(chip.record(), changed);
                let (answered, record) = sent_by_hand(&mut chip, code);
                tally.same(&format!("{code:02x} in part {part}"), (answer, code, 0), answered);
                tally.same(&format!("record after {code:02x} in part {part}"), due.to_vec(), record.to_vec());
            }
        }
    }
}

// The driver goes by the part that it is told: a code that only one part has, and what its stream does in each.
fn told_part_cases(tally: &mut Tally) {
    for (part, own, other) in [(HT, [0x0C, 0x0D], [0x0A, 0x0B]), (GN, [0x0A, 0x0B], [0x0C, 0x0D])] {
        for code in own {
            tally.same("own code", Ok(27), commands(part, &[code], 27).map(|stream| stream.len()));
            tally.same("own code, the other part told", Err((24, 0)), commands(1 - part, &[code], 27));
        }
        for code in other {
            tally.same("the other's code", Err((24, 2)), commands(part, &[own[0], 0x0E, code, 0x2C], 0));
        }
        let stream = commands(part, &own, 45).expect("CLR TIMER twice");
        for chip_part in [HT, GN] {
            let mut chip = holding(chip_part, &[(54, 9), (55, 200), (56, 2)]);
            let answers = feed(&mut chip, &stream);
            let answer = if chip_part == part { 6 } else { 7 };
            tally.same("CLR TIMER", [(answer, own[0], 0), (answer, own[1], 0)], [answers[25], answers[43]]);
            let left = if chip_part == part { vec![0, 0, 2] } else { vec![9, 200, 2] };
            tally.same("d, b, w", left, chip.record()[54..57].to_vec());
        }
    }
    let alike: Vec<u8> = (0..=255).filter(|&code| tabled(HT, code) && tabled(GN, code)).collect();
    tally.same("codes of both parts", 166, alike.len());
    for codes in alike.chunks(32) {
        tally.same("the same stream", commands(HT, codes, 600), commands(GN, codes, 600));
    }
}

// Parts that are told: 0 and 1 are known, and whatever else is refused with 43 before all other faults.
fn unknown_part_cases(tally: &mut Tally) {
    for part in [2, 3, 255, 256, 257, 1 << 16, 1 << 32, (1 << 32) + 1, 1 << 63, u64::MAX] {
        for (codes, room) in [(&[1][..], 27), (&[], 0), (&[0x2C], 0), (&[1; 33], 0), (&[1], 26), (&[0x0A], 27)] {
            tally.same(&format!("commands of part {part}"), Err((43, 0)), commands(part, codes, room));
        }
        for memory in [&[0; 32][..], &[], &[0; 31], &[16; 31], &[16; 32], &[0; 33]] {
            tally.same(&format!("power-on of part {part}"), Some((43, 0)), power_on(part, memory).err());
        }
    }
    for part in [HT, GN] {
        tally.same("21 of a known part", Err((21, 0)), commands(part, &[], 0));
        tally.same("31 before 24", Err((31, 0)), commands(part, &[0x2C; 33], 0));
        tally.same("24 before 25", Err((24, 1)), commands(part, &[1, 0x2C], 0));
        tally.same("25 of a known part", Err((25, 0)), commands(part, &[1], 26));
        tally.same("29 before 23", Some((29, 0)), power_on(part, &[16; 33]).err());
        tally.same("23 of a known part", Some((23, 0)), power_on(part, &[16; 32]).err());
    }
}

// Power-on of each part: its bytes 40 to 63, RC, bias 1/2 with 2 commons, 4k, F128, and the part.
fn power_on_cases(tally: &mut Tally) {
    for part in [HT, GN] {
        let memory: Vec<u8> = (0..32).map(|address| address % 16).collect();
        let mut due = [0; 64];
        due[..32].copy_from_slice(&memory);
        let due = with_bytes(due, &[(32, 15), (41, 1), (43, 2), (44, 2), (46, 4), (48, 7), (58, part as u8)]);
        let got = power_on(part, &memory).map(|chip| chip.record().to_vec());
        tally.same(&format!("power-on of part {part}"), due.to_vec(), got.unwrap_or_default());
    }
}

// Bytes 59 and 60 after so many ticks.
fn scan_after(chip: &Model, ticks: u32) -> [u8; 2] {
    let record = ticked(chip, ticks).record();
    [record[59], record[60]]
}

// The scan's steps in a chip that runs with XTAL. In an HT the counter goes from 127 to 0, in a GN from 95; then the common
// steps, and from the last it goes to 0.
fn scan_cases(tally: &mut Tally) {
    let xtal = |part, bytes: &[(usize, u8)]| holding(part, &[&[(40, 1), (41, 0)], bytes].concat());
    for (part, commons, before, ticks, after) in [
        (HT, 2, [0, 0], 0, [0, 0]), (HT, 2, [0, 0], 1, [1, 0]), (HT, 2, [94, 0], 1, [95, 0]), (HT, 2, [95, 0], 1, [96, 0]),
        (HT, 2, [96, 0], 1, [97, 0]), (HT, 2, [126, 0], 1, [127, 0]), (HT, 2, [127, 0], 1, [0, 1]), (HT, 2, [127, 1], 1, [0, 0]),
        (HT, 3, [127, 0], 1, [0, 1]), (HT, 3, [127, 1], 1, [0, 2]), (HT, 3, [127, 2], 1, [0, 0]),
        (HT, 4, [127, 0], 1, [0, 1]), (HT, 4, [127, 1], 1, [0, 2]), (HT, 4, [127, 2], 1, [0, 3]), (HT, 4, [127, 3], 1, [0, 0]),
        (HT, 4, [0, 0], 127, [127, 0]), (HT, 4, [0, 0], 128, [0, 1]), (HT, 4, [0, 0], 129, [1, 1]), (HT, 4, [1, 3], 127, [0, 0]),
        (HT, 4, [0, 0], 511, [127, 3]), (HT, 4, [0, 0], 512, [0, 0]), (HT, 3, [0, 0], 384, [0, 0]), (HT, 3, [0, 0], 383, [127, 2]),
        (HT, 2, [0, 0], 256, [0, 0]), (HT, 2, [5, 1], 256, [5, 1]), (HT, 2, [0, 0], 96, [96, 0]),
        (GN, 2, [0, 0], 0, [0, 0]), (GN, 2, [0, 0], 1, [1, 0]), (GN, 2, [94, 0], 1, [95, 0]), (GN, 2, [95, 0], 1, [0, 1]),
        (GN, 2, [95, 1], 1, [0, 0]), (GN, 3, [95, 0], 1, [0, 1]), (GN, 3, [95, 1], 1, [0, 2]), (GN, 3, [95, 2], 1, [0, 0]),
        (GN, 4, [95, 0], 1, [0, 1]), (GN, 4, [95, 1], 1, [0, 2]), (GN, 4, [95, 2], 1, [0, 3]), (GN, 4, [95, 3], 1, [0, 0]),
        (GN, 4, [0, 0], 95, [95, 0]), (GN, 4, [0, 0], 96, [0, 1]), (GN, 4, [0, 0], 97, [1, 1]), (GN, 4, [1, 3], 95, [0, 0]),
        (GN, 4, [0, 0], 383, [95, 3]), (GN, 4, [0, 0], 384, [0, 0]), (GN, 3, [0, 0], 288, [0, 0]), (GN, 3, [0, 0], 287, [95, 2]),
        (GN, 2, [0, 0], 192, [0, 0]), (GN, 2, [5, 1], 192, [5, 1]), (GN, 2, [0, 0], 128, [32, 1]), (GN, 4, [0, 0], 65_535, [63, 2]),
        (HT, 4, [0, 0], 65_535, [127, 3]), (HT, 3, [0, 0], 65_535, [127, 1]), (GN, 2, [0, 0], 65_535, [63, 0]),
    ] {
        let chip = xtal(part, &[(44, commons), (59, before[0]), (60, before[1])]);
        let what = format!("scan of part {part}, {commons} commons, {before:?} after {ticks}");
        tally.same(&what, after, scan_after(&chip, ticks));
    }
}

// What the scan steps with: base ticks while the chip runs, and nothing else.
fn scan_tick_cases(tally: &mut Tally) {
    for (part, last) in [(HT, 127), (GN, 95)] {
        let end: &[(usize, u8)] = &[(44, 3), (59, last), (60, 1)];
        let chip = |bytes: &[(usize, u8)]| holding(part, &[end, bytes].concat());
        for (what, bytes, ticks, after) in [
            ("RC, p 0, seven", &[(40, 1), (41, 1)][..], 7, [last, 1]),
            ("RC, p 0, eight", &[(40, 1), (41, 1)], 8, [0, 2]),
            ("RC, p 0, fifteen", &[(40, 1), (41, 1)], 15, [0, 2]),
            ("RC, p 0, sixteen", &[(40, 1), (41, 1)], 16, [1, 2]),
            ("RC, p 7, one", &[(40, 1), (41, 1), (52, 7)], 1, [0, 2]),
            ("RC, p 6, one", &[(40, 1), (41, 1), (52, 6)], 1, [last, 1]),
            ("EXT, p 6, two, system off", &[(41, 2), (52, 6)], 2, [0, 2]),
            ("EXT, p 7, one, system on", &[(40, 1), (41, 2), (52, 7)], 1, [0, 2]),
            ("XTAL, p 3", &[(40, 1), (41, 0), (52, 3)], 1, [0, 2]),
            ("XTAL, not running", &[(41, 0)], 9, [last, 1]),
            ("RC, not running", &[(41, 1), (52, 7)], 9, [last, 1]),
            ("time base on", &[(40, 1), (41, 0), (49, 1)], 1, [0, 2]),
            ("LCD on", &[(40, 1), (41, 0), (42, 1)], 1, [0, 2]),
            ("LCD and time base on, slow", &[(40, 1), (41, 0), (42, 1), (48, 0), (49, 1)], 2, [1, 2]),
            ("EXT, LCD on, not base ticks", &[(41, 2), (42, 1), (52, 0)], 7, [last, 1]),
        ] {
            tally.same(&format!("part {part}: {what}"), after, scan_after(&chip(bytes), ticks));
        }
    }
}

// Commands and the scan: each of 20 to 2B begins it anew, whatever the commons were; all other codes leave it.
fn scan_command_cases(tally: &mut Tally) {
    for part in [HT, GN] {
        for commons in 2..=4 {
            for code in 0..=255u8 {
                let mut chip = holding(part, &[(44, commons), (59, 41), (60, commons - 1)]);
                let (_, record) = sent_by_hand(&mut chip, code);
                let sets = (0x20..=0x2B).contains(&code);
                let due = if sets { [0, 0] } else { [41, commons - 1] };
                tally.same(&format!("scan after {code:02x} in part {part}"), due, [record[59], record[60]]);
                if sets {
                    tally.same("commons", 2 + (code - 0x20) / 4, record[44]);
                }
            }
        }
        // 2C, which is undefined, and BIAS with 3 commons where there are 3: only the common had moved, or only the counter.
        for (code, before, due) in [(0x2C, [0, 2], [0, 2]), (0x24, [0, 2], [0, 0]), (0x24, [9, 0], [0, 0]), (0x2C, [9, 0], [9, 0])] {
            let mut chip = holding(part, &[(44, 3), (59, before[0]), (60, before[1])]);
            let (_, record) = sent_by_hand(&mut chip, code);
            tally.same("scan begun anew", due, [record[59], record[60]]);
        }
    }
}

// Which records are valid in each part: bytes 58 to 63, and byte 60 beside byte 44.
fn part_validity_cases(tally: &mut Tally) {
    let base = fresh().record();
    for byte in 0..=255u8 {
        tally.same("byte 58", byte <= 1, model::valid(&with_bytes(base, &[(58, byte)])));
        tally.same("byte 59, HT", byte <= 127, model::valid(&with_bytes(base, &[(59, byte)])));
        tally.same("byte 59, GN", byte <= 95, model::valid(&with_bytes(base, &[(58, 1), (59, byte)])));
        for part in 0..2 {
            for (commons, last) in [(2, 1), (3, 2), (4, 3)] {
                let record = with_bytes(base, &[(44, commons), (58, part), (60, byte)]);
                tally.same(&format!("byte 60, {commons} commons"), byte <= last, model::valid(&record));
            }
            for place in 61..64 {
                let record = with_bytes(base, &[(58, part), (place, byte)]);
                tally.same(&format!("byte {place}"), byte == 0, model::valid(&record));
            }
        }
    }
    // The same bytes in either part, and a part that is none.
    for (part, counter, due) in [(0, 95, true), (1, 95, true), (0, 96, true), (1, 96, false), (0, 127, true), (1, 127, false), (2, 0, false), (2, 96, false)] {
        let record = with_bytes(base, &[(58, part), (59, counter)]);
        tally.same(&format!("part {part}, counter {counter}"), due, model::valid(&record));
    }
    // Zeros from 58 on are an HT with counter and common 0.
    let chip = Model::from_record(&with_bytes(base, &[(40, 1), (41, 0)])).expect("a valid record");
    tally.same("zeros are an HT", [0, 1], scan_after(&chip, 128));
    tally.same("that keeps its part", 0, ticked(&chip, 128).record()[58]);
}

// The pins of a chip do not depend on part, counter or common.
fn part_pin_cases(tally: &mut Tally) {
    let lit: &[(usize, u8)] = &[(0, 15), (31, 9), (40, 1), (42, 1), (44, 3), (45, 1), (47, 1), (50, 1), (53, 5), (55, 130)];
    let due = holding(HT, lit).pins();
    tally.same("lit", (3, [7, 1]), (due.0, [due.1[0], due.1[31]]));
    for (part, counter, common) in [(HT, 127, 2), (HT, 0, 1), (GN, 0, 0), (GN, 95, 2), (GN, 48, 1)] {
        let chip = holding(part, &[lit, &[(59, counter), (60, common)]].concat());
        tally.same(&format!("pins of part {part} at {counter}, {common}"), due, chip.pins());
    }
}

// Writes and reads of a GN are those of an HT: what is written is read back, and the part stays.
fn part_stream_cases(tally: &mut Tally) {
    let mut chip = fresh_of(GN);
    feed(&mut chip, &write(3, &[5, 10, 15], 45).expect("a write"));
    tally.same("written to a GN", vec![5, 10, 15], read_back(&mut chip, 3, 3));
    tally.same("still a GN", 1, chip.record()[58]);
}

// Cases (h), (i) and (j).
fn tick_cases(tally: &mut Tally) {
    // (h) SYS EN, XTAL, F128, CLR WDT, WDT EN
    let flag = commanded(&[0x01, 0x14, 0xA7, 0x0E, 0x07]);
    tally.same("(h) 1,023", 0, ticked(&flag, 1023).record()[51]);
    tally.same("(h) 1,024", 1, ticked(&flag, 1024).record()[51]);
    // (i) SYS EN, XTAL, F128, CLR TIMER, TIMER EN, IRQ EN
    let timer = commanded(&[0x01, 0x14, 0xA7, 0x0C, 0x06, 0x88]);
    tally.same("(i) 127", 0, ticked(&timer, 127).pins().0);
    tally.same("(i) 128", 1, ticked(&timer, 128).pins().0);
    // (j) the same with RC
    let slow = commanded(&[0x01, 0x18, 0xA7, 0x0C, 0x06, 0x88]);
    tally.same("(j) 1,023", 0, ticked(&slow, 1023).pins().0);
    tally.same("(j) 1,024", 1, ticked(&slow, 1024).pins().0);
}

// IRQ DIS lets go of a time-out: SYS EN, XTAL, F128, CLR WDT, WDT EN, IRQ EN, and 1,024 ticks; then IRQ DIS and IRQ EN, with
// ticks between them and after them.
fn time_out_case(tally: &mut Tally) {
    let low = ticked(&commanded(&[0x01, 0x14, 0xA7, 0x0E, 0x07, 0x88]), 1024);
    tally.same("timed out", 1, low.pins().0);
    for &(between, after, pins) in [(0, 0, 0), (0, 1023, 0), (0, 1024, 1), (1023, 0, 0), (1023, 1, 1), (1024, 0, 1)].iter() {
        let mut chip = low.clone();
        feed(&mut chip, &commands(HT, &[0x80], 27).expect("IRQ DIS"));
        tally.same("let go", 0, chip.record()[51]);
        chip = ticked(&chip, between);
        tally.same("output off", 0, chip.pins().0);
        feed(&mut chip, &commands(HT, &[0x88], 27).expect("IRQ EN"));
        tally.same("timed out again", pins, ticked(&chip, after).pins().0);
    }
}

// A chip after so many single ticks.
fn ticked(chip: &Model, ticks: u32) -> Model {
    let mut chip = chip.clone();
    for _ in 0..ticks {
        chip.tick();
    }
    chip
}

// Case (k) and every noted nibble.
fn decode_cases(tally: &mut Tally) {
    tally.same("(k)", Ok(vec![5]), decode(&[1, 0, 1, 0], 1));
    for nibble in 0..16u8 {
        let noted = [nibble & 1, nibble >> 1 & 1, nibble >> 2 & 1, nibble >> 3];
        tally.same("noted", Ok(vec![nibble]), decode(&noted, 1));
    }
}

// The listing's examples and its other ends.
fn listing_cases(tally: &mut Tally) {
    let many = listing(b"fece46ce46464646cececece46ce46f");
    tally.same(
        "bits too many",
        "2 1 0 0\n28 5 3 11\n31 3 0 0\nend 31 0\n",
        &text(&many),
    );
    let exact = listing(b"fece46ce46464646cecece46ce46f");
    tally.same("5 at 3", "2 1 0 0\n28 5 3 5\n29 2 0 0\nend 29 0\n", &text(&exact));
    tally.same("empty", "end 0 0\n", &text(&listing(b"")));
    tally.same("ticks", "2 1 0 0\nend 2 3\n", &text(&listing(b"f t\nett")));
    tally.same("bad", "2 1 0 0\nbad 2\n", &text(&listing(b"feFe")));
    tally.same("bad tab", "bad 0\n", &text(&listing(b"\tf")));
    tally.same("65,536", "end 65536 0\n", &text(&listing(&[b'f'; 65_536])));
    tally.same("65,537", "long\n", &text(&listing(&[b'?'; 65_537])));
}

// A listing as text.
fn text(bytes: &[u8]) -> String {
    String::from_utf8_lossy(bytes).into_owned()
}

// A write stores nibble i at sample 20 + 8i, and a read gives it back.
fn stored_cases(tally: &mut Tally) {
    for first in 0..32usize {
        for count in 1..=32 - first {
            let nibbles: Vec<u8> = (0..count).map(|i| ((i * 7 + first * 3 + 1) % 16) as u8).collect();
            let mut chip = fresh();
            let answers = feed(&mut chip, &write(first as u64, &nibbles, 300).expect("a write"));
            for (place, answer) in answers.iter().enumerate().filter(|pair| pair.1 .0 == 5) {
                let index = (place + 1 - 20) / 8 - 1;
                tally.same("stored", (5, (first + index) as u8, nibbles[index]), *answer);
                tally.same("stored at", 28 + 8 * index, place + 1);
            }
            tally.same(
                "stores",
                count,
                answers.iter().filter(|answer| answer.0 == 5).count(),
            );
            tally.same("read back", nibbles, read_back(&mut chip, first, count));
        }
    }
}

// Reads nibbles back by noting DATA.
fn read_back(chip: &mut Model, first: usize, count: usize) -> Vec<u8> {
    let mut noted = Vec::new();
    let mut before = 15;
    for sample in read(first as u64, count as u64, 300).expect("a read") {
        feed(chip, &[sample]);
        if sample == 14 && before == 10 {
            noted.push((chip.pins().0 / 8 - 1) as u8);
        }
        before = sample;
    }
    decode(&noted, 32).expect("noted bits")
}

// A random valid record.
fn random_record(dice: &mut Dice) -> [u8; 64] {
    let tops = [
        (41, 3),
        (42, 2),
        (40, 2),
        (45, 2),
        (47, 2),
        (48, 8),
        (49, 2),
        (50, 3),
        (51, 2),
        (52, 8),
        (53, 16),
        (54, 128),
        (55, 256),
        (56, 4),
        (57, 2),
    ];
    let mut record = [0; 64];
    for byte in record[..32].iter_mut() {
        *byte = dice.below(16) as u8;
    }
    let phase = dice.below(8) as usize;
    record[32] = (dice.below(8) * 2) as u8 + (phase == 0) as u8;
    record[33] = phase as u8;
    record[34] = dice.below([0, 2, 5, 5, 0, 3, 8, 0][phase] + 1) as u8;
    record[35] = dice.below(1 << record[34]) as u8;
    if phase == 4 || phase == 5 {
        record[37] = dice.below(64) as u8;
        record[38] = dice.below(4) as u8;
        record[39] = dice.below(3) as u8;
    }
    for &(index, top) in tops.iter() {
        record[index] = dice.below(top) as u8;
    }
    record[43] = 2 + dice.below(2) as u8;
    record[44] = 2 + dice.below(3) as u8;
    record[46] = 2 + 2 * dice.below(2) as u8;
    record[58] = dice.below(2) as u8;
    record[59] = dice.below([128, 96][record[58] as usize]) as u8;
    record[60] = dice.below(record[44] as u64) as u8;
    record
}

// Records read and written again are the same bytes, and a live history goes on
// as the one made up from its record does.
fn record_cases(tally: &mut Tally) {
    let mut dice = Dice(1621);
    for _ in 0..20_000 {
        let record = random_record(&mut dice);
        let mut chip = Model::from_record(&record).expect("a valid record");
        tally.same("read and written", record.to_vec(), chip.record().to_vec());
        for _ in 0..20 {
            let sample = (dice.below(16) & if dice.below(16) == 0 { 15 } else { 14 }) as u8;
            let mut other = Model::from_record(&chip.record()).expect("a valid record");
            tally.same("same answer", chip.sample(sample), other.sample(sample));
            tally.same("same record", chip.record().to_vec(), other.record().to_vec());
            tally.same("same pins", chip.pins(), other.pins());
        }
    }
    for length in (0..130).filter(|&length| length != 64) {
        tally.same("length", true, Model::from_record(&vec![0; length]).is_none());
    }
}

// One tick as the rules' sentences say it, on the bytes of a record.
fn tick_in_words(record: &mut [u8; 64]) {
    let external = record[41] == 2;
    if record[40] == 0 && !external {
        return;
    }
    if record[41] != 0 {
        record[52] = (record[52] + 1) % 8;
        if record[52] != 0 {
            return;
        }
    }
    record[53] = (record[53] + 1) % 16;
    record[59] = (record[59] + 1) % if record[58] == 0 { 128 } else { 96 };
    if record[59] == 0 {
        record[60] = (record[60] + 1) % record[44];
    }
    if record[49] == 0 {
        return;
    }
    record[54] = (record[54] + 1) % 128;
    if record[54] as u32 % (1 << (7 - record[48])) != 0 {
        return;
    }
    record[55] = record[55].wrapping_add(1);
    if record[55] != 0 {
        return;
    }
    record[56] = (record[56] + 1) % 4;
    if record[56] == 0 {
        record[51] = 1;
    }
}

// Advancing is so many ticks as the rules' sentences say them.
fn advance_cases(tally: &mut Tally) {
    let mut dice = Dice(32768);
    for round in 0..600 {
        let mut record = random_record(&mut dice);
        let ticks = if round % 3 == 0 {
            dice.below(65_536)
        } else {
            dice.below(2_000)
        };
        let mut chip = Model::from_record(&record).expect("a valid record");
        chip.advance(ticks as u16);
        for _ in 0..ticks {
            tick_in_words(&mut record);
        }
        tally.same("advanced", record.to_vec(), chip.record().to_vec());
    }
}

// The rules of frames that are easily got wrong.
fn frame_cases(tally: &mut Tally) {
    let write_head = [14, 12, 14, 4, 6, 12, 14, 4, 6, 4, 6, 4, 6, 4, 6, 4, 6, 4, 6];
    let mut chip = power_on(HT, &[6; 32]).expect("a memory");
    feed(&mut chip, &write_head);
    // Four bits read in a 101 frame cycle and never step the address.
    for bit in [0, 1, 1, 0, 0].iter() {
        tally.same(
            "offered",
            vec![(8, 0, *bit), (0, 0, 0)],
            feed(&mut chip, &[10, 14]),
        );
    }
    // A rise in the sample that raises CS does not count.
    tally.same(
        "three bits",
        vec![(4, 0, 0); 3],
        odd(&feed(&mut chip, &[4, 6, 4, 6, 4, 6])),
    );
    tally.same("cut short", vec![(0, 0, 0), (3, 0, 0)], feed(&mut chip, &[4, 7]));
    tally.same("not stored", 6, chip.record()[0]);
    // A clash is answered 11 in a dead frame too; other edges there are stray.
    feed(&mut chip, &[14, 4, 6, 4, 6]);
    tally.same("unknown ID", (10, 0, 0), feed(&mut chip, &[4, 6])[1]);
    tally.same("dead clash", (11, 0, 0), feed(&mut chip, &[4, 2])[1]);
    tally.same(
        "dead stray",
        vec![(0, 0, 0), (9, 0, 0), (0, 0, 0), (9, 0, 0)],
        feed(&mut chip, &[6, 2, 4, 6]),
    );
    tally.same("dead close", vec![(2, 0, 0)], feed(&mut chip, &[15]));
    // Reading goes from 63 to 0, and a stray rise leaves the offered bit.
    let mut memory = [0; 32];
    memory[31] = 8;
    memory[0] = 1;
    let mut chip = power_on(HT, &memory).expect("a memory");
    feed(
        &mut chip,
        &[
            14, 12, 14, 12, 14, 4, 6, 12, 14, 12, 14, 12, 14, 12, 14, 12, 14, 12, 14,
        ],
    );
    let offered = even(&feed(&mut chip, &[10, 14, 10, 14, 10, 14, 10, 14, 10, 14]));
    tally.same(
        "63 to 0",
        vec![(8, 63, 0), (8, 63, 0), (8, 63, 0), (8, 63, 0), (8, 0, 1)],
        offered,
    );
    tally.same("stray rise", vec![(0, 0, 0), (9, 0, 0)], feed(&mut chip, &[4, 6]));
    tally.same("still offered", 2, chip.pins().0 / 8);
    tally.same("closed", vec![(2, 0, 0)], feed(&mut chip, &[15]));
    tally.same("released", 0, chip.pins().0 / 8);
}

// The answers at odd places.
fn odd(answers: &[(u8, u8, u8)]) -> Vec<(u8, u8, u8)> {
    answers.iter().skip(1).step_by(2).copied().collect()
}

// The answers at even places.
fn even(answers: &[(u8, u8, u8)]) -> Vec<(u8, u8, u8)> {
    answers.iter().step_by(2).copied().collect()
}

// The pins' numbers and cells.
fn pin_cases(tally: &mut Tally) {
    let memory: Vec<u8> = (0..32).map(|s| s % 16).collect();
    let base = power_on(HT, &memory).expect("a memory").record();
    let shown = |bytes: &[(usize, u8)]| {
        Model::from_record(&with_bytes(base, bytes))
            .expect("valid")
            .pins()
    };
    tally.same("off", (0, [0; 32]), shown(&[(45, 1)]));
    tally.same("tone low", 4, shown(&[(40, 1), (45, 1)]).0);
    tally.same("4k at 3", 4, shown(&[(40, 1), (45, 1), (53, 3)]).0);
    tally.same("4k at 4", 2, shown(&[(40, 1), (45, 1), (53, 4)]).0);
    tally.same("4k at 8", 4, shown(&[(40, 1), (45, 1), (53, 8)]).0);
    tally.same("2k at 7", 4, shown(&[(41, 2), (45, 1), (46, 2), (53, 7)]).0);
    tally.same("2k at 8", 2, shown(&[(41, 2), (45, 1), (46, 2), (53, 8)]).0);
    tally.same("flag", 1, shown(&[(47, 1), (50, 2), (51, 1)]).0);
    tally.same("flag, output off", 0, shown(&[(50, 2), (51, 1)]).0);
    tally.same("b 127", 0, shown(&[(47, 1), (50, 1), (55, 127), (51, 1)]).0);
    tally.same("b 128", 1, shown(&[(47, 1), (50, 1), (55, 128)]).0);
    for commons in 2..=4u8 {
        let cells = shown(&[(41, 2), (42, 1), (44, commons)]).1;
        let expected: Vec<u8> = memory
            .iter()
            .map(|nibble| nibble & ((1 << commons) - 1))
            .collect();
        tally.same("cells", expected, cells.to_vec());
    }
}

// The whole effect of each command: what a chip holds before, the code, and the
// bytes that differ afterwards.
fn effect_cases(tally: &mut Tally) {
    let all_on: &[(usize, u8)] = &[(40, 1), (42, 1), (45, 1), (47, 1), (49, 1), (51, 1), (57, 1)];
    let counted: &[(usize, u8)] = &[(52, 5), (53, 9), (54, 77), (55, 201), (56, 3)];
    let cases: &[(&[(usize, u8)], u8, &[(usize, u8)])] = &[
        (all_on, 0x00, &[(40, 0), (42, 0)]),
        (&[(41, 0), (40, 1), (42, 1)], 0x00, &[(40, 0), (42, 0)]),
        (&[(41, 2), (40, 1), (42, 1)], 0x00, &[]),
        (&[], 0x01, &[(40, 1)]),
        (all_on, 0x02, &[(42, 0)]),
        (&[], 0x03, &[(42, 1)]),
        (&[(49, 1), (50, 1)], 0x04, &[(50, 0)]),
        (&[(49, 1), (50, 2)], 0x04, &[]),
        (&[(49, 1), (50, 1)], 0x05, &[(49, 0)]),
        (&[(49, 1), (50, 2)], 0x05, &[(49, 0), (50, 0)]),
        (&[(50, 2)], 0x06, &[(49, 1), (50, 1)]),
        (&[(50, 1)], 0x07, &[(49, 1), (50, 2)]),
        (all_on, 0x08, &[(45, 0)]),
        (&[], 0x09, &[(45, 1)]),
        (counted, 0x0C, &[(54, 0), (55, 0)]),
        (counted, 0x0D, &[(54, 0), (55, 0)]),
        (&[(51, 1), (54, 77), (56, 3)], 0x0C, &[(54, 0)]),
        (counted, 0x0E, &[(54, 0), (55, 0), (56, 0)]),
        (&[(51, 1)], 0x0F, &[(51, 0)]),
        (counted, 0x14, &[(41, 0)]),
        (&[(41, 0), (52, 5)], 0x1B, &[(41, 1)]),
        (counted, 0x1F, &[(41, 2)]),
        (&[(43, 3), (44, 4)], 0x20, &[(43, 2), (44, 2)]),
        (&[], 0x21, &[(43, 3)]),
        (&[], 0x26, &[(44, 3)]),
        (&[], 0x29, &[(43, 3), (44, 4)]),
        (&[(46, 2)], 0x5F, &[(46, 4)]),
        (&[], 0x60, &[(46, 2)]),
        (all_on, 0x80, &[(47, 0), (51, 0)]),
        (&[(47, 1), (50, 2), (51, 1), (54, 77), (55, 201), (56, 3)], 0x97, &[(47, 0), (51, 0)]),
        (&[(51, 1)], 0x88, &[(47, 1)]),
        (&[], 0x9F, &[(47, 1)]),
        (counted, 0xA0, &[(48, 0)]),
        (counted, 0xBB, &[(48, 3)]),
        (&[(48, 0)], 0xBF, &[(48, 7)]),
        (&[], 0xE0, &[(57, 1)]),
        (all_on, 0xE3, &[(57, 0)]),
    ];
    for &(before, code, changed) in cases {
        let base = with_bytes(fresh().record(), before);
        let mut chip = Model::from_record(&base).expect("a valid record");
        feed(&mut chip, &commands(HT, &[code], 27).expect("a defined command"));
        let due = with_bytes(base, changed).to_vec();
        tally.same(&format!("effect of {:02x}", code), due, chip.record().to_vec());
    }
}

// The range of each byte of an HT with 2 commons, as the rules list them.
fn range_of(index: usize) -> std::ops::RangeInclusive<u8> {
    match index {
        0..=32 => 0..=15,
        37 => 0..=63,
        38 | 56 => 0..=3,
        39 | 41 | 50 => 0..=2,
        43 => 2..=3,
        44 => 2..=4,
        46 => 2..=4,
        48 | 52 => 0..=7,
        53 => 0..=15,
        54 => 0..=127,
        55 => 0..=255,
        40 | 42 | 45 | 47 | 49 | 51 | 57 | 58 | 60 => 0..=1,
        59 => 0..=127,
        _ => 0..=0,
    }
}

// Which records are valid: each byte alone, then the bytes that depend on others.
fn validity_cases(tally: &mut Tally) {
    let writing = with_bytes(fresh().record(), &[(32, 14), (33, 5)]);
    for index in (0..64).filter(|&index| index != 33 && index != 34) {
        for byte in 0..=255 {
            let odd_lines = index == 32 && byte % 2 == 1;
            let no_tone = index == 46 && byte == 3;
            let due = range_of(index).contains(&byte) && !odd_lines && !no_tone;
            let got = model::valid(&with_bytes(writing, &[(index, byte)]));
            tally.same(&format!("byte {} as {}", index, byte), due, got);
        }
    }
    for phase in 0..=255u8 {
        let most = *[0, 2, 5, 5, 0, 3, 8, 0].get(phase as usize).unwrap_or(&0);
        for count in 0..=255u8 {
            for lines in 14..16 {
                let record = with_bytes(writing, &[(32, lines), (33, phase), (34, count)]);
                let due = phase < 8 && count <= most && (phase == 0) == (lines == 15);
                tally.same("phase, count and CS", due, model::valid(&record));
            }
        }
    }
    for phase in 1..8u8 {
        for index in 37..40 {
            let record = with_bytes(writing, &[(33, phase), (index, 1)]);
            tally.same("bytes 37 to 39", phase == 4 || phase == 5, model::valid(&record));
        }
        for (address, in_range) in [(31, true), (32, true), (63, true), (64, false), (255, false)] {
            let record = with_bytes(writing, &[(33, phase), (37, address)]);
            let due = in_range && (phase == 4 || phase == 5);
            tally.same(&format!("address {address} in phase {phase}"), due, model::valid(&record));
        }
    }
    for count in 0..=8u8 {
        for value in 0..1024u16 {
            let bytes = [(33, 6), (34, count), (35, value as u8), (36, (value >> 8) as u8)];
            let got = model::valid(&with_bytes(writing, &bytes));
            tally.same("value", value < 1 << count, got);
        }
    }
}

// In a 101 frame a whole nibble sets the reading position to D0; single bits
// leave it, and any bit taken releases DATA.
fn position_cases(tally: &mut Tally) {
    let mut chip = power_on(HT, &[6; 32]).expect("a memory");
    feed(&mut chip, &write(30, &[0], 29).expect("a write")[..20]);
    tally.same(
        "D0, D1",
        vec![(8, 30, 0), (8, 30, 1)],
        even(&feed(&mut chip, &[10, 14, 10, 14])),
    );
    tally.same("high", 2, chip.pins().0 / 8);
    feed(&mut chip, &[12, 14]);
    tally.same("bit taken", 0, chip.pins().0 / 8);
    tally.same("D2", vec![(8, 30, 1), (0, 0, 0)], feed(&mut chip, &[10, 14]));
    feed(&mut chip, &[4, 6, 4, 6]);
    tally.same(
        "9 stored",
        vec![(0, 0, 0), (5, 30, 9)],
        feed(&mut chip, &[12, 14]),
    );
    tally.same("D0 of 31", vec![(8, 31, 0), (0, 0, 0)], feed(&mut chip, &[10, 14]));
    tally.same("D1 of 31", vec![(8, 31, 1), (0, 0, 0)], feed(&mut chip, &[10, 14]));
}

// The samples of a letter: a bit sent, and R a bit read.
fn samples_of(letter: char) -> [u8; 2] {
    match letter {
        '0' => [4, 6],
        '1' => [12, 14],
        _ => [10, 14],
    }
}

// Feeds a text and gives the answer of each letter: its other sample is answered 0.
fn told(chip: &mut Model, text: &str) -> Vec<(u8, u8, u8)> {
    let answers = |letter| feed(chip, &samples_of(letter)).into_iter().find(|answer| answer.0 != 0);
    text.chars().map(answers).map(|answer| answer.expect("an edge is answered")).collect()
}

// Opens a frame on a memory, and sends its ID and its six address bits.
fn opened(memory: &[u8], head: &str) -> Model {
    let mut chip = power_on(HT, memory).expect("a memory");
    feed(&mut chip, &[14]);
    told(&mut chip, head);
    chip
}

// Nibbles as a text, D0 first.
fn sent_nibbles(nibbles: &[u8]) -> String {
    let bit = |nibble: u8, place: u8| if nibble >> place & 1 == 1 { '1' } else { '0' };
    nibbles.iter().flat_map(|&nibble| (0..4).map(move |place| bit(nibble, place))).collect()
}

// Writes nibbles in a frame and checks where each is answered to lie, and what the memory is then.
fn written_past(tally: &mut Tally, head: &str, nibbles: &[u8], addresses: &[u8], memory: [u8; 32]) {
    let mut chip = opened(&[6; 32], head);
    let stored: Vec<_> = told(&mut chip, &sent_nibbles(nibbles)).into_iter().filter(|answer| answer.0 == 5).collect();
    let due: Vec<_> = addresses.iter().zip(nibbles).map(|(&address, &nibble)| (5, address, nibble)).collect();
    tally.same(&format!("stored by {head}"), due, stored);
    tally.same(&format!("memory after {head}"), memory.to_vec(), chip.record()[..32].to_vec());
    tally.same(&format!("{head} closed"), vec![(2, 0, 0)], feed(&mut chip, &[15]));
}

// Writes past address 31: nibbles at 32 to 63 are answered and lost, and after 63 comes 0.
fn writes_past_cases(tally: &mut Tally) {
    let sixes = |changes: &[(usize, u8)]| {
        let mut memory = [6; 32];
        changes.iter().for_each(|&(address, nibble)| memory[address] = nibble);
        memory
    };
    written_past(tally, "101011110", &[1, 2, 3, 4, 5], &[30, 31, 32, 33, 34], sixes(&[(30, 1), (31, 2)]));
    written_past(tally, "101100001", &[9, 15], &[33, 34], sixes(&[]));
    written_past(tally, "101111111", &[8, 7, 14], &[63, 0, 1], sixes(&[(0, 7), (1, 14)]));
    // 70 nibbles from 0 on: 32 tens, 32 twelves that are lost, and 1 to 6 over the first tens.
    let nibbles = [vec![10; 32], vec![12; 32], vec![1, 2, 3, 4, 5, 6]].concat();
    let addresses: Vec<u8> = (0..64).chain(0..6).collect();
    let mut memory = [10; 32];
    memory[..6].copy_from_slice(&[1, 2, 3, 4, 5, 6]);
    written_past(tally, "101000000", &nibbles, &addresses, memory);
}

// Reads nibbles in a frame: each bit is offered from its address, D0 first, and driven.
fn read_past(tally: &mut Tally, memory: &[u8], head: &str, nibbles: &[(u8, u8)]) {
    let mut chip = opened(memory, head);
    for &(address, nibble) in nibbles {
        for place in 0..4 {
            let bit = nibble >> place & 1;
            tally.same(&format!("offered by {head}"), vec![(8, address, bit)], told(&mut chip, "R"));
            tally.same(&format!("driven by {head}"), 1 + bit as u32, chip.pins().0 / 8);
        }
    }
}

// Reads past address 31: zeros at 32 to 63, and then address 0 again. Address a holds 1 + a mod 15, so no nibble of the
// memory is 0.
fn reads_past_cases(tally: &mut Tally) {
    let memory: Vec<u8> = (0..32).map(|address| 1 + address % 15).collect();
    let zeros: Vec<(u8, u8)> = (32..64).map(|address| (address, 0)).collect();
    let from_30 = [&[(30, 1), (31, 2)], &zeros[..], &[(0, 1), (1, 2), (2, 3), (3, 4), (4, 5), (5, 6)]].concat();
    tally.same("nibbles from 30", 40, from_30.len());
    read_past(tally, &memory, "110011110", &from_30);
    read_past(tally, &memory, "110100000", &[&zeros[..], &[(0, 1), (1, 2)]].concat());
    read_past(tally, &memory, "110111111", &[(63, 0), (0, 1), (1, 2)]);
    let mut chip = opened(&memory, "110101000");
    tally.same("stray at 40", vec![(8, 40, 0), (9, 0, 0), (8, 40, 0)], told(&mut chip, "R1R"));
    tally.same("at 40, D2, low", [40, 2, 1].to_vec(), chip.record()[37..40].to_vec());
}

// RD falls in a write frame at 40 cycle over zeros and never step; a bit taken releases DATA and leaves the position, and a
// whole nibble sets it to D0. From 31 the frame goes on to 32.
fn modify_past_cases(tally: &mut Tally) {
    let mut chip = opened(&[15; 32], "101101000");
    tally.same("five zeros of 40", vec![(8, 40, 0); 5], told(&mut chip, "RRRRR"));
    tally.same("at 40, D1, low", vec![40, 1, 1], chip.record()[37..40].to_vec());
    tally.same("taken at 40", vec![(4, 0, 0)], told(&mut chip, "1"));
    tally.same("at 40, D1, released", vec![40, 1, 0], chip.record()[37..40].to_vec());
    tally.same("D1 of 40", vec![(8, 40, 0)], told(&mut chip, "R"));
    tally.same("13 at 40", vec![(4, 0, 0), (4, 0, 0), (5, 40, 13)], told(&mut chip, "011"));
    tally.same("at 41, D0, released", vec![41, 0, 0], chip.record()[37..40].to_vec());
    tally.same("two bits at 41", vec![(4, 0, 0); 2], told(&mut chip, "11"));
    tally.same("cut short at 41", vec![(3, 0, 0)], feed(&mut chip, &[15]));
    tally.same("nothing stored", vec![15; 32], chip.record()[..32].to_vec());
    let mut chip = opened(&[6; 32], "101011111");
    tally.same("D0, D1 of 31", vec![(8, 31, 0), (8, 31, 1)], told(&mut chip, "RR"));
    tally.same("9 at 31", (5, 31, 9), told(&mut chip, "1001")[3]);
    tally.same("D0, D1 of 32", vec![(8, 32, 0); 2], told(&mut chip, "RR"));
}

// Frames that go on from a record with an address past the memory.
fn records_past_cases(tally: &mut Tally) {
    let base = with_bytes(power_on(HT, &[5; 32]).expect("a memory").record(), &[(32, 14)]);
    let held = |bytes: &[(usize, u8)]| Model::from_record(&with_bytes(base, bytes)).expect("a valid record");
    let mut chip = held(&[(33, 4), (37, 63), (38, 3)]);
    tally.same("D3 of 63, D0 of 0", vec![(8, 63, 0), (8, 0, 1)], told(&mut chip, "RR"));
    let mut chip = held(&[(33, 4), (37, 31), (38, 3), (39, 2)]);
    tally.same("D3 of 31, D0 of 32", vec![(8, 31, 0), (8, 32, 0)], told(&mut chip, "RR"));
    let mut chip = held(&[(33, 5), (37, 63), (34, 3), (35, 3), (38, 2), (39, 1)]);
    tally.same("6 at 63, D0 of 0", vec![(5, 63, 6), (8, 0, 1)], told(&mut chip, "0R"));
    tally.same("5 stays", vec![5; 32], chip.record()[..32].to_vec());
}

// Runs every group.
fn main() {
    let mut tally = Tally { checks: 0, wrong: 0 };
    let groups = [
        opening_cases,
        stream_cases,
        refusal_cases,
        command_cases,
        clear_cases,
        part_code_cases,
        told_part_cases,
        unknown_part_cases,
        power_on_cases,
        scan_cases,
        scan_tick_cases,
        scan_command_cases,
        part_validity_cases,
        part_pin_cases,
        part_stream_cases,
        tick_cases,
        time_out_case,
        decode_cases,
        listing_cases,
        stored_cases,
        record_cases,
        advance_cases,
        frame_cases,
        pin_cases,
        effect_cases,
        validity_cases,
        position_cases,
        writes_past_cases,
        reads_past_cases,
        modify_past_cases,
        records_past_cases,
    ];
    for group in groups.iter() {
        group(&mut tally);
    }
    println!("{} checks, {} wrong", tally.checks, tally.wrong);
    if tally.wrong > 0 {
        std::process::exit(1);
    }
}
