// The four have to agree before they are timed: on random calls, and on the captures.
use crate::inputs::{capture, codes, power_on, with, GN, HT, PART};
use crate::packs::{self, packs, Pack, NAMES};
use std::fmt::Debug;
use std::process::exit;
use std::sync::atomic::{AtomicUsize, Ordering::Relaxed};

// How many calls the four agreed on.
pub static CALLS: AtomicUsize = AtomicUsize::new(0);

struct Random(u64);

impl Random {
    fn below(&mut self, n: u64) -> u64 {
        self.0 = self.0.wrapping_mul(6364136223846793005).wrapping_add(1442695040888963407);
        (self.0 >> 33) % n
    }

    fn bytes(&mut self, count: u64, most: u64) -> Vec<u8> {
        (0..count).map(|_| self.below(most + 1) as u8).collect()
    }
}

// What all four give, or the end of the benchmark.
fn same<T: PartialEq + Debug>(what: &str, of: impl Fn(&Pack) -> T) -> T {
    CALLS.fetch_add(1, Relaxed);
    let [ours, others @ ..] = packs().map(of);
    for (name, other) in NAMES[1..].iter().zip(others) {
        if other != ours {
            println!("bench: {what}: {name} and ours differ:\n{other:?}\n{ours:?}");
            exit(1);
        }
    }
    ours
}

fn stepped(record: &[u8], sample: u8) -> Vec<u8> {
    let (_, next) = same("step", |pack| {
        let mut record = record.to_vec();
        (pack.step(&mut record, sample), record)
    });
    next
}

// Ticks, and then every call; what the ticks made of the record.
fn ticked(record: &[u8], sample: u8, ticks: u16) -> Vec<u8> {
    let (_, later) = same("advance", |pack| {
        let mut record = record.to_vec();
        (pack.advance(&mut record, ticks), record)
    });
    stepped(&later, sample);
    for room in [31, 32, 40] {
        same("pins", |pack| out_of(room, |cells| pack.pins(&later, cells)));
    }
    later
}

// Steps through samples, one in 50 replaced by another; now and then ticks pass and every call is made, and made again with a
// byte of the record replaced. What the samples and the ticks made of the record.
fn streamed(random: &mut Random, mut record: Vec<u8>, samples: &[u8]) -> Vec<u8> {
    for &sample in samples {
        let sample = if random.below(50) == 0 { random.below(17) as u8 } else { sample };
        record = stepped(&record, sample);
        if random.below(40) == 0 {
            let ticks = random.below(4000) as u16;
            record = ticked(&record, sample, ticks);
            let mut broken = record.clone();
            broken[random.below(64) as usize] = random.below(if ticks % 2 == 0 { 20 } else { 256 }) as u8;
            ticked(&broken[..64 - random.below(9) as usize / 8], sample, ticks);
        }
    }
    record
}

// A read or write frame such as the host's side does not make: from any of the 64 addresses, and so long that it may come round.
fn long_frame(random: &mut Random) -> Vec<u8> {
    let mut samples = vec![15, 14];
    let head = (5 + random.below(2)) * 64 + random.below(64);
    let bits = random.below(320);
    let reads = random.below(3);
    let letters = (0..9).rev().map(|place| head >> place & 1).chain((0..bits).map(|_| random.below(2 + reads)));
    samples.extend(letters.flat_map(|letter| [[4, 6], [12, 14], [10, 14]][letter.min(2) as usize]));
    samples
}

// Random calls of the host's side, at and beyond their limits, whose streams are stepped through, and long frames: chips of
// the two parts in turn, and mostly commands to the part that the chip is of.
pub fn agree_calls(seed: u64) {
    let random = &mut Random(seed);
    let mut record = power_on().to_vec();
    for round in 0..3000 {
        if round % 50 == 0 {
            record = with(&[(PART, (round / 50 % 2) as u8)], power_on()).to_vec();
        }
        let (first, count) = (random.below(34) as usize, random.below(35));
        let beyond = random.below(20) / 19; // seldom 1
        let values = random.bytes(count, 15 + beyond);
        let odd = random.below(8) / 7;
        let bits = random.bytes(4 * count + odd, 1 + beyond);
        let part = match random.below(40) {
            0 => HT,
            1 => GN,
            2 => 2 + random.below(300) as usize,
            3 => usize::MAX,
            _ => record[PART] as usize,
        };
        let defined = codes(part);
        let asked: Vec<u8> = (0..count).map(|_| defined[random.below(32) as usize]).collect();
        let any = random.bytes(count.min(2), 255);
        let room = if random.below(4) == 0 { random.below(600) as usize } else { 600 };
        let made = [
            same("write", |pack| out_of(room, |out| pack.write(first, &values, out))),
            same("read", |pack| out_of(room, |out| pack.read(first, count as usize, out))),
            same("commands", |pack| out_of(room, |out| pack.commands(part, &asked, out))),
            same("commands", |pack| out_of(room, |out| pack.commands(part, &any, out))),
            same("decode", |pack| out_of(room / 8, |out| pack.decode(&bits, out))),
        ];
        for (answer, bytes) in &made[..4] {
            let count = if answer >> 31 == 0 { *answer as usize } else { 0 };
            record = streamed(random, record, &bytes[..count]);
        }
        if random.below(4) == 0 {
            let frame = long_frame(random);
            record = streamed(random, record, &frame);
        }
    }
}

fn out_of(room: usize, make: impl Fn(&mut [u8]) -> u32) -> (u32, Vec<u8>) {
    let mut out = vec![0xee; room];
    (make(&mut out), out)
}

pub fn agree_listings() {
    let whole = capture(65536);
    let mut bad = whole[..5000].to_vec();
    bad.push(b'X');
    for input in [&whole[..], &whole[..777], &bad, &[], &[b' '; 65537]] {
        packs::load(input);
        for formatted in [false, true] {
            same("listing", |pack| (pack.listing(formatted), packs::printed()));
        }
    }
}
