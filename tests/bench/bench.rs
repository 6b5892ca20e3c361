// Times the libraries against plain C by two compilers and plain Rust, all in this process: medians of many rounds, each of
// which takes the four in turn and begins with another, so that whatever the machine does meanwhile hits all alike.
// Before anything is timed all four have to agree, and after each timing on what it left behind.
// Arguments: the number of rounds; a word, for the rows alone whose names have it.
mod agree;
mod inputs;
mod packs;
mod plain;
mod stack;

use inputs::{
    above, capture, commands_of, frames, mixed, nibbles, noted, power_on, with, CODES, COMMONS, GN, HT, PART, RATE,
    RUNS, SOURCE,
};
use packs::{packs, Pack, NAMES};
use std::hint::black_box;
use std::process::exit;

#[derive(Clone, PartialEq)]
struct Lab {
    record: [u8; 64],
    chips: [[u8; 64]; 16],
    out: [u8; 600],
    sum: u32,
}

struct Job {
    name: String,
    units: usize, // what a run does so many of
    start: [u8; 64],
    run: Box<dyn Fn(&Pack, &mut Lab)>,
}

// The processor's time of this thread in nanoseconds: what others take of the machine does not count.
fn now() -> f64 {
    extern "C" {
        fn clock_gettime(clock: i32, seconds_and_nanoseconds: *mut [i64; 2]) -> i32;
    }
    const OF_THE_THREAD: i32 = 3;
    let mut time = [0; 2];
    unsafe { clock_gettime(OF_THE_THREAD, &mut time) };
    time[0] as f64 * 1e9 + time[1] as f64
}

fn timed(job: &Job, pack: &Pack, times: usize) -> (f64, Lab) {
    let mut lab = Lab { record: job.start, chips: [job.start; 16], out: [0xee; 600], sum: 0 };
    let begun = now();
    for _ in 0..times {
        (job.run)(black_box(pack), &mut lab);
    }
    (now() - begun, lab)
}

// Nanoseconds a unit for each of the four.
fn measured(job: &Job, rounds: usize) -> [f64; 4] {
    let mut times = 1;
    while timed(job, packs()[0], times).0 < 100_000.0 {
        times *= 2;
    }
    let mut taken = [(); 4].map(|_| Vec::new());
    for round in 0..rounds {
        let mut left: Option<Lab> = None;
        for which in (0..4).map(|k| (k + round) % 4) {
            let (spent, lab) = timed(job, packs()[which], times);
            taken[which].push(spent / (times * job.units) as f64);
            if *left.get_or_insert(lab.clone()) != lab {
                println!("bench: {}: {} left something else behind", job.name, NAMES[which]);
                exit(1);
            }
        }
    }
    taken.map(|mut each| {
        each.sort_by(f64::total_cmp);
        each[each.len() / 2]
    })
}

fn job(name: &str, units: usize, start: [u8; 64], run: impl Fn(&Pack, &mut Lab) + 'static) -> Job {
    Job { name: name.to_string(), units, start, run: Box::new(run) }
}

// The same call 64 times.
fn calls(name: &str, start: [u8; 64], call: impl Fn(&Pack, &mut Lab) -> u32 + 'static) -> Job {
    job(name, 64, start, move |pack, lab| {
        for _ in 0..64 {
            lab.sum = lab.sum.wrapping_add(call(pack, lab));
        }
    })
}

fn steps(name: &str, samples: Vec<u8>) -> Job {
    steps_from(name, power_on(), samples)
}

fn steps_from(name: &str, start: [u8; 64], samples: Vec<u8>) -> Job {
    job(name, samples.len(), start, move |pack, lab| {
        for &sample in &samples {
            lab.sum = lab.sum.wrapping_add(pack.step(&mut lab.record, sample));
        }
    })
}

// Sixteen chips, each of which gets a sample in its turn.
fn steps_in_turn(name: &str, samples: Vec<u8>) -> Job {
    job(name, 16 * samples.len(), power_on(), move |pack, lab| {
        for &sample in &samples {
            for chip in &mut lab.chips {
                lab.sum = lab.sum.wrapping_add(pack.step(chip, sample));
            }
        }
    })
}

fn advances(name: &str, start: [u8; 64], ticks: u16) -> Job {
    calls(name, start, move |pack, lab| pack.advance(&mut lab.record, ticks))
}

fn writes(count: usize) -> Job {
    let given = nibbles();
    calls(&format!("write of {count}"), power_on(), move |pack, lab| pack.write(0, &given[..count], &mut lab.out))
}

fn reads(count: usize) -> Job {
    calls(&format!("read of {count}"), power_on(), move |pack, lab| pack.read(0, count, &mut lab.out))
}

fn commands(count: usize) -> Job {
    calls(&format!("commands, {count}"), power_on(), move |pack, lab| pack.commands(HT, &CODES[..count], &mut lab.out))
}

fn decodes(count: usize) -> Job {
    let bits = noted();
    calls(&format!("decode of {}", 4 * count), power_on(), move |pack, lab| {
        pack.decode(&bits[..4 * count], &mut lab.out)
    })
}

fn listings(name: &str, formatted: bool, bytes: usize) -> Job {
    let input = capture(bytes);
    job(name, 1, power_on(), move |pack, lab| {
        packs::load(&input);
        lab.sum = lab.sum.wrapping_add(pack.listing(formatted));
    })
}

fn number(x: f64) -> String {
    if x < 1000.0 {
        format!("{x:.1}")
    } else {
        format!("{x:.0}")
    }
}

fn jobs() -> Vec<Job> {
    let [write, read, command] = frames(32);
    let xtal = with(&[(SOURCE, 0)], with(&RUNS, power_on()));
    let slow = with(&[(RATE, 0)], xtal);
    let rc = with(&RUNS, power_on());
    let gn = with(&[(PART, GN as u8)], power_on());
    let gn_xtal = with(&[(PART, GN as u8)], xtal);
    let shown = with(&[(42, 1), (44, 4), (45, 1), (47, 1), (50, 1)], rc);
    let mut all = vec![
        steps("step, frames mixed", mixed()),
        steps_in_turn("step, 16 chips in turn", frames(2).concat()),
        steps("step, a write frame", write.clone()),
        steps("step, a write above 31", above(write)),
        steps("step, a read frame", read.clone()),
        steps("step, a read above 31", above(read)),
        steps("step, a command frame", command),
        steps_from("step, a command frame, GN", gn, commands_of(GN, 32)),
        calls("step, refused 20", power_on(), |pack, lab| pack.step(&mut lab.record, 16)),
        calls("step, refused 28 (byte 0)", with(&[(0, 16)], power_on()), |pack, lab| pack.step(&mut lab.record, 15)),
        calls("step, refused 28 (byte 63)", with(&[(63, 1)], power_on()), |pack, lab| pack.step(&mut lab.record, 15)),
        calls("pins, running", shown, |pack, lab| pack.pins(&lab.record, &mut lab.out)),
        calls("pins, not running", power_on(), |pack, lab| pack.pins(&lab.record, &mut lab.out)),
    ];
    for ticks in [1, 256, 65535] {
        for (how, start) in
            [("XTAL", xtal), ("XTAL, F1", slow), ("XTAL, GN", gn_xtal), ("RC", rc), ("not running", power_on())]
        {
            all.push(advances(&format!("advance {ticks}, {how}"), start, ticks));
        }
    }
    all.extend([writes(1), writes(32), reads(1), reads(32), commands(1), commands(32), decodes(1), decodes(32)]);
    all.push(listings("listing of 65,536 bytes", false, 65536));
    all.push(listings("  against C's sprintf", true, 65536));
    all
}

fn table(rounds: usize, only: &str) {
    print!("{:<28}", "");
    NAMES.iter().for_each(|name| print!("{name:>10}"));
    println!("{:>9}{:>9}{:>9}", "/clang", "/gcc", "/Rust");
    let mut slower = Vec::new();
    for job in jobs().iter().filter(|job| job.name.contains(only)) {
        let each = measured(job, rounds);
        print!("{:<28}", job.name);
        each.iter().for_each(|&x| print!("{:>10}", number(x)));
        (1..4).for_each(|other| print!("{:>9.2}", each[0] / each[other]));
        println!();
        if each[0] > 1.05 * each[1].min(each[2]) {
            slower.push(job.name.trim().to_string());
        }
    }
    println!("\nMore than 5 % slower than the faster C: {}", slower.join("; "));
}

// `advance` while the time base is on, from every rate and number of commons of a source and a part: what 1 tick and 65,535 take, from
// the least to the most; the largest ratios of 65,535 to 1, and of ours to the faster C.
fn advances_everywhere(rounds: usize) {
    println!("\n{:<28}{:>16}{:>16}{:>12}{:>9}", "advance, all of them", "1", "65535", "65535 / 1", "/C");
    for (source, part) in [(0, HT), (0, GN), (1, HT), (1, GN), (2, HT), (2, GN)] {
        let settings = (0..8).flat_map(|rate| (2..5).map(move |commons| (rate, commons)));
        let (mut took, mut most) = ([(f64::MAX, 0.0f64); 2], [0.0f64; 2]);
        for (rate, commons) in settings {
            let start = with(
                &[(SOURCE, source), (PART, part as u8), (RATE, rate), (COMMONS, commons)],
                with(&RUNS, power_on()),
            );
            let each = [1, 65535].map(|ticks| measured(&advances("advance everywhere", start, ticks), rounds));
            for k in 0..2 {
                took[k] = (took[k].0.min(each[k][0]), took[k].1.max(each[k][0]));
                most[1] = most[1].max(each[k][0] / each[k][1].min(each[k][2]));
            }
            most[0] = most[0].max(each[1][0] / each[0][0]);
        }
        let name = format!("{}, {}", ["XTAL", "RC", "EXT"][source as usize], ["HT", "GN"][part]);
        let [one, many] = took.map(|(least, most)| format!("{} to {}", number(least), number(most)));
        println!("{name:<28}{one:>16}{many:>16}{:>12.2}{:>9.2}", most[0], most[1]);
    }
}

// How a call's cost grows: the call whole, and a share of it.
fn grows<const N: usize>(what: &str, rounds: usize, counts: [usize; N], job_of: impl Fn(usize) -> Job) {
    println!("\n{what:<28}{:>10}{:>10}{:>10}", NAMES[0], "each", NAMES[1]);
    for count in counts {
        let [ours, clang, ..] = measured(&job_of(count), rounds);
        println!("{count:<28}{:>10}{:>10.2}{:>10}", number(ours), ours / count.max(1) as f64, number(clang));
    }
}

fn growth(rounds: usize) {
    let rc = with(&RUNS, power_on());
    let stream: Vec<u8> = (1..=32).cycle().flat_map(|n| frames(n).concat()).take(10000).collect();
    let sizes = [1, 2, 4, 8, 16, 32];
    grows("samples stepped", rounds, [1, 10, 100, 1000, 10000], |n| Job {
        units: 1,
        ..steps("samples", stream[..n].to_vec())
    });
    grows("ticks of advance, RC", rounds, [0, 1, 16, 256, 4096, 65535], |n| advances("ticks", rc, n as u16));
    grows("nibbles written", rounds, sizes, writes);
    grows("nibbles read", rounds, sizes, reads);
    grows("commands", rounds, sizes, commands);
    grows("nibbles decoded", rounds, sizes, decodes);
    grows("bytes listed", rounds, [1, 1024, 16384, 65536], |n| listings("listing", false, n));
}

fn main() {
    let mut words = std::env::args().skip(1);
    let rounds = words.next().map_or(101, |word| word.parse().expect("a number of rounds"));
    let only = words.next().unwrap_or_default();
    agree::agree_calls(1621);
    agree::agree_listings();
    let calls = agree::CALLS.load(std::sync::atomic::Ordering::Relaxed);
    println!("All four agree on {calls} calls. Nanoseconds, the median of {rounds} rounds:\n");
    table(rounds, &only);
    if only.is_empty() {
        advances_everywhere(rounds);
        growth(rounds);
        stacks();
    }
}

type Use = Box<dyn Fn(&Pack) -> u32>;

fn stacks() {
    println!("\n{:<28}{:>10}{:>10}{:>10}{:>10}", "bytes of stack", NAMES[0], NAMES[1], NAMES[2], NAMES[3]);
    let mix = mixed();
    let uses: [(&str, Use); 4] = [
        (
            "step",
            Box::new(move |pack| {
                let mut record = power_on();
                mix.iter().map(|&sample| pack.step(&mut record, sample)).max().unwrap()
            }),
        ),
        ("advance", Box::new(|pack| pack.advance(&mut with(&RUNS, power_on()), 5000))),
        ("pins", Box::new(|pack| pack.pins(&power_on(), &mut [0; 32]))),
        ("listing", Box::new(|pack| pack.listing(false))),
    ];
    packs::load(&capture(65536));
    for (name, call) in &uses {
        print!("{name:<28}");
        packs().iter().for_each(|pack| print!("{:>10}", stack::taken(call, pack)));
        println!();
    }
}
