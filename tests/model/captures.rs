// Writes random captures for the listing: captures SEED COUNT FOLDER. Each is made of whole driver streams, of streams cut
// short, of wild samples and of ticks, so that every phase is reached and left in every way. Half of them end in a byte that
// the listing refuses.
mod random;

use random::{frame, Random};
use std::{env, fs};

fn capture(random: &mut Random) -> Vec<u8> {
    let mut text = Vec::new();
    while text.len() < 20_000 {
        let samples = if random.below(8) == 0 {
            (0..random.below(40)).map(|_| random.below(16) as u8).collect()
        } else {
            frame(random)
        };
        let ticks = random.below(4) == 0;
        for sample in samples {
            text.push(b"0123456789abcdef"[sample as usize]);
            if ticks {
                for _ in 0..random.below(4) {
                    text.push(b't');
                }
            }
        }
        text.push([b'\n', b' '][random.below(2) as usize]);
    }
    if random.below(2) == 0 {
        text.push(b'A');
        text.extend(b"fe");
    }
    text
}

fn main() {
    let words: Vec<String> = env::args().collect();
    let mut random = Random(words[1].parse::<u64>().unwrap() * 2 + 1);
    for i in 0..words[2].parse::<u32>().unwrap() {
        fs::write(format!("{}/{}.txt", words[3], i), capture(&mut random)).unwrap();
    }
}
