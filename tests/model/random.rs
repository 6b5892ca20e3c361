// Random numbers, and random frames for captures and scripts.

pub struct Random(pub u64);

impl Random {
    pub fn next(&mut self) -> u64 {
        self.0 ^= self.0 << 13;
        self.0 ^= self.0 >> 7;
        self.0 ^= self.0 << 17;
        self.0
    }

    pub fn below(&mut self, n: u64) -> u64 {
        self.next() % n
    }
}

// A bit as the driver sends it.
fn send(samples: &mut Vec<u8>, bit: u64) {
    samples.push(4 + 8 * bit as u8);
    samples.push(6 + 8 * bit as u8);
}

// A frame: its ID and then bits, with reads among them now and then.
pub fn frame(random: &mut Random) -> Vec<u8> {
    let mut samples = vec![15, 14];
    let id = [4, 5, 6, 4, 5, 6, 4, 5, 6, random.below(8)][random.below(10) as usize];
    for i in (0..3).rev() {
        send(&mut samples, id >> i & 1);
    }
    let length = [0, 3, 6, 10, 14, 24, 40, 90, 290][random.below(9) as usize];
    let reads = random.below(3) == 0 || id == 6;
    for _ in 0..length {
        if reads && random.below(2) == 0 {
            samples.extend([10, 14]);
        } else {
            send(&mut samples, random.below(2));
        }
    }
    if random.below(4) != 0 {
        samples.push(15);
    }
    samples
}
