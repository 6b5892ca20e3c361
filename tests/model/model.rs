// A model of the HT1621 and the GN1621 that remembers a frame's clock events and
// reads them all again at each sample. It shares nothing with any other model of
// the chip.
#![allow(dead_code)]

// The chip's four lines, as bits of a sample.
pub const CS: u8 = 1;
pub const WR: u8 = 2;
pub const RD: u8 = 4;
pub const DATA: u8 = 8;

// The parts: byte 58 of a record.
const HT: u8 = 0;
const GN: u8 = 1;

// What DATA shows: byte 39 of a record.
const RELEASED: u8 = 0;

// The clock sources: byte 41.
const XTAL: u8 = 0;
const RC: u8 = 1;
const EXT: u8 = 2;

// The sources of IRQ: byte 50.
const NO_SOURCE: u8 = 0;
const TIME_BASE: u8 = 1;
const FLAG: u8 = 2;

// A frame's addresses go from 0 to 63. Those up to 31 have a nibble of memory, the others have none.
const ADDRESSES: usize = 64;

// The phases: byte 33.
const NO_FRAME: u8 = 0;
const ID: u8 = 1;
const READ_ADDRESS: u8 = 2;
const WRITE_ADDRESS: u8 = 3;
const READ: u8 = 4;
const WRITE: u8 = 5;
const COMMAND: u8 = 6;
const DEAD: u8 = 7;

/// A refusal: its number, and the lowest index at fault or 0.
pub type Refusal = (u8, u64);

/// An answer: its number and two details.
pub type Answer = (u8, u8, u8);

/// One clock event of a frame. `Shown` is no event of the lines: it stands in a
/// history made up for a record and says what DATA showed at that point.
#[derive(Clone, Copy, PartialEq, Eq, Debug)]
enum Event {
    Rise(u8),
    Fall,
    Shown(u8),
}

/// A WR rise of a history: where it stands there, and its bit.
#[derive(Clone, Copy)]
struct Taken {
    at: usize,
    bit: u8,
}

/// What the whole history of a frame amounts to.
struct Reading {
    phase: u8,
    count: u8,
    value: u16,
    address: u8,
    position: u8,
    data: u8,
    memory: [u8; 32],
    answer: Answer,
}

/// The settings that commands change, in the record's numbers.
#[derive(Clone, Copy, PartialEq, Eq, Debug)]
struct Settings {
    system: u8,
    clock: u8,
    lcd: u8,
    bias: u8,
    commons: u8,
    tone: u8,
    tone_kind: u8,
    irq: u8,
    rate: u8,
    time_base: u8,
    irq_source: u8,
    flag: u8,
    test: u8,
}

/// The counters as four plain counts: 8 x q + p, d, 256 x w + b, and the base
/// ticks since the scan last began at common 0.
#[derive(Clone, Copy, PartialEq, Eq, Debug)]
struct Counts {
    prescale: u64,
    divider: u64,
    chain: u64,
    scan: u64,
}

/// The chip: its part, its memory when the frame opened (or now, without a
/// frame), the frame's history, the lines, the settings and the counts.
#[derive(Clone, Debug)]
pub struct Model {
    part: u8,
    start: [u8; 32],
    history: Option<Vec<Event>>,
    lines: u8,
    settings: Settings,
    counts: Counts,
}

/// The commands by the names of the data sheets.
#[derive(Clone, Copy, PartialEq, Eq, Debug)]
enum Name {
    SysDis,
    SysEn,
    LcdOff,
    LcdOn,
    TimerDis,
    WdtDis,
    TimerEn,
    WdtEn,
    ToneOff,
    ToneOn,
    ClrTimer,
    ClrWdt,
    Xtal,
    Rc,
    Ext,
    BiasCom,
    Tone4k,
    Tone2k,
    IrqDis,
    IrqEn,
    Rate,
    Test,
    Normal,
}

// The commands that both parts list alike. X is any bit; a, b, c and r name bits
// that carry a value.
const COMMANDS: [(&str, Name); 22] = [
    ("00000000", Name::SysDis),
    ("00000001", Name::SysEn),
    ("00000010", Name::LcdOff),
    ("00000011", Name::LcdOn),
    ("00000100", Name::TimerDis),
    ("00000101", Name::WdtDis),
    ("00000110", Name::TimerEn),
    ("00000111", Name::WdtEn),
    ("00001000", Name::ToneOff),
    ("00001001", Name::ToneOn),
    ("0000111X", Name::ClrWdt),
    ("000101XX", Name::Xtal),
    ("000110XX", Name::Rc),
    ("000111XX", Name::Ext),
    ("0010abXc", Name::BiasCom),
    ("010XXXXX", Name::Tone4k),
    ("011XXXXX", Name::Tone2k),
    ("100X0XXX", Name::IrqDis),
    ("100X1XXX", Name::IrqEn),
    ("101XXrrr", Name::Rate),
    ("11100000", Name::Test),
    ("11100011", Name::Normal),
];

// The one command that each part lists by a pattern of its own.
fn clr_timer(part: u8) -> (&'static str, Name) {
    match part {
        GN => ("000010XX", Name::ClrTimer),
        _ => ("000011XX", Name::ClrTimer),
    }
}

// The bit of a code under the pattern's letter at `place`, from the left.
fn bit_at(code: u8, place: usize) -> u8 {
    (code >> (7 - place)) & 1
}

// Whether a code has the pattern's bits wherever the pattern fixes one.
fn matches(pattern: &str, code: u8) -> bool {
    pattern.bytes().enumerate().all(|(place, letter)| match letter {
        b'0' => bit_at(code, place) == 0,
        b'1' => bit_at(code, place) == 1,
        _ => true,
    })
}

// How many bits a pattern fixes.
fn fixed(pattern: &str) -> usize {
    pattern
        .bytes()
        .filter(|&letter| letter == b'0' || letter == b'1')
        .count()
}

// The number made of the bits under a letter, first bit highest.
fn carried(pattern: &str, letter: u8, code: u8) -> u8 {
    let places = pattern.bytes().enumerate().filter(|&(_, other)| other == letter);
    places.fold(0, |sum, (place, _)| sum * 2 + bit_at(code, place))
}

// The command of a code in a part: the narrowest of the part's patterns that
// matches, if any does.
fn named(part: u8, code: u8) -> Option<(&'static str, Name)> {
    let listed = COMMANDS.into_iter().chain([clr_timer(part)]);
    let matching = listed.filter(|&(pattern, _)| matches(pattern, code));
    let (pattern, name) = matching.max_by_key(|&(pattern, _)| fixed(pattern))?;
    let undefined = name == Name::BiasCom && commons(pattern, code) > 4;
    if undefined {
        None
    } else {
        Some((pattern, name))
    }
}

// The commons that a BIAS & COM code asks for; 5 stands for ab = 11.
fn commons(pattern: &str, code: u8) -> u8 {
    2 + 2 * carried(pattern, b'a', code) + carried(pattern, b'b', code)
}

/// Whether a command's upper eight bits are defined in a part.
pub fn defined(part: u8, code: u8) -> bool {
    named(part, code).is_some()
}

// The number made of bits, first bit highest.
fn number(bits: &[Taken]) -> u16 {
    bits.iter().fold(0, |sum, taken| sum * 2 + taken.bit as u16)
}

// The nibble made of four bits, D0 first.
fn nibble(bits: &[Taken]) -> u8 {
    bits.iter()
        .enumerate()
        .fold(0, |sum, (place, taken)| sum | taken.bit << place)
}

// The WR rises of a history, in order.
fn rises(history: &[Event]) -> Vec<Taken> {
    let mut all = Vec::with_capacity(history.len());
    for (at, event) in history.iter().enumerate() {
        if let Event::Rise(bit) = *event {
            all.push(Taken { at, bit });
        }
    }
    all
}

// The RD falls of a history that stand after a place in it.
fn falls_after(history: &[Event], place: usize) -> usize {
    history[place + 1..]
        .iter()
        .filter(|&&event| event == Event::Fall)
        .count()
}

// What DATA shows when a bit is offered.
fn level(bit: u8) -> u8 {
    1 + bit
}

// Reads a frame's history from its start and says what it amounts to, and what
// its newest event was. The part has a say in commands alone.
fn read_again(part: u8, start: &[u8; 32], history: &[Event]) -> Reading {
    let taken = rises(history);
    if taken.len() < 3 {
        return read_bits(start, history, ID, &taken);
    }
    match (taken[0].bit, taken[1].bit, taken[2].bit) {
        (1, 1, 0) if taken.len() < 9 => read_bits(start, history, READ_ADDRESS, &taken[3..]),
        (1, 0, 1) if taken.len() < 9 => read_bits(start, history, WRITE_ADDRESS, &taken[3..]),
        (1, 1, 0) => read_reading(start, history, &taken),
        (1, 0, 1) => read_writing(start, history, &taken),
        (1, 0, 0) => read_commands(part, start, history, &taken),
        _ => read_dead(start, history, &taken),
    }
}

// A history that ends among ID or address bits: every RD fall is stray.
fn read_bits(start: &[u8; 32], history: &[Event], phase: u8, bits: &[Taken]) -> Reading {
    Reading {
        phase,
        count: bits.len() as u8,
        value: number(bits),
        address: 0,
        position: 0,
        data: RELEASED,
        memory: *start,
        answer: if newest_rose(history) {
            (4, 0, 0)
        } else {
            (9, 0, 0)
        },
    }
}

// Whether the newest event is a WR rise.
fn newest_rose(history: &[Event]) -> bool {
    matches!(history.last(), Some(Event::Rise(_)))
}

// A dead frame: its third ID bit is answered 10, whatever follows is stray.
fn read_dead(start: &[u8; 32], history: &[Event], taken: &[Taken]) -> Reading {
    let third = newest_rose(history) && taken.len() == 3;
    let answer = if third { (10, 0, 0) } else { (9, 0, 0) };
    Reading {
        answer,
        ..read_bits(start, history, DEAD, &[])
    }
}

// A read frame past its address: the falls since the sixth address bit say all.
fn read_reading(start: &[u8; 32], history: &[Event], taken: &[Taken]) -> Reading {
    let first = number(&taken[3..9]) as usize;
    let falls = falls_after(history, taken[8].at);
    let offered = if falls > 0 {
        offer(start, first + (falls - 1) / 4, falls - 1)
    } else {
        (0, 0, 0)
    };
    let answer = match history.last() {
        Some(Event::Rise(_)) if taken.len() == 9 => (4, 0, 0),
        Some(Event::Rise(_)) => (9, 0, 0),
        _ => offered,
    };
    Reading {
        phase: READ,
        count: 0,
        value: 0,
        address: ((first + falls / 4) % ADDRESSES) as u8,
        position: (falls % 4) as u8,
        data: shown(history, taken[8].at, false, offered.2),
        memory: *start,
        answer,
    }
}

// A write frame past its address: the bits since the sixth address bit make the
// nibbles, the falls since the newest whole nibble make the reading position.
fn read_writing(start: &[u8; 32], history: &[Event], taken: &[Taken]) -> Reading {
    let first = number(&taken[3..9]) as usize;
    let bits = &taken[9..];
    let stored = bits.len() / 4;
    let memory = store(start, first, bits);
    let falls = falls_after(history, taken[8 + 4 * stored].at);
    let offered = if falls > 0 {
        offer(&memory, first + stored, falls - 1)
    } else {
        (0, 0, 0)
    };
    let answer = match history.last() {
        Some(Event::Rise(_)) if stored > 0 && bits.len() % 4 == 0 => (
            5,
            ((first + stored - 1) % ADDRESSES) as u8,
            nibble(&bits[bits.len() - 4..]),
        ),
        Some(Event::Rise(_)) => (4, 0, 0),
        _ => offered,
    };
    Reading {
        phase: WRITE,
        count: (bits.len() % 4) as u8,
        value: number(&bits[4 * stored..]),
        address: ((first + stored) % ADDRESSES) as u8,
        position: (falls % 4) as u8,
        data: shown(history, taken[8].at, true, offered.2),
        memory,
        answer,
    }
}

// The memory after the whole nibbles among these bits, from a first address on.
// A nibble at an address without memory is lost.
fn store(start: &[u8; 32], first: usize, bits: &[Taken]) -> [u8; 32] {
    let mut memory = *start;
    for (index, four) in bits.chunks_exact(4).enumerate() {
        if let Some(held) = memory.get_mut((first + index) % ADDRESSES) {
            *held = nibble(four);
        }
    }
    memory
}

// The answer of the RD fall that comes after `before` others: bit `before` mod 4
// of an address. Without memory there it is 0.
fn offer(memory: &[u8; 32], address: usize, before: usize) -> Answer {
    let address = address % ADDRESSES;
    let held = memory.get(address).copied().unwrap_or(0);
    (8, address as u8, (held >> (before % 4)) & 1)
}

// What DATA shows: the newest event after `place` that has a say in it. A fall
// there offered `bit`; a rise releases DATA where rises are taken.
fn shown(history: &[Event], place: usize, rises_taken: bool, bit: u8) -> u8 {
    for event in history[place + 1..].iter().rev() {
        match *event {
            Event::Fall => return level(bit),
            Event::Shown(data) => return data,
            Event::Rise(_) if rises_taken => return RELEASED,
            Event::Rise(_) => {}
        }
    }
    RELEASED
}

// A command frame: nine bits to a command from the ID on, every fall stray.
fn read_commands(part: u8, start: &[u8; 32], history: &[Event], taken: &[Taken]) -> Reading {
    let bits = &taken[3..];
    let whole = bits.len() / 9 * 9;
    let reading = read_bits(start, history, COMMAND, &bits[whole..]);
    if !newest_rose(history) || whole == 0 || whole < bits.len() {
        return reading;
    }
    let code = number(&bits[whole - 9..whole - 1]) as u8;
    let answer = if defined(part, code) {
        (6, code, 0)
    } else {
        (7, code, 0)
    };
    Reading { answer, ..reading }
}

impl Settings {
    // The settings at power-on.
    fn power_on() -> Settings {
        Settings {
            system: 0,
            clock: RC,
            lcd: 0,
            bias: 2,
            commons: 2,
            tone: 0,
            tone_kind: 4,
            irq: 0,
            rate: 7,
            time_base: 0,
            irq_source: NO_SOURCE,
            flag: 0,
            test: 0,
        }
    }

    // Whether ticks count.
    fn running(&self) -> bool {
        self.system == 1 || self.clock == EXT
    }

    // SYS DIS, which an external clock makes void.
    fn disable_system(&mut self) {
        if self.clock != EXT {
            self.system = 0;
            self.lcd = 0;
        }
    }

    // Takes a source away from IRQ where it is the one chosen.
    fn drop_source(&mut self, source: u8) {
        if self.irq_source == source {
            self.irq_source = NO_SOURCE;
        }
    }

    // TIMER EN and WDT EN.
    fn choose_source(&mut self, source: u8) {
        self.time_base = 1;
        self.irq_source = source;
    }
}

impl Counts {
    // A tick of a clock; says whether it is a base tick.
    fn base_tick(&mut self, clock: u8) -> bool {
        let each = clock == XTAL;
        let weight = if each { 8 } else { 1 };
        let after = self.prescale + weight;
        self.prescale = after % 128;
        each || after % 8 == 0
    }

    // Passes a base tick on to d, b and w; says whether w came back to 0.
    fn pass_on(&mut self, rate: u8) -> bool {
        let every = 1 << (7 - rate);
        let after = self.divider + 1;
        self.divider = after % 128;
        if after % every != 0 {
            return false;
        }
        let chain = self.chain + 1;
        self.chain = chain % 1024;
        chain == 1024
    }

    // The counter b.
    fn b(&self) -> u64 {
        self.chain % 256
    }

    // Passes a base tick on to the scan, which goes round through the commons.
    fn scan_on(&mut self, part: u8, commons: u8) {
        let round = scanned(part) * commons as u64;
        self.scan = (self.scan + 1) % round;
    }
}

// How many base ticks a common is scanned. The LCD clock is the system's 256 kHz
// over 1,024 or 768, and a base tick is eight periods of these.
fn scanned(part: u8) -> u64 {
    match part {
        GN => 768 / 8,
        _ => 1024 / 8,
    }
}

// The part that is told by a number, or the refusal 43.
fn known(part: u64) -> Result<u8, Refusal> {
    if part == HT as u64 {
        Ok(HT)
    } else if part == GN as u64 {
        Ok(GN)
    } else {
        Err((43, 0))
    }
}

/// The chip of a part at power-on with the caller's memory.
pub fn power_on(part: u64, memory: &[u8]) -> Result<Model, Refusal> {
    let part = known(part)?;
    if memory.len() != 32 {
        return Err((29, 0));
    }
    no_nibble_above_15(memory)?;
    let mut start = [0; 32];
    start.copy_from_slice(memory);
    let counts = Counts {
        prescale: 0,
        divider: 0,
        chain: 0,
        scan: 0,
    };
    Ok(Model {
        part,
        start,
        history: None,
        lines: 15,
        settings: Settings::power_on(),
        counts,
    })
}

// The refusal 23.
fn no_nibble_above_15(nibbles: &[u8]) -> Result<(), Refusal> {
    match nibbles.iter().position(|&nibble| nibble > 15) {
        Some(place) => Err((23, place as u64)),
        None => Ok(()),
    }
}

impl Model {
    /// Takes one sample: its answer, or the refusal 20.
    pub fn sample(&mut self, sample: u8) -> Result<Answer, u8> {
        if sample > 15 {
            return Err(20);
        }
        let before = self.lines;
        self.lines = sample;
        if sample & CS != 0 {
            return Ok(self.close());
        }
        let history = match self.history.as_mut() {
            None => {
                self.history = Some(Vec::new());
                return Ok((1, 0, 0));
            }
            Some(history) => history,
        };
        let rise = before & WR == 0 && sample & WR != 0;
        let fall = before & RD != 0 && sample & RD == 0;
        match (rise, fall) {
            (true, true) => return Ok((11, 0, 0)),
            (false, false) => return Ok((0, 0, 0)),
            (true, false) => history.push(Event::Rise((sample & DATA) / DATA)),
            (false, true) => history.push(Event::Fall),
        }
        let answer = read_again(self.part, &self.start, history).answer;
        if answer.0 == 6 {
            self.obey(answer.1);
        }
        Ok(answer)
    }

    // Ends the frame, if one is open, and keeps the memory it made.
    fn close(&mut self) -> Answer {
        let Some(history) = self.history.take() else {
            return (0, 0, 0);
        };
        let reading = read_again(self.part, &self.start, &history);
        self.start = reading.memory;
        if reading.count == 0 {
            (2, 0, 0)
        } else {
            (3, 0, 0)
        }
    }

    // Carries out a defined command.
    fn obey(&mut self, code: u8) {
        let Some((pattern, name)) = named(self.part, code) else {
            return;
        };
        let settings = &mut self.settings;
        match name {
            Name::SysDis => settings.disable_system(),
            Name::SysEn => settings.system = 1,
            Name::LcdOff => settings.lcd = 0,
            Name::LcdOn => settings.lcd = 1,
            Name::TimerDis => settings.drop_source(TIME_BASE),
            Name::WdtDis => {
                settings.time_base = 0;
                settings.drop_source(FLAG);
            }
            Name::TimerEn => settings.choose_source(TIME_BASE),
            Name::WdtEn => settings.choose_source(FLAG),
            Name::ToneOff => settings.tone = 0,
            Name::ToneOn => settings.tone = 1,
            Name::ClrTimer => {
                self.counts.divider = 0;
                self.counts.chain -= self.counts.b();
            }
            Name::ClrWdt => {
                self.counts.divider = 0;
                self.counts.chain = 0;
                settings.flag = 0;
            }
            Name::Xtal => settings.clock = XTAL,
            Name::Rc => settings.clock = RC,
            Name::Ext => settings.clock = EXT,
            Name::BiasCom => {
                settings.bias = 2 + carried(pattern, b'c', code);
                settings.commons = commons(pattern, code);
                self.counts.scan = 0;
            }
            Name::Tone4k => settings.tone_kind = 4,
            Name::Tone2k => settings.tone_kind = 2,
            Name::IrqDis => {
                settings.irq = 0;
                settings.flag = 0;
            }
            Name::IrqEn => settings.irq = 1,
            Name::Rate => settings.rate = carried(pattern, b'r', code),
            Name::Test => settings.test = 1,
            Name::Normal => settings.test = 0,
        }
    }

    /// One tick of the clock.
    pub fn tick(&mut self) {
        if !self.settings.running() {
            return;
        }
        let base = self.counts.base_tick(self.settings.clock);
        if !base {
            return;
        }
        self.counts.scan_on(self.part, self.settings.commons);
        if self.settings.time_base == 1 && self.counts.pass_on(self.settings.rate) {
            self.settings.flag = 1;
        }
    }

    /// So many ticks, one after the other.
    pub fn advance(&mut self, ticks: u16) {
        let count = ticks as u32;
        (0..count).for_each(|_| self.tick());
    }

    /// The pins' number and the cells shown.
    pub fn pins(&self) -> (u32, [u8; 32]) {
        let reading = self.reading();
        let (bz, partner) = self.tone_pins();
        let sum = self.irq_low() as u32 + 2 * bz as u32 + 4 * partner as u32;
        (sum + 8 * reading.data as u32, self.cells(&reading.memory))
    }

    // Whether IRQ is low.
    fn irq_low(&self) -> bool {
        let source = match self.settings.irq_source {
            TIME_BASE => self.counts.b() >= 128,
            FLAG => self.settings.flag == 1,
            _ => false,
        };
        self.settings.irq == 1 && source
    }

    // BZ and its partner.
    fn tone_pins(&self) -> (bool, bool) {
        if !self.settings.running() || self.settings.tone == 0 {
            return (false, false);
        }
        let q = self.counts.prescale / 8;
        let high = if self.settings.tone_kind == 4 {
            q % 8 >= 4
        } else {
            q >= 8
        };
        (high, !high)
    }

    // The cells shown, bit c of nibble s for (SEG s, COM c).
    fn cells(&self, memory: &[u8; 32]) -> [u8; 32] {
        let mut cells = [0; 32];
        if self.settings.running() && self.settings.lcd == 1 {
            for (cell, nibble) in cells.iter_mut().zip(memory) {
                *cell = nibble % (1 << self.settings.commons);
            }
        }
        cells
    }

    // The frame's history read again, or what stands without a frame.
    fn reading(&self) -> Reading {
        match &self.history {
            Some(history) => read_again(self.part, &self.start, history),
            None => read_bits(&self.start, &[], NO_FRAME, &[]),
        }
    }

    /// The state record.
    pub fn record(&self) -> [u8; 64] {
        let reading = self.reading();
        let mut record = [0; 64];
        record[..32].copy_from_slice(&reading.memory);
        record[32] = self.lines;
        record[33] = reading.phase;
        record[34] = reading.count;
        record[35] = reading.value as u8;
        record[36] = (reading.value >> 8) as u8;
        record[37] = reading.address;
        record[38] = reading.position;
        record[39] = reading.data;
        record[40..52].copy_from_slice(&self.settings_bytes());
        record[52] = (self.counts.prescale % 8) as u8;
        record[53] = (self.counts.prescale / 8) as u8;
        record[54] = self.counts.divider as u8;
        record[55] = self.counts.b() as u8;
        record[56] = (self.counts.chain / 256) as u8;
        record[57] = self.settings.test;
        record[58] = self.part;
        record[59] = (self.counts.scan % scanned(self.part)) as u8;
        record[60] = (self.counts.scan / scanned(self.part)) as u8;
        record
    }

    // Bytes 40 to 51.
    fn settings_bytes(&self) -> [u8; 12] {
        let s = &self.settings;
        [
            s.system,
            s.clock,
            s.lcd,
            s.bias,
            s.commons,
            s.tone,
            s.tone_kind,
            s.irq,
            s.rate,
            s.time_base,
            s.irq_source,
            s.flag,
        ]
    }

    /// The chip of a state record, if the record is valid.
    pub fn from_record(record: &[u8]) -> Option<Model> {
        if !valid(record) {
            return None;
        }
        let mut start = [0; 32];
        start.copy_from_slice(&record[..32]);
        let wide = |index: usize| record[index] as u64;
        let counts = Counts {
            prescale: 8 * wide(53) + wide(52),
            divider: wide(54),
            chain: 256 * wide(56) + wide(55),
            scan: scanned(record[58]) * wide(60) + wide(59),
        };
        let settings = settings_of(record);
        Some(Model {
            part: record[58],
            start,
            history: made_up(record),
            lines: record[32],
            settings,
            counts,
        })
    }
}

// The settings that a valid record holds.
fn settings_of(record: &[u8]) -> Settings {
    Settings {
        system: record[40],
        clock: record[41],
        lcd: record[42],
        bias: record[43],
        commons: record[44],
        tone: record[45],
        tone_kind: record[46],
        irq: record[47],
        rate: record[48],
        time_base: record[49],
        irq_source: record[50],
        flag: record[51],
        test: record[57],
    }
}

/// Whether bytes are a valid state record.
pub fn valid(record: &[u8]) -> bool {
    record.len() == 64
        && (0..64).all(|index| in_range(index, record[index]))
        && (record[33] == NO_FRAME) == (record[32] & CS != 0)
        && record[34] <= most_unfinished(record[33])
        && record[35] as u32 + 256 * (record[36] as u32) < 1 << record[34]
        && (record[33] == READ || record[33] == WRITE || record[37..40] == [0, 0, 0])
        && (record[59] as u64) < scanned(record[58])
        && record[60] < record[44]
}

// Whether one byte of a record is in its range.
fn in_range(index: usize, byte: u8) -> bool {
    match index {
        0..=32 => byte <= 15,
        33 => byte <= DEAD,
        34..=36 | 59..=60 => true,
        37 => byte <= 63,
        38 => byte <= 3,
        39 | 41 | 50 => byte <= 2,
        43 => byte == 2 || byte == 3,
        44 => byte == 2 || byte == 3 || byte == 4,
        46 => byte == 2 || byte == 4,
        48 | 52 => byte <= 7,
        53 => byte <= 15,
        54 => byte <= 127,
        55 => true,
        56 => byte <= 3,
        58 => byte <= GN,
        61..=63 => byte == 0,
        _ => byte <= 1,
    }
}

// The most unfinished bits that a phase can hold.
fn most_unfinished(phase: u8) -> u8 {
    match phase {
        ID => 2,
        READ_ADDRESS | WRITE_ADDRESS => 5,
        WRITE => 3,
        COMMAND => 8,
        _ => 0,
    }
}

// A history that leads to a valid record.
fn made_up(record: &[u8]) -> Option<Vec<Event>> {
    let mut history = Vec::new();
    let (count, value) = (record[34] as usize, record[35]);
    let id = match record[33] {
        NO_FRAME => return None,
        ID => "",
        READ_ADDRESS | READ => "110",
        WRITE_ADDRESS | WRITE => "101",
        COMMAND => "100",
        _ => "000",
    };
    send(&mut history, id);
    let in_data = record[33] == READ || record[33] == WRITE;
    if in_data {
        send(&mut history, &format!("{:06b}", record[37]));
        history.extend((0..record[38]).map(|_| Event::Fall));
    }
    if count > 0 {
        send(&mut history, &format!("{:0width$b}", value, width = count));
    }
    if in_data {
        history.push(Event::Shown(record[39]));
    }
    Some(history)
}

// Adds the WR rises of a text of bits to a history.
fn send(history: &mut Vec<Event>, bits: &str) {
    history.extend(bits.bytes().map(|letter| Event::Rise(letter - b'0')));
}

// A nibble as a text of bits, D0 first.
fn nibble_text(nibble: u8) -> String {
    format!("{:04b}", nibble).chars().rev().collect()
}

// The samples that send a text of bits; R is a bit read.
fn stream(text: &str) -> Vec<u8> {
    let mut samples = vec![15, 14];
    for letter in text.chars() {
        samples.extend_from_slice(match letter {
            '0' => &[4, 6],
            '1' => &[12, 14],
            _ => &[10, 14],
        });
    }
    samples.push(15);
    samples
}

// The refusal 25.
fn within(room: usize, bytes: Vec<u8>) -> Result<Vec<u8>, Refusal> {
    if room < bytes.len() {
        Err((25, 0))
    } else {
        Ok(bytes)
    }
}

// The refusals 21, 22 and 30 of a write or a read.
fn span(first: u64, count: u64) -> Result<(), Refusal> {
    if count == 0 {
        return Err((21, 0));
    }
    if first > 31 {
        return Err((22, 0));
    }
    if first as u128 + count as u128 > 32 {
        return Err((30, 0));
    }
    Ok(())
}

/// The stream that writes nibbles from an address on.
pub fn write(first: u64, nibbles: &[u8], room: usize) -> Result<Vec<u8>, Refusal> {
    span(first, nibbles.len() as u64)?;
    no_nibble_above_15(nibbles)?;
    let texts: String = nibbles.iter().map(|&nibble| nibble_text(nibble)).collect();
    within(room, stream(&format!("101{:06b}{}", first, texts)))
}

/// The stream that reads nibbles from an address on.
pub fn read(first: u64, count: u64, room: usize) -> Result<Vec<u8>, Refusal> {
    span(first, count)?;
    let texts = "RRRR".repeat(count as usize);
    within(room, stream(&format!("110{:06b}{}", first, texts)))
}

/// The stream that sends commands to a chip of a part.
pub fn commands(part: u64, codes: &[u8], room: usize) -> Result<Vec<u8>, Refusal> {
    let part = known(part)?;
    if codes.is_empty() {
        return Err((21, 0));
    }
    if codes.len() > 32 {
        return Err((31, 0));
    }
    if let Some(place) = codes.iter().position(|&code| !defined(part, code)) {
        return Err((24, place as u64));
    }
    let texts: String = codes.iter().map(|code| format!("{:08b}0", code)).collect();
    within(room, stream(&format!("100{}", texts)))
}

/// The nibbles of noted bytes.
pub fn decode(noted: &[u8], room: usize) -> Result<Vec<u8>, Refusal> {
    if noted.is_empty() || noted.len() > 128 || noted.len() % 4 != 0 {
        return Err((26, 0));
    }
    if let Some(place) = noted.iter().position(|&byte| byte > 1) {
        return Err((27, place as u64));
    }
    let four = |bits: &[u8]| bits[0] + 2 * bits[1] + 4 * bits[2] + 8 * bits[3];
    within(room, noted.chunks(4).map(four).collect())
}

/// What the listing program prints for an input. Its chip is an HT.
pub fn listing(input: &[u8]) -> Vec<u8> {
    if input.len() > 65_536 {
        return b"long\n".to_vec();
    }
    let mut chip = power_on(HT as u64, &[0; 32]).expect("32 zeros are a memory");
    let mut text = String::new();
    let (mut samples, mut ticks) = (0, 0);
    for (offset, &byte) in input.iter().enumerate() {
        let sample = match byte {
            b'0'..=b'9' => byte - b'0',
            b'a'..=b'f' => byte - b'a' + 10,
            b' ' | b'\n' => continue,
            b't' => {
                chip.tick();
                ticks += 1;
                continue;
            }
            _ => {
                text += &format!("bad {}\n", offset);
                return text.into_bytes();
            }
        };
        samples += 1;
        let (answer, first, second) = chip.sample(sample).expect("a digit is a sample");
        if answer != 0 && answer != 4 {
            text += &format!("{} {} {} {}\n", samples, answer, first, second);
        }
    }
    text += &format!("end {} {}\n", samples, ticks);
    text.into_bytes()
}
