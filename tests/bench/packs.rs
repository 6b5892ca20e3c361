// The four that are timed, behind one C interface: the libraries, plain.c by two compilers, and plain.rs. All are called by
// pointer, so that none is inlined into the loops that time them.
use crate::plain;
use std::slice::{from_raw_parts as lent, from_raw_parts_mut as lent_mut};
use std::sync::Mutex;

type Turn = unsafe extern "C" fn(*const u8, usize, *mut u8, usize) -> u32;
type Get = extern "C" fn(i32, *mut u8, usize) -> isize;
type Put = extern "C" fn(i32, *const u8, usize) -> isize;
type Listing = unsafe extern "C" fn(Get, Put);

#[repr(C)]
pub struct Pack {
    step: unsafe extern "C" fn(*mut u8, usize, u8) -> u32,
    advance: unsafe extern "C" fn(*mut u8, usize, u16) -> u32,
    pins: Turn,
    write: unsafe extern "C" fn(usize, *const u8, usize, *mut u8, usize) -> u32,
    read: unsafe extern "C" fn(usize, usize, *mut u8, usize) -> u32,
    commands: unsafe extern "C" fn(usize, *const u8, usize, *mut u8, usize) -> u32,
    decode: Turn,
    listing: Listing,
    formatted: Listing, // with printf's formatting where it is C
}

impl Pack {
    pub fn step(&self, record: &mut [u8], sample: u8) -> u32 {
        unsafe { (self.step)(record.as_mut_ptr(), record.len(), sample) }
    }
    pub fn advance(&self, record: &mut [u8], ticks: u16) -> u32 {
        unsafe { (self.advance)(record.as_mut_ptr(), record.len(), ticks) }
    }
    pub fn pins(&self, record: &[u8], cells: &mut [u8]) -> u32 {
        unsafe { (self.pins)(record.as_ptr(), record.len(), cells.as_mut_ptr(), cells.len()) }
    }
    pub fn write(&self, first: usize, nibbles: &[u8], out: &mut [u8]) -> u32 {
        unsafe { (self.write)(first, nibbles.as_ptr(), nibbles.len(), out.as_mut_ptr(), out.len()) }
    }
    pub fn read(&self, first: usize, count: usize, out: &mut [u8]) -> u32 {
        unsafe { (self.read)(first, count, out.as_mut_ptr(), out.len()) }
    }
    pub fn commands(&self, part: usize, codes: &[u8], out: &mut [u8]) -> u32 {
        unsafe { (self.commands)(part, codes.as_ptr(), codes.len(), out.as_mut_ptr(), out.len()) }
    }
    pub fn decode(&self, noted: &[u8], out: &mut [u8]) -> u32 {
        unsafe { (self.decode)(noted.as_ptr(), noted.len(), out.as_mut_ptr(), out.len()) }
    }

    // Lists what `load` loaded, and returns how many bytes were written.
    pub fn listing(&self, formatted: bool) -> u32 {
        TAPE.lock().unwrap().rewind();
        let listing = if formatted { self.formatted } else { self.listing };
        unsafe { listing(get, put) };
        TAPE.lock().unwrap().output.len() as u32
    }
}

// ---- what the listing programs read and write: each calls these in place of the system's read and write ----

struct Tape {
    input: Vec<u8>,
    at: usize,
    output: Vec<u8>,
}

impl Tape {
    fn rewind(&mut self) {
        self.at = 0;
        self.output.clear();
    }
}

static TAPE: Mutex<Tape> = Mutex::new(Tape { input: Vec::new(), at: 0, output: Vec::new() });

pub fn load(input: &[u8]) {
    TAPE.lock().unwrap().input = input.to_vec();
}

pub fn printed() -> Vec<u8> {
    TAPE.lock().unwrap().output.clone()
}

#[export_name = "listing_read"]
extern "C" fn get(_: i32, to: *mut u8, count: usize) -> isize {
    let mut tape = TAPE.lock().unwrap();
    let count = count.min(tape.input.len() - tape.at);
    unsafe { to.copy_from_nonoverlapping(tape.input[tape.at..].as_ptr(), count) };
    tape.at += count;
    count as isize
}

#[export_name = "listing_write"]
extern "C" fn put(_: i32, from: *const u8, count: usize) -> isize {
    let bytes = unsafe { lent(from, count) };
    TAPE.lock().unwrap().output.extend_from_slice(bytes);
    count as isize
}

// The listing asks whether it can go back in its input, and for its arguments: it cannot, and there are none.
#[export_name = "listing_lseek"]
extern "C" fn seek(_: i32, _: i64, _: i32) -> i64 {
    -1
}

#[export_name = "listing_rattle_arg"]
extern "C" fn argument(_: usize, _: *mut u8, _: usize) -> isize {
    -1
}

// ---- the four ----

pub const NAMES: [&str; 4] = ["ours", "clang", "gcc", "Rust"];

pub fn packs() -> [&'static Pack; 4] {
    unsafe { [&OURS, &clang_pack, &gcc_pack, &RUST] }
}

extern "C" {
    static clang_pack: Pack;
    static gcc_pack: Pack;

    fn step(record: *mut u8, bytes: usize, sample: u8) -> u32;
    fn advance(record: *mut u8, bytes: usize, ticks: u16) -> u32;
    fn pins(record: *const u8, bytes: usize, cells: *mut u8, room: usize) -> u32;
    fn ht1621_write(first: usize, nibbles: *const u8, n: usize, out: *mut u8, room: usize) -> u32;
    fn ht1621_read(first: usize, count: usize, out: *mut u8, room: usize) -> u32;
    fn ht1621_commands(part: usize, codes: *const u8, count: usize, out: *mut u8, room: usize) -> u32;
    fn ht1621_decode(noted: *const u8, count: usize, out: *mut u8, room: usize) -> u32;
    fn listing_main() -> i32; // the program's main, which calls listing_read and listing_write
}

static OURS: Pack = Pack {
    step,
    advance,
    pins,
    write: ht1621_write,
    read: ht1621_read,
    commands: ht1621_commands,
    decode: ht1621_decode,
    listing: our_listing,
    formatted: our_listing,
};

unsafe extern "C" fn our_listing(_: Get, _: Put) {
    listing_main();
}

static RUST: Pack = Pack {
    step: rust_step,
    advance: rust_advance,
    pins: rust_pins,
    write: rust_write,
    read: rust_read,
    commands: rust_commands,
    decode: rust_decode,
    listing: rust_listing,
    formatted: rust_listing,
};

unsafe extern "C" fn rust_step(record: *mut u8, bytes: usize, sample: u8) -> u32 {
    plain::step(lent_mut(record, bytes), sample)
}
unsafe extern "C" fn rust_advance(record: *mut u8, bytes: usize, ticks: u16) -> u32 {
    plain::advance(lent_mut(record, bytes), ticks)
}
unsafe extern "C" fn rust_pins(r: *const u8, bytes: usize, cells: *mut u8, room: usize) -> u32 {
    plain::pins(lent(r, bytes), lent_mut(cells, room))
}
unsafe extern "C" fn rust_write(first: usize, nibbles: *const u8, count: usize, out: *mut u8, room: usize) -> u32 {
    plain::write(first, lent(nibbles, count), lent_mut(out, room))
}
unsafe extern "C" fn rust_read(first: usize, count: usize, out: *mut u8, room: usize) -> u32 {
    plain::read(first, count, lent_mut(out, room))
}
unsafe extern "C" fn rust_commands(part: usize, c: *const u8, count: usize, out: *mut u8, room: usize) -> u32 {
    plain::commands(part, lent(c, count), lent_mut(out, room))
}
unsafe extern "C" fn rust_decode(n: *const u8, count: usize, out: *mut u8, room: usize) -> u32 {
    plain::decode(lent(n, count), lent_mut(out, room))
}
unsafe extern "C" fn rust_listing(get: Get, put: Put) {
    let mut input = [0; 65537];
    let mut count = 0;
    loop {
        let got = get(0, input[count..].as_mut_ptr(), input.len() - count);
        if got <= 0 {
            break;
        }
        count += got as usize;
    }
    let out = plain::list(&input[..count]);
    put(1, out.as_ptr(), out.len());
}

// One whose calls do nothing, and take no stack.
pub fn idle() -> Pack {
    use std::mem::transmute as as_call;
    unsafe extern "C" fn nothing() -> u32 {
        0
    }
    let call = nothing as *const ();
    unsafe {
        Pack {
            step: as_call(call),
            advance: as_call(call),
            pins: as_call(call),
            write: as_call(call),
            read: as_call(call),
            commands: as_call(call),
            decode: as_call(call),
            listing: as_call(call),
            formatted: as_call(call),
        }
    }
}
