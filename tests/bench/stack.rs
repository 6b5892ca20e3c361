// How much stack a call takes: it runs in a thread whose stack is a buffer of ours, painted before and looked at after.
use crate::packs::{idle, Pack};
use std::ffi::c_void;
use std::hint::black_box;

const BYTES: usize = 4 << 20;
const PAINT: u8 = 0xa5;

type Attributes = [u64; 16]; // room for pthread_attr_t
type Call<'a> = &'a dyn Fn(&Pack) -> u32;

extern "C" {
    fn pthread_attr_init(attributes: *mut Attributes) -> i32;
    fn pthread_attr_setstack(attributes: *mut Attributes, at: *mut u8, bytes: usize) -> i32;
    fn pthread_create(
        thread: *mut usize,
        attributes: *const Attributes,
        start: extern "C" fn(*mut c_void) -> *mut c_void,
        argument: *mut c_void,
    ) -> i32;
    fn pthread_join(thread: usize, result: *mut *mut c_void) -> i32;
}

// The thread's own beginning and end use stack as well: the call is made deeper than they go.
#[inline(never)]
fn deeper((call, pack): (Call, &Pack)) {
    let below = [0u8; 1 << 16];
    black_box(&below);
    black_box(call(pack));
    black_box(&below);
}

extern "C" fn start(argument: *mut c_void) -> *mut c_void {
    deeper(unsafe { *(argument as *const (Call, &Pack)) });
    std::ptr::null_mut()
}

fn depth(call: Call, pack: &Pack) -> usize {
    let mut stack = vec![PAINT; BYTES + 4096];
    let aligned = stack.as_ptr().align_offset(4096);
    let argument = (call, pack);
    unsafe {
        let (mut attributes, mut thread) = ([0; 16], 0);
        assert_eq!(pthread_attr_init(&mut attributes), 0);
        let at = stack.as_mut_ptr().add(aligned);
        assert_eq!(pthread_attr_setstack(&mut attributes, at, BYTES), 0);
        let told = &argument as *const _ as *mut c_void;
        assert_eq!(pthread_create(&mut thread, &attributes, start, told), 0);
        assert_eq!(pthread_join(thread, std::ptr::null_mut()), 0);
    }
    let untouched = stack[aligned..].iter().position(|&byte| byte != PAINT);
    BYTES - untouched.unwrap()
}

// The bytes of stack that a pack's call takes: what it touches below what a call that does nothing touches.
pub fn taken(call: Call, pack: &Pack) -> usize {
    call(pack); // so that nothing is looked up on the first call any more
    depth(call, pack) - depth(call, &idle())
}
