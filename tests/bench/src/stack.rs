//! The stack that a call uses: it is run on a thread whose stack is painted, and the paint that
//! is gone is measured. A part of a frame that is never written isn't seen.

use std::ffi::{c_int, c_void};
use std::ptr::null_mut;

extern "C" {
    fn mmap(at: *mut c_void, length: usize, protection: c_int, flags: c_int, file: c_int, offset: i64) -> *mut c_void;
    fn munmap(at: *mut c_void, length: usize) -> c_int;
    fn mprotect(at: *mut c_void, length: usize, protection: c_int) -> c_int;
    fn pthread_attr_init(attributes: *mut c_void) -> c_int;
    fn pthread_attr_setstack(attributes: *mut c_void, at: *mut c_void, size: usize) -> c_int;
    fn pthread_attr_destroy(attributes: *mut c_void) -> c_int;
    fn pthread_create(thread: *mut usize, attributes: *const c_void, run: extern "C" fn(*mut c_void) -> *mut c_void, argument: *mut c_void) -> c_int;
    fn pthread_join(thread: usize, result: *mut *mut c_void) -> c_int;
}

const READ_WRITE: c_int = 3;
/// MAP_PRIVATE, MAP_ANONYMOUS (Linux).
const MAP: c_int = 0x02 | 0x20;
const SIZE: usize = 8 << 20;
const GUARD: usize = 1 << 16;
const PAINT: u8 = 0xA5;
/// Below the frame of `run`, kept for its own calls.
pub const MARGIN: usize = 768;

struct Job<'a> {
    call: &'a mut dyn FnMut(),
    lowest: *mut u8,
    used: usize,
}

/// The bytes of stack that a call uses, a few hundred of the caller's frames included. `None` if
/// it is less than can be told.
pub fn used(call: &mut dyn FnMut()) -> Option<usize> {
    let bytes = on_painted_stack(call);
    (bytes > MARGIN).then_some(bytes)
}

fn on_painted_stack(call: &mut dyn FnMut()) -> usize {
    // The mapping is used by one thread only, which is joined before the mapping goes.
    unsafe {
        let stack = mmap(null_mut(), SIZE, READ_WRITE, MAP, -1, 0);
        assert!(stack as isize != -1, "no memory for a stack");
        assert_eq!(mprotect(stack, GUARD, 0), 0);
        let mut job = Job { call, lowest: stack.cast::<u8>().add(GUARD), used: 0 };
        // pthread_attr_t is smaller than this everywhere.
        let mut attributes = [0u64; 32];
        let attributes: *mut c_void = attributes.as_mut_ptr().cast();
        let mut thread = 0;
        assert_eq!(pthread_attr_init(attributes), 0);
        assert_eq!(pthread_attr_setstack(attributes, stack.cast::<u8>().add(GUARD).cast(), SIZE - GUARD), 0);
        assert_eq!(pthread_create(&mut thread, attributes, run, (&mut job as *mut Job).cast()), 0);
        assert_eq!(pthread_join(thread, null_mut()), 0);
        pthread_attr_destroy(attributes);
        munmap(stack, SIZE);
        job.used
    }
}

/// Runs the call once, so that all it needs is loaded; paints; runs it again; measures.
extern "C" fn run(argument: *mut c_void) -> *mut c_void {
    // The job outlives the thread; what is painted lies below this frame, on this thread's stack.
    unsafe {
        let job = &mut *argument.cast::<Job>();
        (job.call)();
        let here = 0u8;
        let top = std::hint::black_box(&here as *const u8) as usize;
        let length = top - MARGIN - job.lowest as usize;
        std::ptr::write_bytes(job.lowest, PAINT, length);
        (job.call)();
        let painted = std::slice::from_raw_parts(job.lowest, length);
        let whole = painted.iter().position(|&byte| byte != PAINT).unwrap_or(length);
        job.used = top - (job.lowest as usize + whole);
    }
    null_mut()
}
