//! How deep each call goes on the stack: it runs in a thread whose stack is painted before, and the paint is looked at after.

use std::ffi::c_int;
use std::ffi::c_void;
use std::hint::black_box;
use std::ptr;
use std::slice;

use crate::cases;

/// The bytes of the stack, more than any call uses.
const STACK: usize = 256 * 1024;
/// What the stack begins at a multiple of.
const PAGE: usize = 4096;
/// The paint.
const PAINT: u8 = 0x5a;

/// Room for the C library's attributes of a thread.
type Attributes = [u64; 16];

extern "C" {
    fn pthread_attr_init(attributes: *mut Attributes) -> c_int;
    fn pthread_attr_setstack(attributes: *mut Attributes, low: *mut c_void, size: usize) -> c_int;
    fn pthread_attr_destroy(attributes: *mut Attributes) -> c_int;
    fn pthread_create(
        thread: *mut usize,
        attributes: *const Attributes,
        start: extern "C" fn(*mut c_void) -> *mut c_void,
        task: *mut c_void,
    ) -> c_int;
    fn pthread_join(thread: usize, result: *mut *mut c_void) -> c_int;
}

/// What a thread runs, where its stack ends, and how deep it went.
struct Task<'a> {
    run: &'a mut dyn FnMut(),
    low: usize,
    depth: usize,
}

/// Runs a task, and looks how far down from here the stack was written to.
extern "C" fn start(task: *mut c_void) -> *mut c_void {
    // SAFETY: `depth` passes a task, and waits for the thread.
    let task = unsafe { &mut *task.cast::<Task>() };
    let mut here = 0u8;
    let here = black_box(&raw mut here) as usize;
    (task.run)();
    // SAFETY: the bytes are the lower part of this thread's stack, which was painted.
    let painted = unsafe { slice::from_raw_parts(task.low as *const u8, here - task.low) };
    let untouched = painted.iter().take_while(|byte| **byte == PAINT).count();
    task.depth = painted.len() - untouched;
    ptr::null_mut()
}

/// The bytes of stack that a run takes.
fn depth(run: &mut dyn FnMut()) -> usize {
    let mut memory = vec![PAINT; STACK + PAGE];
    let low = memory.as_mut_ptr() as usize;
    let low = low.next_multiple_of(PAGE);
    let mut task = Task { run, low, depth: 0 };
    let mut attributes: Attributes = [0; 16];
    let mut thread = 0;
    // SAFETY: the stack is painted memory that outlives the thread, and so is the task.
    let failures = unsafe {
        pthread_attr_init(&mut attributes)
            | pthread_attr_setstack(&mut attributes, low as *mut c_void, STACK)
            | pthread_create(&mut thread, &attributes, start, (&raw mut task).cast())
            | pthread_join(thread, ptr::null_mut())
            | pthread_attr_destroy(&mut attributes)
    };
    assert_eq!(failures, 0, "no thread with a stack of its own");
    task.depth
}

/// How deep each call goes on each side: the greatest depth of all cases.
pub fn table(rows: usize) {
    println!("call       ours bytes   Rust bytes");
    for call in ["row", "lent row", "preview", "lines", "text"] {
        let (mut ours, mut rust) = (0, 0);
        for mut case in cases::all(rows).filter(|case| case.name.starts_with(call)) {
            case.check();
            ours = ours.max(depth(&mut || case.ours()));
            rust = rust.max(depth(&mut || case.rust()));
        }
        println!("{call:8} {ours:12} {rust:12}");
    }
}
