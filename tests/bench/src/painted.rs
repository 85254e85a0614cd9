//! A thread whose stack is painted before it starts. What is no longer painted afterwards says how deep it came.
use std::ffi::{c_int, c_void};
use std::ptr::null_mut;

/// Far more than a call needs.
const SIZE: usize = 1 << 20;
const WORDS: usize = SIZE / 8;
/// A call that left fewer words than this alone may have gone past the end.
const LEAST_LEFT: usize = 512;

const READ_AND_WRITE: c_int = 3;
const PRIVATE_AND_ANONYMOUS: c_int = 0x22;

/// More than the 56 bytes of a pthread_attr_t.
#[repr(C, align(16))]
struct Attributes([u8; 64]);

extern "C" {
    fn mmap(address: *mut c_void, length: usize, protection: c_int, flags: c_int, file: c_int, offset: i64) -> *mut c_void;
    fn munmap(address: *mut c_void, length: usize) -> c_int;
    fn pthread_attr_init(attributes: *mut Attributes) -> c_int;
    fn pthread_attr_setstack(attributes: *mut Attributes, stack: *mut c_void, size: usize) -> c_int;
    fn pthread_attr_destroy(attributes: *mut Attributes) -> c_int;
    fn pthread_create(
        thread: *mut usize,
        attributes: *const Attributes,
        start: extern "C" fn(*mut c_void) -> *mut c_void,
        job: *mut c_void,
    ) -> c_int;
    fn pthread_join(thread: usize, result: *mut *mut c_void) -> c_int;
}

/// What the thread runs, the lowest word of its stack, and how many words from there on are as they were painted.
struct Job<'a> {
    run: &'a mut dyn FnMut(),
    stack: *const u64,
    left: usize,
}

/// Another number in each word, which nothing else writes there.
fn paint(word: usize) -> u64 {
    (word as u64 + 1).wrapping_mul(0x9E37_79B9_7F4A_7C15)
}

/// The words are counted here and not after the thread's end, which needs stack of its own.
extern "C" fn start(job: *mut c_void) -> *mut c_void {
    // SAFETY: `deepest` gives a job and waits for the thread's end. The words are of its stack, all of them mapped; they are only read.
    unsafe {
        let job = &mut *job.cast::<Job>();
        (job.run)();
        let mut word = 0;
        while word < WORDS && job.stack.add(word).read_volatile() == paint(word) {
            word += 1;
        }
        job.left = word;
    }
    null_mut()
}

/// The answer of a function that has no reason to fail.
fn must(code: c_int) {
    assert_eq!(code, 0, "a thread with a stack of its own");
}

/// How many bytes the lowest word that is written is below the stack's top, the thread's own part included. `run` must not panic.
pub fn deepest(run: &mut dyn FnMut()) -> usize {
    // SAFETY: the stack is mapped in its full length until the thread has ended, and the job outlives the thread too.
    let left = unsafe {
        let stack = mmap(null_mut(), SIZE, READ_AND_WRITE, PRIVATE_AND_ANONYMOUS, -1, 0);
        assert_ne!(stack as isize, -1, "a stack");
        for word in 0..WORDS {
            stack.cast::<u64>().add(word).write_volatile(paint(word));
        }
        let mut job = Job { run, stack: stack.cast(), left: 0 };
        let (mut attributes, mut thread) = (Attributes([0; 64]), 0);
        must(pthread_attr_init(&mut attributes));
        must(pthread_attr_setstack(&mut attributes, stack, SIZE));
        must(pthread_create(&mut thread, &attributes, start, (&raw mut job).cast()));
        must(pthread_join(thread, null_mut()));
        must(pthread_attr_destroy(&mut attributes));
        must(munmap(stack, SIZE));
        job.left
    };
    assert!(left > LEAST_LEFT, "a larger stack");
    SIZE - 8 * left
}
