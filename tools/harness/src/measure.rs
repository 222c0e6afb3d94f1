//! The stack and the time that a call takes. For the stack, the call runs on a thread whose stack is
//! a buffer filled with a pattern; what it used is the distance from the lowest changed byte to a
//! local of the caller. A call that does nothing shows the least that can be told: what starting a
//! thread leaves below that local.

use std::ffi::c_void;
use std::hint::black_box;
use std::ptr;
use std::time::{Duration, Instant};

/// How many times a set of subjects is measured, and how long each one runs at least each time.
pub const ROUNDS: usize = 9;
pub const BATCH: Duration = Duration::from_millis(2);

const STACK_BYTES: usize = 64 << 20;
const PATTERN: u8 = 0xA5;
const PAGE_BYTES: usize = 4096;

/// A thread's attributes, opaque and large enough for the C library's.
#[repr(C, align(16))]
struct Attributes([u64; 16]);

extern "C" {
    fn pthread_attr_init(attributes: *mut Attributes) -> i32;
    fn pthread_attr_setstack(attributes: *mut Attributes, start: *mut c_void, size: usize) -> i32;
    fn pthread_attr_destroy(attributes: *mut Attributes) -> i32;
    fn pthread_create(
        thread: *mut usize,
        attributes: *const Attributes,
        body: extern "C" fn(*mut c_void) -> *mut c_void,
        arg: *mut c_void,
    ) -> i32;
    fn pthread_join(thread: usize, result: *mut *mut c_void) -> i32;
}

/// What the measured thread does, and where the stack stood before.
struct Task<'a> {
    work: &'a mut dyn FnMut(),
    mark: usize,
}

extern "C" fn body(task: *mut c_void) -> *mut c_void {
    // SAFETY: `stack_used` passes a Task that outlives the thread and that nothing else touches.
    let task = unsafe { &mut *task.cast::<Task>() };
    let local = 0u8;
    task.mark = black_box(&raw const local) as usize;
    (task.work)();
    ptr::null_mut()
}

/// The bytes of stack below its caller that `work` used.
pub fn stack_used(work: &mut dyn FnMut()) -> Result<usize, String> {
    let mut buffer = vec![PATTERN; STACK_BYTES + PAGE_BYTES];
    let skip = buffer.as_ptr().align_offset(PAGE_BYTES);
    let stack = &mut buffer[skip..skip + STACK_BYTES];
    let mut task = Task { work, mark: 0 };
    run_on(stack, (&raw mut task).cast())?;
    let untouched = stack.iter().take_while(|&&byte| byte == PATTERN).count();
    let lowest = stack.as_ptr() as usize + untouched;
    Ok(task.mark.saturating_sub(lowest))
}

/// Runs `body` on a thread with the given stack and waits for it.
fn run_on(stack: &mut [u8], task: *mut c_void) -> Result<(), String> {
    let mut attributes = Attributes([0; 16]);
    let mut thread = 0;
    // SAFETY: the attributes are initialised first; the stack outlives the thread, which is joined.
    let failed = unsafe {
        pthread_attr_init(&mut attributes) != 0
            || pthread_attr_setstack(&mut attributes, stack.as_mut_ptr().cast(), stack.len()) != 0
            || pthread_create(&mut thread, &attributes, body, task) != 0
            || pthread_join(thread, ptr::null_mut()) != 0
            || pthread_attr_destroy(&mut attributes) != 0
    };
    if failed {
        return Err("the measured thread could not be run".to_string());
    }
    Ok(())
}

/// The nanoseconds of one call of `work`, over at least half a second of calls.
pub fn time_of(mut work: impl FnMut()) -> f64 {
    let start = Instant::now();
    let mut calls = 0u32;
    while start.elapsed() < Duration::from_millis(500) {
        for _ in 0..16 {
            work();
        }
        calls += 16;
    }
    start.elapsed().as_nanos() as f64 / f64::from(calls)
}

/// The nanoseconds of one call of each of `N` subjects: the medians of some rounds, in each of which
/// the subjects take turns, so that what changes on the machine changes for all.
pub fn medians<const N: usize>(mut call: impl FnMut(usize)) -> [f64; N] {
    let mut calls = [1u32; N];
    for (subject, calls) in calls.iter_mut().enumerate() {
        while batch(*calls, || call(subject)) < BATCH {
            *calls *= 2;
        }
    }
    let mut rounds = [(); ROUNDS].map(|()| {
        let mut times = [0.0; N];
        for (subject, time) in times.iter_mut().enumerate() {
            let nanoseconds = batch(calls[subject], || call(subject)).as_nanos();
            *time = nanoseconds as f64 / f64::from(calls[subject]);
        }
        times
    });
    std::array::from_fn(|subject| {
        rounds.sort_by(|a, b| a[subject].total_cmp(&b[subject]));
        rounds[ROUNDS / 2][subject]
    })
}

fn batch(calls: u32, mut work: impl FnMut()) -> Duration {
    let start = Instant::now();
    for _ in 0..calls {
        work();
    }
    start.elapsed()
}
