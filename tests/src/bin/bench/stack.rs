//! The stack that a call of the Rattle library takes.
//!
//! A call is made on a thread whose stack was painted before, and what has
//! another colour after it was taken: by the arguments that go by value and by
//! the call's own frames. The place of the answer is the caller's and is not
//! counted. Give or take a few words: the painting itself has two of the first,
//! and the Rust function that makes a call safe takes some.

use std::hint::black_box;
use std::thread;

/// Enough for every call.
const PAINTED: usize = 1 << 20;
const PAINT: u8 = 0xA5;

/// How many bytes a call takes.
pub fn taken<T>(call: &(dyn Fn() -> T + Sync)) -> usize {
    thread::scope(|scope| {
        thread::Builder::new()
            .stack_size(2 * PAINTED)
            .spawn_scoped(scope, || {
                let end = paint();
                black_box(call());
                PAINTED - still_painted(end)
            })
            .expect("a thread starts")
            .join()
            .expect("the call ends")
    })
}

/// Paints the stack below the caller's frame, and answers where that ends.
#[inline(never)]
fn paint() -> *const u8 {
    let area = [PAINT; PAINTED];
    black_box(&area).as_ptr()
}

/// How many bytes from the end of the painted stack on have the paint.
fn still_painted(end: *const u8) -> usize {
    (0..PAINTED)
        // Safety: it is this thread's stack, and no variable is there now.
        .take_while(|&at| unsafe { end.add(at).read_volatile() } == PAINT)
        .count()
}
