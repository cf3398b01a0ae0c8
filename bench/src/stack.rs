//! How much stack a call uses: the free stack of a thread is painted, the call
//! runs, and the lowest byte that lost its paint is looked up.

use std::hint::black_box;
use std::thread;

/// The stack of the thread, and the part of it that is painted: more than any
/// call may use.
const STACK: usize = 1 << 20;
const PAINTED: usize = 64 << 10;
/// The paint starts so far below the painter's own local.
const RED_ZONE: usize = 256;
const PAINT: u8 = 0xA5;

/// Bytes of stack below the caller's frame that a call reaches. A few hundred
/// next to that frame cannot be painted and always count: [`floor`].
pub fn used_by(call: &mut (dyn FnMut() + Send)) -> usize {
    thread::scope(|scope| {
        thread::Builder::new()
            .stack_size(STACK)
            .spawn_scoped(scope, || painted(call))
            .expect("a thread")
            .join()
            .expect("the call ends")
    })
}

/// What is read for a call that does nothing.
pub fn floor() -> usize {
    used_by(&mut || {})
}

#[inline(never)]
fn painted(call: &mut (dyn FnMut() + Send)) -> usize {
    let local = 0_u8;
    let top = black_box(&local) as *const u8 as usize;
    paint(top - PAINTED);
    call();
    let lowest = lowest_touched(top - PAINTED, top);
    assert!(lowest > top - PAINTED, "a call used more than the painted stack");
    top - lowest
}

/// Paints upward from `bottom` to just below this function's frame.
#[inline(never)]
fn paint(bottom: usize) {
    let local = 0_u8;
    let end = black_box(&local) as *const u8 as usize - RED_ZONE;
    for at in bottom..end {
        // SAFETY: the thread's stack has STACK bytes, of which the frames in
        // use lie above `end`; nothing below is alive.
        unsafe { (at as *mut u8).write_volatile(PAINT) };
    }
}

#[inline(never)]
fn lowest_touched(bottom: usize, top: usize) -> usize {
    // SAFETY: these bytes lie inside the thread's stack, and were written.
    let touched = |at: &usize| unsafe { (*at as *const u8).read_volatile() } != PAINT;
    (bottom..top).find(touched).unwrap_or(top)
}
