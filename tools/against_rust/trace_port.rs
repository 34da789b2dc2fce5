//! The port's run of a trace, from its archive, as `include/trace_run.h` declares it.

use crate::trace::Outcome;

unsafe extern "C" {
    fn trace_run(trace: *const u8, trace_length: usize, second_reading: bool, codes: *mut u8, codes_length: usize) -> Outcome;
}

/// Lends the bytes of `around` from `from` on, `room` of them, as the buffer. What is written beside them can be seen in `around`.
pub fn run(trace: &[u8], second: bool, around: &mut [u8], from: usize, room: usize) -> Outcome {
    assert!(from + room <= around.len());
    unsafe { trace_run(trace.as_ptr(), trace.len(), second, around.as_mut_ptr().add(from), room) }
}
