//! The port's conversions of text logs, from its archive, as `include/text_log.h` declares them.

use crate::text_log::{Outcome, Way};

unsafe extern "C" {
    fn text_log_to_trace(text: *const u8, text_length: usize, trace: *mut u8, trace_length: usize) -> Outcome;
    fn text_log_to_text(trace: *const u8, trace_length: usize, text: *mut u8, text_length: usize) -> Outcome;
}

/// Lends the input, and the bytes of `around` from `from` on, `room` of them, for the output. What is written beside them can be seen in `around`.
pub fn convert(way: Way, input: &[u8], around: &mut [u8], from: usize, room: usize) -> Outcome {
    assert!(from + room <= around.len());
    let function = match way {
        Way::ToTrace => text_log_to_trace,
        Way::ToText => text_log_to_text,
    };
    unsafe { function(input.as_ptr(), input.len(), around.as_mut_ptr().add(from), room) }
}
