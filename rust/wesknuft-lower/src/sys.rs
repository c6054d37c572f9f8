//! The call into the static library: its signature stands here alone (and in
//! include/wesknuft_lower.h for C).

use crate::room::Parts;

extern "C" {
    /// Answers 0 where the ticket is refused, as `number` and `line` say, 1
    /// where it is accepted with a listing of `length` bytes, and 2 where one
    /// of the six slices lent behind the buffer is too short. What does not
    /// apply is 0.
    ///
    /// The library reads `ticket_len` bytes at `ticket`, reads and writes the
    /// slices that are lent, whatever they hold, writes the three numbers,
    /// keeps no pointer and does not unwind. It follows no pointer to a slice
    /// of length 0.
    fn wesknuft_lower_in(
        ticket: *const u8,
        ticket_len: usize,
        buffer: *mut u8,
        buffer_len: usize,
        rows: *mut u64,
        rows_len: usize,
        lists: *mut u64,
        lists_len: usize,
        stack: *mut u64,
        stack_len: usize,
        narrowed: *mut u64,
        narrowed_len: usize,
        code: *mut u8,
        code_len: usize,
        store: *mut u8,
        store_len: usize,
        length: *mut usize,
        number: *mut u64,
        line: *mut u64,
    ) -> u64;
}

/// What the library answers.
#[derive(Debug, PartialEq, Eq)]
pub enum Answer {
    /// With the number and the line.
    Refused(u64, u64),
    /// With the listing's length.
    Accepted(usize),
    /// The parts lent are too short for the ticket.
    NoRoom,
}

pub fn lower_in(ticket: &[u8], buffer: &mut [u8], parts: Parts) -> Answer {
    let (mut length, mut number, mut line) = (0, 0, 0);
    // SAFETY: the first eight pointers come from slices of the lengths passed,
    // which stay lent for the call; a `&mut` slice overlaps no other. The other
    // three point to numbers of this function's own.
    let answer = unsafe {
        wesknuft_lower_in(
            ticket.as_ptr(),
            ticket.len(),
            buffer.as_mut_ptr(),
            buffer.len(),
            parts.rows.as_mut_ptr(),
            parts.rows.len(),
            parts.lists.as_mut_ptr(),
            parts.lists.len(),
            parts.stack.as_mut_ptr(),
            parts.stack.len(),
            parts.narrowed.as_mut_ptr(),
            parts.narrowed.len(),
            parts.code.as_mut_ptr(),
            parts.code.len(),
            parts.store.as_mut_ptr(),
            parts.store.len(),
            &mut length,
            &mut number,
            &mut line,
        )
    };
    match answer {
        0 => Answer::Refused(number, line),
        1 => Answer::Accepted(length),
        _ => Answer::NoRoom,
    }
}
