//! The library's C functions, as `include/lunetteorris.h` declares them. The only module with
//! `unsafe`: nothing checks these declarations against the library, the tests compare results.

use crate::Ends;

extern "C" {
    fn lo_syndrome(s: *const u8, s_len: usize, bits: usize) -> u64;
    fn lo_hash(s: *const u8, s_len: usize, bits: usize, h: u32, key: u32) -> u64;
    fn lo_repair(
        s: *const u8,
        s_len: usize,
        bits: usize,
        n: usize,
        a: usize,
        out: *mut u8,
        out_len: usize,
    ) -> u64;
    fn lo_list(n: usize, a: usize, out: *mut u32, out_len: usize) -> u64;
    fn lo_marker_build(
        message: *const u8,
        message_len: usize,
        bits: usize,
        n: usize,
        a: usize,
        out: *mut u8,
        out_len: usize,
    ) -> u64;
    fn lo_marker_read(
        received: *const u8,
        received_len: usize,
        bits: usize,
        n: usize,
        a: usize,
        out: *mut u8,
        out_len: usize,
    ) -> u64;
    fn lo_anchor(
        y: *const u8,
        y_len: usize,
        bits: usize,
        start: usize,
        q: usize,
        p: usize,
        s: usize,
        m: u32,
        k: u32,
        a: *const u8,
        a_len: usize,
    ) -> u64;
    fn lo_holder_fresh(state: *mut u8, state_len: usize) -> u64;
    fn lo_holder_answer(
        state: *mut u8,
        state_len: usize,
        x: *const u8,
        x_len: usize,
        bits: usize,
        msg: *const u8,
        msg_len: usize,
        reply: *mut u8,
        reply_len: usize,
    ) -> u64;
    fn lo_rebuilder_start(
        m: u32,
        h: u32,
        k: u32,
        key: u32,
        ceiling: u32,
        y: *const u8,
        y_len: usize,
        bits: usize,
        state: *mut u8,
        state_len: usize,
        question: *mut u8,
        question_len: usize,
    ) -> u64;
    fn lo_rebuilder_call(
        state: *mut u8,
        state_len: usize,
        y: *const u8,
        y_len: usize,
        bits: usize,
        string: *mut u8,
        string_len: usize,
        sheet: *mut u8,
        sheet_len: usize,
        msg: *const u8,
        msg_len: usize,
        question: *mut u8,
        question_len: usize,
    ) -> u64;
}

/// The proved library, linked from `libcabi.a`.
#[derive(Clone, Copy, Debug)]
pub struct Library;

// Every call below hands over slices as pointer and length. They are valid for the whole call,
// the mutable ones overlap nothing, and the library keeps no pointer after it returned; it has no
// condition on the numbers and bytes that it is given.
impl Ends for Library {
    fn syndrome(s: &[u8], bits: usize) -> u64 {
        unsafe { lo_syndrome(s.as_ptr(), s.len(), bits) }
    }

    fn hash(s: &[u8], bits: usize, h: u32, key: u32) -> u64 {
        unsafe { lo_hash(s.as_ptr(), s.len(), bits, h, key) }
    }

    fn repair(s: &[u8], bits: usize, n: usize, a: usize, out: &mut [u8]) -> u64 {
        unsafe { lo_repair(s.as_ptr(), s.len(), bits, n, a, out.as_mut_ptr(), out.len()) }
    }

    fn list(n: usize, a: usize, out: &mut [u32]) -> u64 {
        unsafe { lo_list(n, a, out.as_mut_ptr(), out.len()) }
    }

    fn marker_build(message: &[u8], bits: usize, n: usize, a: usize, out: &mut [u8]) -> u64 {
        unsafe {
            lo_marker_build(
                message.as_ptr(),
                message.len(),
                bits,
                n,
                a,
                out.as_mut_ptr(),
                out.len(),
            )
        }
    }

    fn marker_read(received: &[u8], bits: usize, n: usize, a: usize, out: &mut [u8]) -> u64 {
        unsafe {
            lo_marker_read(
                received.as_ptr(),
                received.len(),
                bits,
                n,
                a,
                out.as_mut_ptr(),
                out.len(),
            )
        }
    }

    fn anchor(
        y: &[u8],
        bits: usize,
        start: usize,
        q: usize,
        p: usize,
        s: usize,
        m: u32,
        k: u32,
        a: &[u8],
    ) -> u64 {
        unsafe {
            lo_anchor(
                y.as_ptr(),
                y.len(),
                bits,
                start,
                q,
                p,
                s,
                m,
                k,
                a.as_ptr(),
                a.len(),
            )
        }
    }

    fn holder_fresh(state: &mut [u8]) -> u64 {
        unsafe { lo_holder_fresh(state.as_mut_ptr(), state.len()) }
    }

    fn holder_answer(
        state: &mut [u8],
        x: &[u8],
        bits: usize,
        message: &[u8],
        reply: &mut [u8],
    ) -> u64 {
        unsafe {
            lo_holder_answer(
                state.as_mut_ptr(),
                state.len(),
                x.as_ptr(),
                x.len(),
                bits,
                message.as_ptr(),
                message.len(),
                reply.as_mut_ptr(),
                reply.len(),
            )
        }
    }

    fn rebuilder_start(
        m: u32,
        h: u32,
        k: u32,
        key: u32,
        ceiling: u32,
        y: &[u8],
        bits: usize,
        state: &mut [u8],
        question: &mut [u8],
    ) -> u64 {
        unsafe {
            lo_rebuilder_start(
                m,
                h,
                k,
                key,
                ceiling,
                y.as_ptr(),
                y.len(),
                bits,
                state.as_mut_ptr(),
                state.len(),
                question.as_mut_ptr(),
                question.len(),
            )
        }
    }

    fn rebuilder_call(
        state: &mut [u8],
        y: &[u8],
        bits: usize,
        string: &mut [u8],
        sheet: &mut [u8],
        message: &[u8],
        question: &mut [u8],
    ) -> u64 {
        unsafe {
            lo_rebuilder_call(
                state.as_mut_ptr(),
                state.len(),
                y.as_ptr(),
                y.len(),
                bits,
                string.as_mut_ptr(),
                string.len(),
                sheet.as_mut_ptr(),
                sheet.len(),
                message.as_ptr(),
                message.len(),
                question.as_mut_ptr(),
                question.len(),
            )
        }
    }
}
