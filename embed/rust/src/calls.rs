//! The calls themselves, as `stackwasm.h` declares them.
use crate::{Action, Counts};
use std::ptr;

type Simple = unsafe extern "C" fn(*const u8, usize, *mut u8, usize, *mut u64, *mut u8, usize, *mut u64) -> u32;

unsafe extern "C" {
    fn stackwasm_check(bytes: *const u8, length: usize, out: *mut u8, out_room: usize, out_length: *mut u64, err: *mut u8, err_room: usize, err_length: *mut u64) -> u32;
    fn stackwasm_build(bytes: *const u8, length: usize, out: *mut u8, out_room: usize, out_length: *mut u64, err: *mut u8, err_room: usize, err_length: *mut u64) -> u32;
    fn stackwasm_dump(bytes: *const u8, length: usize, out: *mut u8, out_room: usize, out_length: *mut u64, err: *mut u8, err_room: usize, err_length: *mut u64) -> u32;
    fn stackwasm_asm(bytes: *const u8, length: usize, out: *mut u8, out_room: usize, out_length: *mut u64, err: *mut u8, err_room: usize, err_length: *mut u64) -> u32;
    fn stackwasm_run(bytes: *const u8, length: usize, steps: u64, stats: bool, out: *mut u8, out_room: usize, out_length: *mut u64, err: *mut u8, err_room: usize, err_length: *mut u64) -> u32;
    fn stackwasm_audit(bytes: *const u8, length: usize, trace: *const u8, trace_length: usize, steps: u64, out: *mut u8, out_room: usize, out_length: *mut u64, err: *mut u8, err_room: usize, err_length: *mut u64) -> u32;
    fn stackwasm_link(bytes: *const u8, length: usize, lengths: *const u64, count: usize, steps: u64, stats: bool, out: *mut u8, out_room: usize, out_length: *mut u64, err: *mut u8, err_room: usize, err_length: *mut u64) -> u32;
    fn stackwasm_trace(bytes: *const u8, length: usize, steps: u64, out: *mut u8, out_room: usize, out_length: *mut u64, err: *mut u8, err_room: usize, err_length: *mut u64) -> u32;
    fn stackwasm_begin(bytes: *const u8, length: usize, run: *mut Handle, err: *mut u8, err_room: usize, err_length: *mut u64) -> u32;
    fn stackwasm_step(run: *mut Handle, steps: u64, err: *mut u8, err_room: usize, err_length: *mut u64) -> u32;
    fn stackwasm_read(run: *mut Handle, out: *mut u8, out_room: usize, count: *mut u64) -> u32;
    fn stackwasm_results(run: *mut Handle, out: *mut u8, out_room: usize, out_length: *mut u64) -> u32;
    fn stackwasm_counts(run: *mut Handle, taken: *mut u64, made: *mut u64, consumed: *mut u64, live: *mut u64) -> u32;
    fn stackwasm_end(run: *mut Handle) -> u32;
}

/// The status, and the lengths of what was written to out and to err.
pub(crate) fn call(action: Action, bytes: &[u8], out: &mut [u8], err: &mut [u8]) -> (u32, u64, u64) {
    let (mut out_length, mut err_length) = (0, 0);
    let (at, length) = (bytes.as_ptr(), bytes.len());
    let (out_at, out_room, err_at, err_room) = (out.as_mut_ptr(), out.len(), err.as_mut_ptr(), err.len());
    let mut simple = |function: Simple| unsafe { function(at, length, out_at, out_room, &mut out_length, err_at, err_room, &mut err_length) };
    let code = match action {
        Action::Check => simple(stackwasm_check),
        Action::Build => simple(stackwasm_build),
        Action::Dump => simple(stackwasm_dump),
        Action::Assemble => simple(stackwasm_asm),
        Action::Run { steps, stats } => unsafe { stackwasm_run(at, length, steps, stats, out_at, out_room, &mut out_length, err_at, err_room, &mut err_length) },
        Action::Audit { trace, steps } => unsafe { stackwasm_audit(at, length, trace.as_ptr(), trace.len(), steps, out_at, out_room, &mut out_length, err_at, err_room, &mut err_length) },
        Action::Link { lengths, steps, stats } => unsafe { stackwasm_link(at, length, lengths.as_ptr(), lengths.len(), steps, stats, out_at, out_room, &mut out_length, err_at, err_room, &mut err_length) },
        Action::Trace { steps } => unsafe { stackwasm_trace(at, length, steps, out_at, out_room, &mut out_length, err_at, err_room, &mut err_length) },
    };
    (code, out_length, err_length)
}

/// A run, or none. Its pointer keeps it on its thread.
#[repr(C)]
pub(crate) struct Handle {
    at: *mut u8,
    held: bool,
}

impl Handle {
    pub(crate) fn empty() -> Handle {
        Handle { at: ptr::null_mut(), held: false }
    }

    pub(crate) fn begin(&mut self, bytes: &[u8], err: &mut [u8]) -> (u32, u64) {
        let mut length = 0;
        let code = unsafe { stackwasm_begin(bytes.as_ptr(), bytes.len(), self, err.as_mut_ptr(), err.len(), &mut length) };
        (code, length)
    }

    pub(crate) fn step(&mut self, steps: u64, err: &mut [u8]) -> (u32, u64) {
        let mut length = 0;
        let code = unsafe { stackwasm_step(self, steps, err.as_mut_ptr(), err.len(), &mut length) };
        (code, length)
    }

    pub(crate) fn read(&mut self, out: &mut [u8]) -> u64 {
        let mut count = 0;
        unsafe { stackwasm_read(self, out.as_mut_ptr(), out.len(), &mut count) };
        count
    }

    pub(crate) fn results(&mut self, out: &mut [u8]) -> (u32, u64) {
        let mut length = 0;
        let code = unsafe { stackwasm_results(self, out.as_mut_ptr(), out.len(), &mut length) };
        (code, length)
    }

    pub(crate) fn counts(&mut self) -> Counts {
        let mut counts = Counts { taken: 0, made: 0, consumed: 0, live: 0 };
        unsafe { stackwasm_counts(self, &mut counts.taken, &mut counts.made, &mut counts.consumed, &mut counts.live) };
        counts
    }
}

impl Drop for Handle {
    fn drop(&mut self) {
        unsafe { stackwasm_end(self) };
    }
}
