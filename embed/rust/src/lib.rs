//! A WebAssembly engine with stack switching, and a compiler onto it for a small script language: `stackwasm` on bytes in memory.
//!
//! A slice is never null, two `&mut` never overlap, and buffers are made with zeros: so each call meets what `stackwasm.h` asks of a caller,
//! but for the stack, of which there has to be enough.

mod calls;
mod run;

pub use run::{Counts, Run, Stepped};

/// What is done with bytes.
#[derive(Clone, Copy, Debug, PartialEq, Eq)]
pub enum Action<'a> {
    /// Judges a module or a script.
    Check,
    /// Writes a module in its canonical spelling, or the module of a script.
    Build,
    /// Writes a module as text.
    Dump,
    /// Reads a module from its text, and writes it in its canonical spelling.
    Assemble,
    /// Runs a module or a script for so many reductions at most, up to 2^40. With `stats` a line of statistics of a
    /// module's run goes to err.
    Run { steps: u64, stats: bool },
    /// Runs a module for so many reductions at most, and writes what the run does with continuations.
    Trace { steps: u64 },
    /// Links modules whose bytes stand one behind the other, each of its length, and runs them, as `Run` does.
    Link { lengths: &'a [u64], steps: u64, stats: bool },
    /// Says whether `trace` is what `Trace` writes for so many reductions, each continuation used once.
    Audit { trace: &'a [u8], steps: u64 },
}

/// How a call ended.
#[derive(Clone, Copy, Debug, PartialEq, Eq)]
pub enum Status {
    /// What was asked for is on out.
    Done,
    /// The run trapped.
    Trap,
    /// The bytes are no module.
    Malformed,
    /// The module is not valid, or its run can't begin.
    Invalid,
    /// The bytes are no script, or one that breaks a rule.
    BadScript,
    /// Memory ran out. Nothing is written.
    OutOfMemory,
    /// A limit is passed.
    Limit,
    /// The steps are used up, and the run has not ended.
    Running,
    /// The bytes are no text of a module.
    BadText,
    /// The second bytes are no trace, or not that of the run.
    BadTrace,
    /// More than 2^40 steps are asked for. Nothing is written.
    TooManySteps,
    /// The lengths of files don't add up to that of their bytes. Nothing is written.
    WrongLengths,
}

impl Status {
    fn of(code: u32) -> Status {
        match code {
            0 => Status::Done,
            1 => Status::Trap,
            3 => Status::Malformed,
            4 => Status::Invalid,
            5 => Status::BadScript,
            8 => Status::OutOfMemory,
            9 => Status::Limit,
            10 => Status::Running,
            12 => Status::BadText,
            13 => Status::BadTrace,
            14 => Status::TooManySteps,
            17 => Status::WrongLengths,
            _ => unreachable!("the library has no status {code}"),
        }
    }
}

/// The answer to a call.
#[derive(Clone, Debug, PartialEq, Eq)]
pub struct Answer {
    pub status: Status,
    /// The first bytes of what was written to out: as many as were asked for.
    pub out: Vec<u8>,
    /// How many bytes were written to out.
    pub out_length: u64,
    /// The same of err.
    pub err: Vec<u8>,
    pub err_length: u64,
}

/// The answer to bytes, with at most so many bytes of out and of err.
pub fn front_of_answer(action: Action, bytes: &[u8], most: usize) -> Answer {
    let mut out = vec![0; most];
    let mut err = vec![0; most];
    let (code, out_length, err_length) = calls::call(action, bytes, &mut out, &mut err);
    out.truncate(usize::try_from(out_length).unwrap_or(most));
    err.truncate(usize::try_from(err_length).unwrap_or(most));
    Answer { status: Status::of(code), out, out_length, err, err_length }
}

/// The whole answer to bytes. Where it is longer than a first guess, the call is made once more: a run that prints much is run twice.
pub fn answer(action: Action, bytes: &[u8]) -> Answer {
    let first = front_of_answer(action, bytes, 1 << 16);
    let longest = first.out_length.max(first.err_length);
    if longest <= 1 << 16 {
        return first;
    }
    front_of_answer(action, bytes, usize::try_from(longest).expect("an answer that fits into memory"))
}
