//! Runs that go on where they stopped.
use crate::Status;
use crate::calls::Handle;

const ROOM: usize = 1 << 12;

/// A run of a module. It is let go with the value, and stays on its thread.
pub struct Run {
    handle: Handle,
}

/// How a run stands, and the command's line for it on err.
#[derive(Clone, Debug, PartialEq, Eq)]
pub struct Stepped {
    pub status: Status,
    pub err: Vec<u8>,
}

/// How many reductions a run has taken, and how many continuations it made, consumed, and has left.
#[derive(Clone, Copy, Debug, PartialEq, Eq)]
pub struct Counts {
    pub taken: u64,
    pub made: u64,
    pub consumed: u64,
    pub live: u64,
}

// All of a text that a call writes again for as much room as it needs.
fn whole(mut call: impl FnMut(&mut [u8]) -> (u32, u64)) -> (u32, Vec<u8>) {
    let mut text = vec![0; ROOM];
    let (mut code, mut length) = call(&mut text);
    if length > text.len() as u64 {
        text = vec![0; usize::try_from(length).expect("a text that fits into memory")];
        (code, length) = call(&mut text);
    }
    text.truncate(usize::try_from(length).expect("a text that fits"));
    (code, text)
}

impl Run {
    /// The run of a module, with no reduction taken, or why it has none.
    pub fn begin(bytes: &[u8]) -> Result<Run, Stepped> {
        let mut handle = Handle::empty();
        match whole(|err| handle.begin(bytes, err)) {
            (0, _) => Ok(Run { handle }),
            (code, err) => Err(Stepped { status: Status::of(code), err }),
        }
    }

    /// Takes so many reductions at most. `Status::Running`: it goes on. `Status::TooManySteps`: it would have taken more than 2^40 in all, and
    /// takes none.
    pub fn step(&mut self, steps: u64) -> Stepped {
        let mut err = vec![0; ROOM];
        let (code, length) = self.handle.step(steps, &mut err);
        err.truncate(usize::try_from(length).expect("a line that fits"));
        Stepped { status: Status::of(code), err }
    }

    /// What was printed since it was read last.
    pub fn read(&mut self) -> Vec<u8> {
        let mut text = Vec::new();
        loop {
            let read = text.len();
            text.resize(read + ROOM, 0);
            let count = usize::try_from(self.handle.read(&mut text[read..])).expect("a part that fits");
            text.truncate(read + count);
            if count < ROOM {
                return text;
            }
        }
    }

    /// The results of a run that has ended, a line each; before, none. `None`: memory ran out.
    pub fn results(&mut self) -> Option<Vec<u8>> {
        match whole(|out| self.handle.results(out)) {
            (0, lines) => Some(lines),
            _ => None,
        }
    }

    pub fn counts(&mut self) -> Counts {
        self.handle.counts()
    }
}
