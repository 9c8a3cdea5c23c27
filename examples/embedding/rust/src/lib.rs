//! Safe calls of `libaamediate`.
//!
//! They may be made from several threads at once, but not in a signal handler, nor between `fork` and `exec` in the child of a process with
//! threads. A thread needs 1.75 MiB of stack for them; those of std have 2 MiB.

use std::fmt;

/// Why there is no answer.
#[derive(Clone, Copy, Debug, PartialEq, Eq)]
pub enum Cause {
    /// The job or a policy is at fault.
    Refused,
    /// The question isn't understood.
    NoQuestion,
    /// Memory ran out, or a text of a question has over 1,048,576 bytes.
    Failed,
}

/// Why there is no answer, with what the command says on standard error.
#[derive(Clone, Debug, PartialEq, Eq)]
pub struct Fault {
    pub cause: Cause,
    pub line: String,
}

impl fmt::Display for Fault {
    fn fmt(&self, f: &mut fmt::Formatter<'_>) -> fmt::Result {
        f.write_str(&self.line)
    }
}

impl std::error::Error for Fault {}

/// What `aapolicy` prints.
#[derive(Clone, Debug, PartialEq, Eq)]
pub struct Answer {
    /// What it prints on standard output.
    pub text: Vec<u8>,
    /// How it ends: 0, 4 where a request is denied or policies differ, 1 or 3 where a file is refused.
    pub status: u32,
    /// What it warns of.
    pub said: String,
}

#[repr(C)]
#[derive(Default)]
struct Sizes {
    text: usize,
    fault: usize,
}

type Call =
    unsafe extern "C" fn(*const u8, usize, *mut u8, usize, *mut u8, usize, *mut Sizes) -> u32;

/// Declares calls: all have the same parameters.
macro_rules! calls {
    ($($name:ident),*) => {
        extern "C" {
            $(fn $name(
                given: *const u8,
                given_size: usize,
                text: *mut u8,
                text_size: usize,
                fault: *mut u8,
                fault_size: usize,
                sizes: *mut Sizes,
            ) -> u32;)*
        }
    };
}

calls!(
    aamediate_check,
    aamediate_run,
    aamediate_replay,
    aapolicy_check,
    aapolicy_ask,
    aapolicy_diff
);

const REFUSED: u32 = 1;
const NO_QUESTION: u32 = 2;

/// What is tried first, in bytes, and for each byte that is given: mostly enough. Where it is too little, all is done again.
const ROOM: usize = 4096;
const ROOM_A_BYTE: usize = 8;

fn answer(call: Call, given: &[u8]) -> Result<Answer, Fault> {
    let mut text = vec![0; ROOM + ROOM_A_BYTE * given.len()];
    let mut said = vec![0; ROOM];
    let mut sizes = Sizes::default();
    loop {
        // SAFETY: the pointers and sizes are those of slices, which are never null; the three that are written are borrowed by
        // nobody else, and so overlap nothing; and a thread of std has more stack than a call takes.
        let status = unsafe {
            call(
                given.as_ptr(),
                given.len(),
                text.as_mut_ptr(),
                text.len(),
                said.as_mut_ptr(),
                said.len(),
                &mut sizes,
            )
        };
        if sizes.text <= text.len() && sizes.fault <= said.len() {
            text.truncate(sizes.text);
            let said = String::from_utf8_lossy(&said[..sizes.fault]).into_owned();
            return found(status, text, said);
        }
        text.resize(sizes.text.max(text.len()), 0);
        said.resize(sizes.fault.max(said.len()), 0);
    }
}

/// The answer, or the fault: what isn't answered has no text.
fn found(status: u32, text: Vec<u8>, said: String) -> Result<Answer, Fault> {
    if status == 0 || !text.is_empty() {
        return Ok(Answer { text, status, said });
    }
    let cause = match status {
        REFUSED => Cause::Refused,
        NO_QUESTION => Cause::NoQuestion,
        _ => Cause::Failed,
    };
    Err(Fault { cause, line: said })
}

/// What `aamediate check` writes for the bytes of a job.
pub fn check(job: &[u8]) -> Result<Vec<u8>, Fault> {
    Ok(answer(aamediate_check, job)?.text)
}

/// What `aamediate run` writes for the bytes of a job.
pub fn run(job: &[u8]) -> Result<Vec<u8>, Fault> {
    Ok(answer(aamediate_run, job)?.text)
}

/// What `aamediate replay` writes for the bytes of a job.
pub fn replay(job: &[u8]) -> Result<Vec<u8>, Fault> {
    Ok(answer(aamediate_replay, job)?.text)
}

/// What `aapolicy check --json` prints of the files of a question.
pub fn policy_check(question: &[u8]) -> Result<Answer, Fault> {
    answer(aapolicy_check, question)
}

/// What `aapolicy ask --json` prints to the words of a question.
pub fn policy_ask(question: &[u8]) -> Result<Answer, Fault> {
    answer(aapolicy_ask, question)
}

/// What `aapolicy diff --json` prints of the two sides of a question.
pub fn policy_diff(question: &[u8]) -> Result<Answer, Fault> {
    answer(aapolicy_diff, question)
}
