//! Scripts: commands as bytes.

use crate::exchange::Found;
use crate::fault::{BookFault, DetectionFault, ScriptFault, Stopped};

pub const SCRIPT_MAX: usize = 8_192;
const DETECTION_BYTES: usize = 4;

/// The calls that a script makes of a book.
pub trait Calls {
    fn request(&mut self, job: u8, need: u8, targets: &[u8]) -> Result<(), BookFault>;
    fn grant(&mut self, granter: u8, waiter: u8) -> Result<(), BookFault>;
    fn open(&mut self) -> Result<(), BookFault>;
    /// Keeps the innermost group, if one is open.
    fn keep(&mut self);
    /// Cancels the innermost group, if one is open.
    fn cancel(&mut self);
}

/// What tells whether a job of a book is stuck.
pub trait Detects<B> {
    fn detect(&mut self, book: &B, job: u8) -> Result<Found, DetectionFault>;
}

enum Command<'s> {
    Request {
        job: u8,
        need: u8,
        targets: &'s [u8],
    },
    Grant {
        granter: u8,
        waiter: u8,
    },
    Open,
    Keep,
    Cancel,
    Detect {
        job: u8,
    },
}

/// The first command of some bytes, and the bytes behind it.
fn read(script: &[u8]) -> Result<(Command<'_>, &[u8]), ScriptFault> {
    match *script {
        [b'R', job, need, count, ref rest @ ..] => {
            let (targets, rest) = rest
                .split_at_checked(usize::from(count))
                .ok_or(ScriptFault::CutOff)?;
            Ok((Command::Request { job, need, targets }, rest))
        }
        [b'G', granter, waiter, ref rest @ ..] => Ok((Command::Grant { granter, waiter }, rest)),
        [b'O', ref rest @ ..] => Ok((Command::Open, rest)),
        [b'K', ref rest @ ..] => Ok((Command::Keep, rest)),
        [b'C', ref rest @ ..] => Ok((Command::Cancel, rest)),
        [b'D', job, ref rest @ ..] => Ok((Command::Detect { job }, rest)),
        [b'R' | b'G' | b'D', ..] | [] => Err(ScriptFault::CutOff),
        [..] => Err(ScriptFault::UnknownLetter),
    }
}

struct Runner<'r, B, D> {
    book: &'r mut B,
    detector: &'r mut D,
    answers: &'r mut Vec<u8>,
    answers_max: usize,
    open: usize,
}

impl<B: Calls, D: Detects<B>> Runner<'_, B, D> {
    /// Carries out the first command, and gives back the bytes behind it.
    fn step<'s>(&mut self, script: &'s [u8]) -> Result<&'s [u8], ScriptFault> {
        let (command, rest) = read(script)?;
        match command {
            Command::Request { job, need, targets } => self.book.request(job, need, targets)?,
            Command::Grant { granter, waiter } => self.book.grant(granter, waiter)?,
            Command::Open => {
                self.book.open()?;
                self.open += 1;
            }
            Command::Keep => {
                self.close()?;
                self.book.keep();
            }
            Command::Cancel => {
                self.close()?;
                self.book.cancel();
            }
            Command::Detect { job } => self.detect(job)?,
        }
        Ok(rest)
    }

    fn close(&mut self) -> Result<(), ScriptFault> {
        self.open = self.open.checked_sub(1).ok_or(ScriptFault::NoScriptGroup)?;
        Ok(())
    }

    fn detect(&mut self, job: u8) -> Result<(), ScriptFault> {
        if self.answers_max - self.answers.len() < DETECTION_BYTES {
            return Err(ScriptFault::NoAnswerSpace);
        }
        let Found { stuck, deliveries } = self.detector.detect(self.book, job)?;
        let [high, low] = (deliveries as u16).to_be_bytes();
        self.answers
            .extend_from_slice(&[job, u8::from(stuck), high, low]);
        Ok(())
    }
}

/// Runs a script on a book; the groups that it leaves open are cancelled.
pub fn run<B: Calls, D: Detects<B>>(
    script: &[u8],
    book: &mut B,
    detector: &mut D,
    answers: &mut Vec<u8>,
    answers_max: usize,
) -> Result<(), Stopped> {
    if script.len() > SCRIPT_MAX {
        return Err(Stopped {
            fault: ScriptFault::TooLong,
            offset: 0,
            index: 0,
        });
    }
    let mut runner = Runner {
        book,
        detector,
        answers,
        answers_max,
        open: 0,
    };
    let mut rest = script;
    let mut index = 0;
    let outcome = loop {
        if rest.is_empty() {
            break Ok(());
        }
        match runner.step(rest) {
            Ok(behind) => {
                rest = behind;
                index += 1;
            }
            Err(fault) => {
                break Err(Stopped {
                    fault,
                    offset: script.len() - rest.len(),
                    index,
                });
            }
        }
    };
    for _ in 0..runner.open {
        runner.book.cancel();
    }
    outcome
}
