//! The program `waits` in plain Rust: a book of waits, groups with undo, the exchange that tells
//! stuck from free, and scripts. `docs/RULES.md` has the rules.

pub mod book;
pub mod exchange;
pub mod fault;
pub mod reduction;
pub mod row;
pub mod script;
pub mod tuned;
pub mod waiters;

use std::fmt;
use std::io::{self, Read, Write};

use fault::Stopped;
use script::{Calls, Detects};

const JOBS: usize = 256;
const TRAIL: usize = 1_024;
const QUEUE: usize = 8_192;
const ANSWERS: usize = 16_384;

/// What can end the program early.
pub enum Trouble {
    Input(io::Error),
    Output(io::Error),
    Stopped(Stopped),
}

impl fmt::Display for Trouble {
    fn fmt(&self, f: &mut fmt::Formatter<'_>) -> fmt::Result {
        match self {
            Trouble::Input(error) => write!(f, "the script can't be read: {error}"),
            Trouble::Output(error) => write!(f, "the answers can't be written: {error}"),
            Trouble::Stopped(stopped) => write!(f, "{stopped}"),
        }
    }
}

// `main` prints its error by this form.
impl fmt::Debug for Trouble {
    fn fmt(&self, f: &mut fmt::Formatter<'_>) -> fmt::Result {
        write!(f, "{self}")
    }
}

/// Runs the script on standard input, on a new `B` and `D`.
pub fn run_program<B: Calls + Default, D: Detects<B> + Default>() -> Result<(), Trouble> {
    // one byte more than a script can have, so that one that is too long is seen to be so
    let mut script = Vec::with_capacity(script::SCRIPT_MAX + 1);
    io::stdin()
        .take(script::SCRIPT_MAX as u64 + 1)
        .read_to_end(&mut script)
        .map_err(Trouble::Input)?;
    let mut answers = Vec::new();
    let (mut book, mut detector) = (B::default(), D::default());
    let outcome = script::run(&script, &mut book, &mut detector, &mut answers, ANSWERS);
    io::stdout().write_all(&answers).map_err(Trouble::Output)?;
    outcome.map_err(Trouble::Stopped)
}
