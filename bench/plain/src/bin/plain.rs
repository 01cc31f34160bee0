//! Finds the waiters of a job in one pass over the rows.
use plain::book::Book;
use plain::exchange::Detector;
use plain::waiters::Pass;
use plain::{Trouble, run_program};

fn main() -> Result<(), Trouble> {
    run_program::<Book, Detector<Pass>>()
}
