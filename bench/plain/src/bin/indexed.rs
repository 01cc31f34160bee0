//! Lists the waiters of every job at the start of a detection.
use plain::book::Book;
use plain::exchange::Detector;
use plain::waiters::Index;
use plain::{Trouble, run_program};

fn main() -> Result<(), Trouble> {
    run_program::<Book, Detector<Index>>()
}
