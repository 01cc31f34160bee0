//! Keeps who waits for whom with every write, and is written for speed alone.
use plain::tuned::{Ring, TunedBook};
use plain::{Trouble, run_program};

fn main() -> Result<(), Trouble> {
    run_program::<TunedBook, Ring>()
}
