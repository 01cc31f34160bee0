//! Two ways to find the jobs that wait for a job.

use crate::row::Row;

/// The waiters of each job of a table, by rising number.
pub trait Waiters {
    type Over<'t>: WaitersOf;

    fn over(rows: &[Row]) -> Self::Over<'_>;
}

pub trait WaitersOf {
    fn of(&self, job: u8) -> impl Iterator<Item = u8>;
}

/// One pass over the rows for each job that is asked about.
pub struct Pass;

impl Waiters for Pass {
    type Over<'t> = &'t [Row];

    fn over(rows: &[Row]) -> &[Row] {
        rows
    }
}

impl WaitersOf for &[Row] {
    fn of(&self, job: u8) -> impl Iterator<Item = u8> {
        (0..=u8::MAX)
            .zip(self.iter())
            .filter(move |(_, row)| row.waits_for(job))
            .map(|(waiter, _)| waiter)
    }
}

/// All waiters listed at once, job after job: those of job `j` lie from `starts[j]` up to `starts[j + 1]`.
pub struct Index {
    starts: Vec<usize>,
    waiters: Vec<u8>,
}

impl Waiters for Index {
    type Over<'t> = Index;

    fn over(rows: &[Row]) -> Index {
        let mut starts = vec![0; rows.len() + 1];
        for &target in rows.iter().flat_map(Row::targets) {
            starts[usize::from(target) + 1] += 1;
        }
        for job in 0..rows.len() {
            starts[job + 1] += starts[job];
        }
        let mut next = starts.clone();
        let mut waiters = vec![0; starts[rows.len()]];
        for (waiter, row) in (0..=u8::MAX).zip(rows) {
            for &target in row.targets() {
                let place = &mut next[usize::from(target)];
                waiters[*place] = waiter;
                *place += 1;
            }
        }
        Index { starts, waiters }
    }
}

impl WaitersOf for Index {
    fn of(&self, job: u8) -> impl Iterator<Item = u8> {
        let job = usize::from(job);
        self.waiters[self.starts[job]..self.starts[job + 1]]
            .iter()
            .copied()
    }
}
