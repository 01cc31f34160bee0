//! The reduction of a table, with a list of the jobs whose waiters have not been looked at.

use crate::row::Row;
use crate::waiters::{Index, Waiters, WaitersOf};

/// Whether each job is stuck.
pub fn reduce(rows: &[Row]) -> Vec<bool> {
    let waiters = Index::over(rows);
    let mut lacking: Vec<u8> = rows.iter().map(Row::need).collect();
    let mut work: Vec<u8> = (0..=u8::MAX)
        .zip(rows)
        .filter(|(_, row)| row.is_active())
        .map(|(job, _)| job)
        .collect();
    while let Some(job) = work.pop() {
        for waiter in waiters.of(job) {
            let lacks = &mut lacking[usize::from(waiter)];
            if *lacks > 0 {
                *lacks -= 1;
                if *lacks == 0 {
                    work.push(waiter);
                }
            }
        }
    }
    lacking.iter().map(|&lacks| lacks > 0).collect()
}
