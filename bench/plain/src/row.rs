//! What one job waits for.

use crate::fault::BookFault;

pub const TARGETS_MAX: usize = 16;

/// A need, and targets by rising number, which lie in place so that a row is copied without the heap.
#[derive(Clone, Copy)]
pub struct Row {
    need: u8,
    count: u8,
    targets: [u8; TARGETS_MAX],
}

impl Row {
    /// The row of an active job.
    pub const IDLE: Row = Row {
        need: 0,
        count: 0,
        targets: [0; TARGETS_MAX],
    };

    /// The row of a request by `job`, one of `jobs` jobs.
    pub fn request(jobs: usize, job: u8, need: u8, targets: &[u8]) -> Result<Row, BookFault> {
        if need == 0 || usize::from(need) > targets.len() || targets.len() > TARGETS_MAX {
            return Err(BookFault::WrongCounts);
        }
        let mut before = None;
        for (place, &target) in targets.iter().enumerate() {
            if usize::from(target) >= jobs || target == job || before.is_some_and(|b| target <= b) {
                return Err(BookFault::WrongTarget(place));
            }
            before = Some(target);
        }
        let mut row = Row {
            need,
            count: targets.len() as u8,
            ..Row::IDLE
        };
        row.targets[..targets.len()].copy_from_slice(targets);
        Ok(row)
    }

    /// The row of a job of a chart, whose bytes are right.
    pub fn from_bytes(&[need, count, ref targets @ ..]: &[u8; 2 + TARGETS_MAX]) -> Row {
        Row {
            need,
            count,
            targets: *targets,
        }
    }

    /// The row after a grant; none if it does not wait for the granter.
    pub fn granted(&self, granter: u8) -> Option<Row> {
        let place = self.targets().iter().position(|&t| t == granter)?;
        if self.need == 1 {
            return Some(Row::IDLE);
        }
        let mut row = *self;
        row.targets
            .copy_within(place + 1..usize::from(self.count), place);
        row.need -= 1;
        row.count -= 1;
        Some(row)
    }

    pub fn need(&self) -> u8 {
        self.need
    }

    pub fn is_active(&self) -> bool {
        self.need == 0
    }

    pub fn targets(&self) -> &[u8] {
        &self.targets[..usize::from(self.count)]
    }

    pub fn waits_for(&self, job: u8) -> bool {
        self.targets().contains(&job)
    }
}
