//! The book: rows under nested groups.

use crate::fault::BookFault;
use crate::row::Row;
use crate::script::Calls;
use crate::{JOBS, TRAIL};

pub const DEPTH_MAX: usize = 8;

struct Old {
    job: u8,
    row: Row,
}

/// The rows, what the open groups would undo, and where the part of each begins.
pub struct Book {
    rows: Vec<Row>,
    trail: Vec<Old>,
    trail_max: usize,
    starts: Vec<usize>,
}

impl Book {
    pub fn rows(&self) -> &[Row] {
        &self.rows
    }

    fn row(&self, job: u8) -> Result<&Row, BookFault> {
        self.rows.get(usize::from(job)).ok_or(BookFault::NoSuchJob)
    }

    fn write(&mut self, job: u8, row: Row) -> Result<(), BookFault> {
        let place = &mut self.rows[usize::from(job)];
        if !self.starts.is_empty() {
            if self.trail.len() == self.trail_max {
                return Err(BookFault::TrailFull);
            }
            self.trail.push(Old { job, row: *place });
        }
        *place = row;
        Ok(())
    }
}

impl Default for Book {
    fn default() -> Book {
        Book {
            rows: vec![Row::IDLE; JOBS],
            trail: Vec::with_capacity(TRAIL),
            trail_max: TRAIL,
            starts: Vec::with_capacity(DEPTH_MAX),
        }
    }
}

impl Calls for Book {
    fn request(&mut self, job: u8, need: u8, targets: &[u8]) -> Result<(), BookFault> {
        if !self.row(job)?.is_active() {
            return Err(BookFault::Blocked);
        }
        let row = Row::request(self.rows.len(), job, need, targets)?;
        self.write(job, row)
    }

    fn grant(&mut self, granter: u8, waiter: u8) -> Result<(), BookFault> {
        let granting = self.row(granter)?;
        let waiting = self.row(waiter)?;
        if !granting.is_active() {
            return Err(BookFault::GranterBlocked);
        }
        let row = waiting.granted(granter).ok_or(BookFault::NoSuchWait)?;
        self.write(waiter, row)
    }

    fn open(&mut self) -> Result<(), BookFault> {
        if self.starts.len() == DEPTH_MAX {
            return Err(BookFault::TooDeep);
        }
        self.starts.push(self.trail.len());
        Ok(())
    }

    fn keep(&mut self) {
        self.starts.pop();
        if self.starts.is_empty() {
            self.trail.clear();
        }
    }

    fn cancel(&mut self) {
        if let Some(start) = self.starts.pop() {
            for Old { job, row } in self.trail.drain(start..).rev() {
                self.rows[usize::from(job)] = row;
            }
        }
    }
}
