//! The detection: the jobs tell each other by messages whether one of them is stuck.

use std::collections::VecDeque;
use std::marker::PhantomData;

use crate::book::Book;
use crate::fault::DetectionFault;
use crate::row::Row;
use crate::script::Detects;
use crate::waiters::{Waiters, WaitersOf};
use crate::{JOBS, QUEUE};

#[derive(Clone, Copy)]
struct Wait {
    waiter: u8,
    target: u8,
}

#[derive(Clone, Copy)]
enum Kind {
    Notify,
    Done,
    Grant,
    Ack,
}

#[derive(Clone, Copy)]
struct Message {
    kind: Kind,
    wait: Wait,
}

/// What a job keeps during a run.
#[derive(Clone, Copy, Default)]
struct Record {
    notified: bool,
    free: bool,
    granted: u16,
    dones_due: u16,
    acks_due: u16,
    notified_by: Option<Wait>,
    freed_by: Option<Wait>,
}

/// The records and the queue, which runs use again.
/// They find the waiters of a job in the way `W`.
pub struct Detector<W> {
    records: Vec<Record>,
    queue: VecDeque<Message>,
    capacity: usize,
    way: PhantomData<W>,
}

/// What a detection tells.
pub struct Found {
    pub stuck: bool,
    pub deliveries: u32,
}

impl<W> Default for Detector<W> {
    fn default() -> Detector<W> {
        Detector {
            records: vec![Record::default(); JOBS],
            queue: VecDeque::with_capacity(QUEUE),
            capacity: QUEUE,
            way: PhantomData,
        }
    }
}

impl<W: Waiters> Detects<Book> for Detector<W> {
    fn detect(&mut self, book: &Book, initiator: u8) -> Result<Found, DetectionFault> {
        let rows = book.rows();
        if usize::from(initiator) >= rows.len() {
            return Err(DetectionFault::NoSuchJob);
        }
        if self.records.len() < rows.len() {
            return Err(DetectionFault::TooFewRecords);
        }
        if !self.queue.is_empty() {
            return Err(DetectionFault::MessagesWait);
        }
        let waits: usize = rows.iter().map(|row| row.targets().len()).sum();
        if self.capacity < 2 * waits {
            return Err(DetectionFault::CarrierTooSmall);
        }
        self.records[..rows.len()].fill(Record::default());
        let mut run = Run {
            rows,
            waiters: W::over(rows),
            records: &mut self.records,
            queue: &mut self.queue,
        };
        run.spread(initiator);
        let mut deliveries = 0;
        while let Some(message) = run.queue.pop_front() {
            deliveries += 1;
            run.deliver(message);
        }
        Ok(Found {
            stuck: !self.records[usize::from(initiator)].free,
            deliveries,
        })
    }
}

struct Run<'r, W> {
    rows: &'r [Row],
    waiters: W,
    records: &'r mut [Record],
    queue: &'r mut VecDeque<Message>,
}

impl<W: WaitersOf> Run<'_, W> {
    fn send(&mut self, kind: Kind, wait: Wait) {
        self.queue.push_back(Message { kind, wait });
    }

    fn record(&mut self, job: u8) -> &mut Record {
        &mut self.records[usize::from(job)]
    }

    fn need(&self, job: u8) -> u8 {
        self.rows[usize::from(job)].need()
    }

    fn spread(&mut self, job: u8) {
        let row = &self.rows[usize::from(job)];
        self.queue
            .extend(row.targets().iter().map(|&target| Message {
                kind: Kind::Notify,
                wait: Wait {
                    waiter: job,
                    target,
                },
            }));
        let record = self.record(job);
        record.notified = true;
        record.dones_due = row.targets().len() as u16;
        if row.is_active() {
            self.let_go(job);
        }
    }

    /// Frees the job; tells how many ACKs it is then owed.
    fn let_go(&mut self, job: u8) -> u16 {
        let before = self.queue.len();
        self.queue
            .extend(self.waiters.of(job).map(|waiter| Message {
                kind: Kind::Grant,
                wait: Wait {
                    waiter,
                    target: job,
                },
            }));
        let due = (self.queue.len() - before) as u16;
        let record = self.record(job);
        record.free = true;
        record.acks_due = due;
        due
    }

    fn close_notice(&mut self, job: u8) {
        if let Some(wait) = self.record(job).notified_by {
            self.send(Kind::Done, wait);
        }
    }

    fn deliver(&mut self, Message { kind, wait }: Message) {
        let Wait { waiter, target } = wait;
        match kind {
            Kind::Notify => {
                let record = self.record(target);
                if record.notified {
                    self.send(Kind::Done, wait);
                } else {
                    record.notified_by = Some(wait);
                    self.spread(target);
                }
            }
            Kind::Done => {
                let record = self.record(waiter);
                record.dones_due -= 1;
                if record.dones_due == 0 {
                    self.close_notice(waiter);
                }
            }
            Kind::Grant => {
                let need = u16::from(self.need(waiter));
                let record = self.record(waiter);
                record.granted += 1;
                if !record.free && record.granted == need {
                    record.freed_by = Some(wait);
                    if self.let_go(waiter) > 0 {
                        return;
                    }
                }
                self.send(Kind::Ack, wait);
            }
            Kind::Ack => {
                let record = self.record(target);
                record.acks_due -= 1;
                if record.acks_due == 0 {
                    if self.need(target) == 0 {
                        self.close_notice(target);
                    } else if let Some(freed_by) = self.record(target).freed_by {
                        self.send(Kind::Ack, freed_by);
                    }
                }
            }
        }
    }
}
