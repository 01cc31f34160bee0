//! The same book and exchange, written for speed alone: who waits for whom is kept in a bit matrix with every write, a
//! message has four bytes and lies in a ring of a power of two, and a record has twelve bytes.

use crate::book::DEPTH_MAX;
use crate::exchange::Found;
use crate::fault::{BookFault, DetectionFault};
use crate::row::Row;
use crate::script::{Calls, Detects};
use crate::{JOBS, QUEUE, TRAIL};

/// Which jobs wait for one job: bit j of word w stands for job 64 w + j.
type Waiters = [u64; JOBS / 64];

/// Kind in the third byte, then waiter, then target.
type Message = u32;

const NOTIFY: Message = 0 << 16;
const DONE: Message = 1 << 16;
const GRANT: Message = 2 << 16;
const ACK: Message = 3 << 16;

/// Waiter and target in one number. No job waits for itself, so that 0 can stand for none.
type Wait = u16;

const NONE: Wait = 0;

#[derive(Clone, Copy)]
#[repr(C, align(4))]
struct Record {
    need: u8,
    granted: u8,
    dones_due: u8,
    acks_due: u8,
    notified: bool,
    free: bool,
    notified_by: Wait,
    freed_by: Wait,
}

impl Record {
    const NEW: Record = Record {
        need: 0,
        granted: 0,
        dones_due: 0,
        acks_due: 0,
        notified: false,
        free: false,
        notified_by: NONE,
        freed_by: NONE,
    };
}

/// Messages that wait: place `at & (QUEUE - 1)` for each `at` from `head` up to `tail`.
pub struct Ring {
    places: Box<[Message; QUEUE]>,
    head: usize,
    tail: usize,
}

impl Default for Ring {
    fn default() -> Ring {
        Ring {
            places: Box::new([0; QUEUE]),
            head: 0,
            tail: 0,
        }
    }
}

impl Ring {
    #[inline(always)]
    fn push(&mut self, message: Message) {
        self.places[self.tail & (QUEUE - 1)] = message;
        self.tail += 1;
    }

    #[inline(always)]
    fn pop(&mut self) -> Option<Message> {
        if self.head == self.tail {
            return None;
        }
        let message = self.places[self.head & (QUEUE - 1)];
        self.head += 1;
        Some(message)
    }
}

pub struct TunedBook {
    rows: Box<[Row; JOBS]>,
    waiters: Box<[Waiters; JOBS]>,
    /// The records as a detection finds them; the needs are kept with every write.
    fresh: Box<[Record; JOBS]>,
    trail: Vec<(u8, Row)>,
    starts: Vec<usize>,
}

impl Default for TunedBook {
    fn default() -> TunedBook {
        TunedBook {
            rows: Box::new([Row::IDLE; JOBS]),
            waiters: Box::new([[0; JOBS / 64]; JOBS]),
            fresh: Box::new([Record::NEW; JOBS]),
            trail: Vec::with_capacity(TRAIL),
            starts: Vec::with_capacity(DEPTH_MAX),
        }
    }
}

impl TunedBook {
    fn put(&mut self, job: u8, row: Row) {
        let (word, bit) = (usize::from(job >> 6), 1 << (job & 63));
        let place = &mut self.rows[usize::from(job)];
        for &target in place.targets() {
            self.waiters[usize::from(target)][word] &= !bit;
        }
        for &target in row.targets() {
            self.waiters[usize::from(target)][word] |= bit;
        }
        self.fresh[usize::from(job)].need = row.need();
        *place = row;
    }

    fn write(&mut self, job: u8, row: Row) -> Result<(), BookFault> {
        if !self.starts.is_empty() {
            if self.trail.len() == TRAIL {
                return Err(BookFault::TrailFull);
            }
            self.trail.push((job, self.rows[usize::from(job)]));
        }
        self.put(job, row);
        Ok(())
    }
}

impl Calls for TunedBook {
    fn request(&mut self, job: u8, need: u8, targets: &[u8]) -> Result<(), BookFault> {
        if !self.rows[usize::from(job)].is_active() {
            return Err(BookFault::Blocked);
        }
        let row = Row::request(JOBS, job, need, targets)?;
        self.write(job, row)
    }

    fn grant(&mut self, granter: u8, waiter: u8) -> Result<(), BookFault> {
        if !self.rows[usize::from(granter)].is_active() {
            return Err(BookFault::GranterBlocked);
        }
        let row = self.rows[usize::from(waiter)]
            .granted(granter)
            .ok_or(BookFault::NoSuchWait)?;
        self.write(waiter, row)
    }

    fn open(&mut self) -> Result<(), BookFault> {
        if self.starts.len() == DEPTH_MAX {
            return Err(BookFault::TooDeep);
        }
        self.starts.push(self.trail.len());
        Ok(())
    }

    fn keep(&mut self) {
        self.starts.pop();
        if self.starts.is_empty() {
            self.trail.clear();
        }
    }

    fn cancel(&mut self) {
        if let Some(start) = self.starts.pop() {
            for place in (start..self.trail.len()).rev() {
                let (job, row) = self.trail[place];
                self.put(job, row);
            }
            self.trail.truncate(start);
        }
    }
}

impl Detects<TunedBook> for Ring {
    /// The program has 256 jobs, and room for twice 4,096 messages: nothing can be refused.
    fn detect(&mut self, book: &TunedBook, job: u8) -> Result<Found, DetectionFault> {
        self.head = 0;
        self.tail = 0;
        let mut run = Run {
            rows: &book.rows,
            waiters: &book.waiters,
            records: *book.fresh,
            ring: self,
        };
        run.spread(job, NONE);
        while let Some(message) = run.ring.pop() {
            run.deliver(message);
        }
        Ok(Found {
            stuck: !run.records[usize::from(job)].free,
            deliveries: run.ring.head as u32,
        })
    }
}

struct Run<'r> {
    rows: &'r [Row; JOBS],
    waiters: &'r [Waiters; JOBS],
    records: [Record; JOBS],
    ring: &'r mut Ring,
}

impl Run<'_> {
    #[inline(always)]
    fn spread(&mut self, job: u8, notified_by: Wait) {
        let targets = self.rows[usize::from(job)].targets();
        let notice = NOTIFY | Message::from(job) << 8;
        for &target in targets {
            self.ring.push(notice | Message::from(target));
        }
        let record = &mut self.records[usize::from(job)];
        record.notified = true;
        record.notified_by = notified_by;
        record.dones_due = targets.len() as u8;
        if record.need == 0 {
            self.let_go(job);
        }
    }

    /// Frees the job; tells how many ACKs it is then owed.
    #[inline(always)]
    fn let_go(&mut self, job: u8) -> u8 {
        let before = self.ring.tail;
        let grant = GRANT | Message::from(job);
        for (word, bits) in (0..).zip(&self.waiters[usize::from(job)]) {
            let mut bits = *bits;
            while bits != 0 {
                let waiter = word * 64 + bits.trailing_zeros();
                self.ring.push(grant | waiter << 8);
                bits &= bits - 1;
            }
        }
        let record = &mut self.records[usize::from(job)];
        record.free = true;
        record.acks_due = (self.ring.tail - before) as u8;
        record.acks_due
    }

    #[inline(always)]
    fn close_notice(&mut self, by: Wait) {
        if by != NONE {
            self.ring.push(DONE | Message::from(by));
        }
    }

    #[inline(always)]
    fn deliver(&mut self, message: Message) {
        let wait = message as Wait;
        let (waiter, target) = ((wait >> 8) as u8, wait as u8);
        match message & 3 << 16 {
            NOTIFY => {
                if self.records[usize::from(target)].notified {
                    self.ring.push(DONE | Message::from(wait));
                } else {
                    self.spread(target, wait);
                }
            }
            DONE => {
                let record = &mut self.records[usize::from(waiter)];
                record.dones_due -= 1;
                if record.dones_due == 0 {
                    let by = record.notified_by;
                    self.close_notice(by);
                }
            }
            GRANT => {
                let record = &mut self.records[usize::from(waiter)];
                record.granted += 1;
                if !record.free && record.granted == record.need {
                    record.freed_by = wait;
                    if self.let_go(waiter) > 0 {
                        return;
                    }
                }
                self.ring.push(ACK | Message::from(wait));
            }
            _ => {
                let record = &mut self.records[usize::from(target)];
                record.acks_due -= 1;
                if record.acks_due == 0 {
                    if record.need == 0 {
                        let by = record.notified_by;
                        self.close_notice(by);
                    } else if record.freed_by != NONE {
                        let by = record.freed_by;
                        self.ring.push(ACK | Message::from(by));
                    }
                }
            }
        }
    }
}
