//! Refusals, and how they are told.

use std::fmt;

#[derive(Clone, Copy)]
pub enum BookFault {
    NoSuchJob,
    Blocked,
    WrongCounts,
    WrongTarget(usize),
    TrailFull,
    GranterBlocked,
    NoSuchWait,
    TooDeep,
}

#[derive(Clone, Copy)]
pub enum DetectionFault {
    NoSuchJob,
    TooFewRecords,
    MessagesWait,
    CarrierTooSmall,
}

#[derive(Clone, Copy)]
pub enum ScriptFault {
    TooLong,
    UnknownLetter,
    CutOff,
    NoScriptGroup,
    NoAnswerSpace,
    Book(BookFault),
    Detection(DetectionFault),
}

impl From<BookFault> for ScriptFault {
    fn from(fault: BookFault) -> ScriptFault {
        ScriptFault::Book(fault)
    }
}

impl From<DetectionFault> for ScriptFault {
    fn from(fault: DetectionFault) -> ScriptFault {
        ScriptFault::Detection(fault)
    }
}

impl ScriptFault {
    fn number_and_meaning(self) -> (u8, &'static str) {
        use {BookFault as B, DetectionFault as D, ScriptFault as S};
        match self {
            S::Book(B::NoSuchJob) | S::Detection(D::NoSuchJob) => (1, "there is no such job"),
            S::Book(B::Blocked) => (2, "the job is blocked"),
            S::Book(B::WrongCounts) => (3, "the need or the number of targets is wrong"),
            S::Book(B::WrongTarget(_)) => (4, "a target is wrong"),
            S::Book(B::TrailFull) => (5, "the trail is full"),
            S::Book(B::GranterBlocked) => (6, "the granter is blocked"),
            S::Book(B::NoSuchWait) => (7, "the waiter does not wait for the granter"),
            S::Book(B::TooDeep) => (8, "too many groups are open"),
            S::Detection(D::TooFewRecords) => (10, "there are fewer records than jobs"),
            S::Detection(D::MessagesWait) => (11, "messages wait in the carrier"),
            S::Detection(D::CarrierTooSmall) => (12, "the carrier is too small"),
            S::TooLong => (13, "the script is too long"),
            S::UnknownLetter => (14, "no command has this letter"),
            S::CutOff => (15, "the script ends inside a command"),
            S::NoScriptGroup => (16, "no group of the script is open"),
            S::NoAnswerSpace => (17, "no space is left for the answer"),
        }
    }

    fn layer(self) -> (u8, &'static str) {
        match self {
            ScriptFault::Book(_) => (1, "book"),
            ScriptFault::Detection(_) => (2, "detection"),
            _ => (0, "script"),
        }
    }

    fn value(self) -> Option<usize> {
        match self {
            ScriptFault::Book(BookFault::WrongTarget(place)) => Some(place),
            _ => None,
        }
    }
}

/// Where a fault has stopped a script.
#[derive(Clone, Copy)]
pub struct Stopped {
    pub fault: ScriptFault,
    pub offset: usize,
    pub index: usize,
}

impl fmt::Display for Stopped {
    fn fmt(&self, f: &mut fmt::Formatter<'_>) -> fmt::Result {
        let Stopped {
            fault,
            offset,
            index,
        } = self;
        let (number, meaning) = fault.number_and_meaning();
        let (layer, name) = fault.layer();
        write!(
            f,
            "refusal {number}, {meaning}; layer {layer}, {name}; offset {offset}; index {index}"
        )?;
        if let Some(value) = fault.value() {
            write!(f, "; value {value}")?;
        }
        Ok(())
    }
}
