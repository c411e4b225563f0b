//! What the tests share.

use mscp::raw::{self, status, Aligned, Handle};
use mscp::{
    BusKind, Connection, Error, Hardware, Holder, Limits, Medium, Poll, Report, Stage, State, Unit, Upcoming, Volume,
    Waiting,
};

/// Random numbers, the same in each run.
pub struct Random(pub u64);

impl Random {
    pub fn below(&mut self, bound: usize) -> usize {
        self.0 = self.0.wrapping_mul(6_364_136_223_846_793_005).wrapping_add(1_442_695_040_888_963_407);
        (self.0 >> 33) as usize % bound
    }
}

/// It lies elsewhere now.
pub fn moved<T>(it: T) -> Box<T> {
    Box::new(it)
}

/// Memory of its own with a handle, as C has it.
pub struct Raw {
    handle: Box<Handle>,
    _memory: Vec<u64>,
}

impl Raw {
    pub fn new(size: usize, mark: u64) -> Self {
        let mut memory = vec![0_u64; size / 8];
        let at = memory.as_mut_ptr();
        let handle = Handle { at: Aligned(at.cast()), address: Aligned(at as u64), length: size as u64, mark };
        Self { handle: Box::new(handle), _memory: memory }
    }

    pub fn handle(&mut self) -> *mut Handle {
        &mut *self.handle
    }
}

/// What a safe value is in C, field by field as `mscp.h` has them, without the crate's own conversions.
pub trait InC {
    type It;

    fn in_c(self) -> Self::It;
}

impl InC for Volume {
    type It = raw::Volume;

    fn in_c(self) -> raw::Volume {
        let Volume { size, media, is_there, is_protected, is_protected_by_host, is_online, is_removable } = self;
        raw::Volume {
            size,
            media,
            is_there: is_there.into(),
            is_protected: is_protected.into(),
            is_protected_by_host: is_protected_by_host.into(),
            is_online: is_online.into(),
            is_removable: is_removable.into(),
        }
    }
}

impl InC for State {
    type It = raw::State;

    fn in_c(self) -> raw::State {
        let (stage, word) = match self.stage {
            Stage::First => (0, 0),
            Stage::Wrapped(word) => (1, word),
            Stage::Second => (2, 0),
            Stage::Third => (3, 0),
            Stage::Purging => (4, 0),
            Stage::Probing => (5, 0),
            Stage::Clearing => (6, 0),
            Stage::Last => (7, 0),
            Stage::Up => (8, 0),
            Stage::Dead(code) => (9, code),
        };
        raw::State { word, stage, is_held_back: self.is_held_back.into() }
    }
}

impl InC for Hardware {
    type It = raw::Hardware;

    fn in_c(self) -> raw::Hardware {
        let bus = match self.bus {
            BusKind::Q => 0,
            BusKind::Uni => 1,
        };
        raw::Hardware { bus, model: self.model, software: self.software, version: self.version }
    }
}

impl InC for Connection {
    type It = u8;

    fn in_c(self) -> u8 {
        match self {
            Connection::First => 0,
            Connection::Second => 1,
        }
    }
}

impl InC for Upcoming {
    type It = raw::Upcoming;

    fn in_c(self) -> raw::Upcoming {
        let Upcoming { connection, reference, unit, opcode, block, bytes, done, weight, serial } = self;
        let (lbn, touches) = (block.unwrap_or(0), block.is_some().into());
        let connection = connection.in_c();
        raw::Upcoming { serial, reference, bytes, lbn, done, weight, unit, opcode, touches, connection }
    }
}

impl InC for Report {
    type It = raw::Report;

    fn in_c(self) -> raw::Report {
        let Report { connection, reference, unit, block, seek, has_started, ended } = self;
        raw::Report {
            reference,
            lbn: block.unwrap_or(0),
            seek,
            unit,
            status: ended.unwrap_or(0),
            touched: block.is_some().into(),
            started: has_started.into(),
            ended: ended.is_some().into(),
            connection: connection.in_c(),
        }
    }
}

impl InC for Waiting {
    type It = raw::Waiting;

    fn in_c(self) -> raw::Waiting {
        raw::Waiting { reference: self.reference, figure: self.figure, connection: self.connection.in_c() }
    }
}

impl InC for Holder {
    type It = raw::Holder;

    fn in_c(self) -> raw::Holder {
        let Holder { connection, reference, fences, is_overdrawn } = self;
        raw::Holder { reference, connection: connection.in_c(), fences: fences.into(), overdrawn: is_overdrawn.into() }
    }
}

impl InC for Medium {
    type It = raw::Medium;

    fn in_c(self) -> raw::Medium {
        let Medium { size, media, is_protected, is_removable } = self;
        raw::Medium { size, media, is_protected: is_protected.into(), is_removable: is_removable.into() }
    }
}

impl InC for Unit {
    type It = raw::Unit;

    fn in_c(self) -> raw::Unit {
        let Unit { id, number, size, media, serial, track, group, cylinder } = self;
        raw::Unit { id, size, media, serial, number, track, group, cylinder }
    }
}

impl InC for Limits {
    type It = raw::Limits;

    fn in_c(self) -> raw::Limits {
        let Limits { id, budget, credits, second, longest, timeout } = self;
        raw::Limits { id, budget, credits, second, longest, timeout }
    }
}

/// The status of a poll, which is sent or isn't.
impl InC for &Poll {
    type It = i32;

    fn in_c(self) -> i32 {
        match self {
            Poll::Send(_) => status::DONE,
            Poll::Busy => status::BUSY,
            Poll::Nothing => status::NOTHING,
        }
    }
}

/// The status of C's that a call answers which was done or refused.
pub fn status_of<T>(it: &Result<T, Error>, good: impl Fn(&T) -> i32) -> i32 {
    match it {
        Ok(it) => good(it),
        Err(error) => error.status(),
    }
}
