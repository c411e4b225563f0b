//! What a port wants, and what it says.

use crate::bus::{BadBlock, BusFault};
use crate::raw;
use crate::values::{BusKind, Opcode};
use crate::List;

/// What a port wants done. Addresses are of host memory, and have the bits of the bus.
#[derive(Clone, Copy, Debug, PartialEq, Eq)]
pub enum Action {
    /// Nothing, but the host is to go on a little: some hundred instructions.
    Pause,
    /// Give `count` bytes of host memory to [`Port::was_read`](crate::Port::was_read).
    Read {
        /// Where they are.
        address: u32,
        /// 64 at most.
        count: usize,
    },
    /// Write these bytes to host memory.
    Write {
        /// To where.
        address: u32,
        /// What.
        bytes: List<u8, 64>,
    },
    /// Interrupt the host.
    Interrupt {
        /// By what the host gave.
        vector: u16,
    },
    /// Move a block of a unit's volume.
    Transfer {
        /// Of the volume.
        unit: u16,
        /// Of the volume.
        block: u32,
        /// Where its bytes are in host memory.
        address: u32,
        /// How many they are: [`BLOCK`](crate::BLOCK) at most.
        count: usize,
        /// Which way.
        way: Way,
        /// 1 or more, higher for each block that is begun, and the same for one that is wanted anew: for
        /// [`Port::went_by`](crate::Port::went_by).
        serial: u64,
    },
}

/// What is done with a block.
#[derive(Clone, Copy, Debug, PartialEq, Eq, Hash)]
pub enum Way {
    /// Its first bytes are written to host memory.
    Read,
    /// The bytes of host memory are written to it, and zeros after them.
    Write,
    /// Zeros are written to it. Host memory isn't touched.
    Erase,
    /// It is read, and dropped. Host memory isn't touched.
    Access,
    /// The bytes of host memory are compared with its first.
    Compare,
}

impl Action {
    /// Of what C answers, for this bus.
    pub(crate) fn told(it: &raw::Action, bus: BusKind) -> Self {
        let (address, count) = (bus.address(it.address), it.count as usize);
        match it.kind {
            2 => Action::Read { address, count },
            3 => Action::Write { address, bytes: List::new(it.bytes, count) },
            4 => Action::Interrupt { vector: it.vector },
            5 => {
                let (unit, block, way, serial) = (it.unit, it.block, Way::told(it.opcode), it.serial);
                Action::Transfer { unit, block, address, count, way, serial }
            }
            _ => Action::Pause,
        }
    }
}

impl Way {
    fn told(opcode: u8) -> Self {
        match Opcode::of_number(opcode) {
            Some(Opcode::Read) => Way::Read,
            Some(Opcode::Write) => Way::Write,
            Some(Opcode::Erase) => Way::Erase,
            Some(Opcode::CompareHostData) => Way::Compare,
            _ => Way::Access,
        }
    }
}

/// How an action went.
#[derive(Clone, Copy, Debug, PartialEq, Eq, Hash)]
pub enum Outcome {
    /// It was done.
    Done,
    /// Host memory couldn't be read or written.
    Bus(BusFault),
    /// The bytes that were compared differ.
    Different,
    /// The block couldn't be moved.
    Failed(BadBlock),
}

impl Outcome {
    /// Its number in C, and the status beside it.
    pub(crate) fn numbers(self) -> (u32, u16) {
        match self {
            Outcome::Done => (0, 0),
            Outcome::Bus(BusFault::Missing) => (1, 0),
            Outcome::Bus(BusFault::Parity) => (2, 0),
            Outcome::Bus(BusFault::Unmapped) => (3, 0),
            Outcome::Different => (4, 0),
            Outcome::Failed(block) => (5, block.status()),
        }
    }
}

impl From<Result<(), BusFault>> for Outcome {
    fn from(it: Result<(), BusFault>) -> Self {
        it.map_or_else(Outcome::Bus, |()| Outcome::Done)
    }
}

impl From<Result<(), Outcome>> for Outcome {
    fn from(it: Result<(), Outcome>) -> Self {
        it.err().unwrap_or(Outcome::Done)
    }
}

/// What a port says of itself.
#[derive(Clone, Copy, Debug, PartialEq, Eq, Hash)]
pub struct Hardware {
    /// The bus of its host.
    pub bus: BusKind,
    /// The host reads its low seven bits: 19 is an RQDX3, 6 a UDA50.
    pub model: u8,
    /// The version of its software, of which the host reads the low four bits.
    pub software: u8,
    /// That of its hardware.
    pub version: u8,
}

impl Hardware {
    /// An RQDX3, on a Q-bus.
    pub const RQDX3: Self = Self { bus: BusKind::Q, model: 19, software: 3, version: 1 };
    /// A UDA50, on a Unibus.
    pub const UDA50: Self = Self { bus: BusKind::Uni, model: 6, software: 3, version: 1 };
}

impl From<Hardware> for raw::Hardware {
    fn from(it: Hardware) -> Self {
        Self { bus: it.bus.number(), model: it.model, software: it.software, version: it.version }
    }
}

impl From<raw::Hardware> for Hardware {
    fn from(it: raw::Hardware) -> Self {
        Self { bus: BusKind::told(it.bus), model: it.model, software: it.software, version: it.version }
    }
}

/// What is put into a unit.
#[derive(Clone, Copy, Debug, Default, PartialEq, Eq, Hash)]
pub struct Medium {
    /// In blocks: 1 to those of the unit.
    pub size: u32,
    /// The type of its media, which the host reads.
    pub media: u32,
    /// Whether nothing may be written on it.
    pub is_protected: bool,
    /// Whether it can be taken out, which the host reads.
    pub is_removable: bool,
}

impl From<Medium> for raw::Medium {
    fn from(it: Medium) -> Self {
        Self {
            size: it.size,
            media: it.media,
            is_protected: it.is_protected.into(),
            is_removable: it.is_removable.into(),
        }
    }
}

/// How far a port has come since its host wrote IP.
#[derive(Clone, Copy, Debug, PartialEq, Eq, Hash)]
pub enum Stage {
    /// The first step of the initialisation: the host is to write its first word to SA.
    First,
    /// Whatever the host writes to SA is shown there again: this word.
    Wrapped(u16),
    /// The host is to write the low half of the base of its rings.
    Second,
    /// The high half.
    Third,
    /// The host is to write 0 to SA.
    Purging,
    /// The host is to read IP.
    Probing,
    /// The communication area is cleared.
    Clearing,
    /// The host is to say go.
    Last,
    /// The rings are in use.
    Up,
    /// A fatal error, of this code.
    Dead(u16),
}

/// What a port is.
#[derive(Clone, Copy, Debug, PartialEq, Eq, Hash)]
pub struct State {
    /// How far it has come.
    pub stage: Stage,
    /// Whether something is to go out, and the next slot of the ring of responses was the host's.
    pub is_held_back: bool,
}

impl From<raw::State> for State {
    fn from(it: raw::State) -> Self {
        let stage = match it.stage {
            0 => Stage::First,
            1 => Stage::Wrapped(it.word),
            2 => Stage::Second,
            3 => Stage::Third,
            4 => Stage::Purging,
            5 => Stage::Probing,
            6 => Stage::Clearing,
            7 => Stage::Last,
            8 => Stage::Up,
            _ => Stage::Dead(it.word),
        };
        Self { stage, is_held_back: it.is_held_back != 0 }
    }
}

/// What is in a unit.
#[derive(Clone, Copy, Debug, PartialEq, Eq, Hash)]
pub struct Volume {
    /// In blocks, of what is there or was last; 0 if nothing was.
    pub size: u32,
    /// The type of its media.
    pub media: u32,
    /// Whether a volume is there.
    pub is_there: bool,
    /// Whether nothing may be written on it.
    pub is_protected: bool,
    /// Whether its host said so.
    pub is_protected_by_host: bool,
    /// Whether the unit is online with it.
    pub is_online: bool,
    /// Whether it can be taken out, or what was there last could.
    pub is_removable: bool,
}

impl From<raw::Volume> for Volume {
    fn from(it: raw::Volume) -> Self {
        Self {
            size: it.size,
            media: it.media,
            is_there: it.is_there != 0,
            is_protected: it.is_protected != 0,
            is_protected_by_host: it.is_protected_by_host != 0,
            is_online: it.is_online != 0,
            is_removable: it.is_removable != 0,
        }
    }
}
