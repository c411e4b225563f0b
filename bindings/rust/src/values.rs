//! What calls take and answer.

use crate::raw;
use crate::List;

/// Reads what a library of this version answers by a number of an enumeration: there is no other.
macro_rules! numbered {
    ($(#[$meta:meta])* $name:ident: $type:ty { $($(#[$doc:meta])* $variant:ident = $number:literal,)* }) => {
        $(#[$meta])*
        #[derive(Clone, Copy, Debug, PartialEq, Eq, Hash)]
        pub enum $name { $($(#[$doc])* $variant = $number,)* }

        impl $name {
            /// All of them.
            pub const ALL: &'static [$name] = &[$($name::$variant,)*];

            /// That of a number of `mscp.h`.
            #[must_use]
            pub const fn of_number(number: $type) -> Option<$name> {
                match number {
                    $($number => Some($name::$variant),)*
                    _ => None,
                }
            }

            /// Its number in `mscp.h`.
            #[must_use]
            pub const fn number(self) -> $type {
                self as $type
            }
        }
    };
}

numbered! {
    /// By which connection a host talks to a controller. Each has its own credits, ends and reference numbers.
    Connection: u32 {
        /// The first, which each controller has.
        First = 0,
        /// The second, if the limits give it credits.
        Second = 1,
    }
}

numbered! {
    /// Which of the commands that may start is started.
    Picker: u32 {
        /// The oldest.
        Oldest = 0,
        /// The one that costs the head the least: an elevator over all units.
        Sweep = 1,
    }
}

numbered! {
    /// What a command asks for: byte 8 of its message.
    Opcode: u8 {
        /// It ends another command.
        Abort = 1,
        /// A poll: it asks for another command's figure.
        GetCommandStatus = 2,
        /// It asks what a unit is.
        GetUnitStatus = 3,
        /// It says to the controller what its host wants, and asks what the controller is.
        SetControllerCharacteristics = 4,
        /// It takes a unit offline.
        Available = 8,
        /// It brings a unit online.
        Online = 9,
        /// It says to a unit what its host wants.
        SetUnitCharacteristics = 10,
        /// It asks by which paths hosts reach a unit.
        DetermineAccessPaths = 11,
        /// It reads blocks, and drops them.
        Access = 16,
        /// It compares a controller's data with a unit's.
        CompareControllerData = 17,
        /// It writes zeros.
        Erase = 18,
        /// It writes what a controller has kept back.
        Flush = 19,
        /// It replaces a bad block.
        Replace = 20,
        /// It formats a unit.
        Format = 24,
        /// It compares blocks with the host's bytes.
        CompareHostData = 32,
        /// It reads blocks.
        Read = 33,
        /// It writes blocks.
        Write = 34,
    }
}

numbered! {
    /// The bus of a port's host.
    BusKind: u8 {
        /// The Q-bus, with addresses of 22 bits.
        Q = 0,
        /// The Unibus, with addresses of 18 bits.
        Uni = 1,
    }
}

impl Connection {
    /// Of a library of this version.
    pub(crate) fn told(number: u8) -> Self {
        Self::of_number(number.into()).unwrap_or(Connection::First)
    }
}

impl BusKind {
    /// Of a library of this version.
    pub(crate) fn told(number: u8) -> Self {
        Self::of_number(number).unwrap_or(BusKind::Q)
    }

    /// The bits of an address that the bus has.
    #[must_use]
    pub const fn address(self, address: u32) -> u32 {
        match self {
            BusKind::Q => address & 0x3F_FFFF,
            BusKind::Uni => address & 0x3_FFFF,
        }
    }
}

/// A unit. No size is 0. The host reads its identifiers.
#[derive(Clone, Copy, Debug, Default, PartialEq, Eq, Hash)]
pub struct Unit {
    /// Of the unit.
    pub id: u64,
    /// By which commands name it.
    pub number: u16,
    /// In blocks.
    pub size: u32,
    /// The type of its media.
    pub media: u32,
    /// Of its volume.
    pub serial: u32,
    /// In blocks.
    pub track: u16,
    /// In tracks.
    pub group: u16,
    /// In groups.
    pub cylinder: u16,
}

/// The limits of a controller: no command waits for more than `(credits - 1) * longest + budget` steps, and with a second
/// connection for no more than `(credits - 1 + second - 1) * longest + budget`.
#[derive(Clone, Copy, Debug, PartialEq, Eq, Hash)]
pub struct Limits {
    /// Of the controller, which the host reads.
    pub id: u64,
    /// The blocks that later commands may have in all that start before a waiting command.
    pub budget: u64,
    /// Of the first connection: commands that wait and ends that weren't taken, together. 2 to 64.
    pub credits: u32,
    /// Of the second: 2 to 62, or 0 if there is none. Both together have up to 64.
    pub second: u32,
    /// The longest transfer in blocks: 1 to 8,388,608.
    pub longest: u32,
    /// In seconds, which the host reads: 1 to 255.
    pub timeout: u16,
}

impl From<Unit> for raw::Unit {
    fn from(it: Unit) -> Self {
        let Unit { id, number, size, media, serial, track, group, cylinder } = it;
        Self { id, size, media, serial, number, track, group, cylinder }
    }
}

impl From<raw::Unit> for Unit {
    fn from(it: raw::Unit) -> Self {
        let raw::Unit { id, size, media, serial, number, track, group, cylinder } = it;
        Self { id, number, size, media, serial, track, group, cylinder }
    }
}

impl From<Limits> for raw::Limits {
    fn from(it: Limits) -> Self {
        let Limits { id, budget, credits, second, longest, timeout } = it;
        Self { id, budget, credits, second, longest, timeout }
    }
}

impl From<raw::Limits> for Limits {
    fn from(it: raw::Limits) -> Self {
        let raw::Limits { id, budget, credits, second, longest, timeout } = it;
        Self { id, budget, credits, second, longest, timeout }
    }
}

/// What a controller or a port was made of.
#[derive(Clone, Copy, Debug, PartialEq, Eq)]
pub struct Settings {
    /// Its limits.
    pub limits: Limits,
    /// Its units, in rising order of their numbers.
    pub units: List<Unit, { crate::UNITS_MAX }>,
}

/// What became of a message that was taken in.
#[derive(Clone, Copy, Debug, PartialEq, Eq, Hash)]
pub enum Sent {
    /// Its command waits for steps.
    Queued {
        /// Its reference number.
        reference: u32,
    },
    /// Its end was made at once: take it.
    Answered {
        /// Its reference number.
        reference: u32,
        /// Of the command that it ended, if it is an ABORT that ended one.
        aborted: Option<u32>,
    },
}

impl Sent {
    /// Of what C answers with this status.
    pub(crate) fn told(status: i32, it: raw::Sent) -> Self {
        if status == raw::status::QUEUED {
            return Sent::Queued { reference: it.reference };
        }
        Sent::Answered { reference: it.reference, aborted: (it.has_aborted != 0).then_some(it.aborted) }
    }
}

/// What the next step serves.
#[derive(Clone, Copy, Debug, PartialEq, Eq, Hash)]
pub struct Upcoming {
    /// Of the command.
    pub connection: Connection,
    /// Of the command.
    pub reference: u32,
    /// Of the command.
    pub unit: u16,
    /// Of the command: an [`Opcode`]'s number.
    pub opcode: u8,
    /// The block that the step touches, if it touches one. With 0 bytes it touches the first, but moves nothing.
    pub block: Option<u32>,
    /// Of a transfer in all, 0 of another command.
    pub bytes: u32,
    /// The steps that the command had: this one's data begin `512 * done` bytes into its buffer.
    pub done: u32,
    /// The steps that it takes in all.
    pub weight: u32,
    /// Of a port's step, as [`Action::Transfer`](crate::Action::Transfer) has it; 0 of a controller's.
    pub serial: u64,
}

impl From<raw::Upcoming> for Upcoming {
    fn from(it: raw::Upcoming) -> Self {
        Self {
            connection: Connection::told(it.connection),
            reference: it.reference,
            unit: it.unit,
            opcode: it.opcode,
            block: (it.touches != 0).then_some(it.lbn),
            bytes: it.bytes,
            done: it.done,
            weight: it.weight,
            serial: it.serial,
        }
    }
}

/// What a step did.
#[derive(Clone, Copy, Debug, PartialEq, Eq, Hash)]
pub struct Report {
    /// Of the command.
    pub connection: Connection,
    /// Of the command.
    pub reference: u32,
    /// Of the command.
    pub unit: u16,
    /// The block that it touched, if it touched one.
    pub block: Option<u32>,
    /// Cylinders that the head went.
    pub seek: u32,
    /// Whether it was the command's first step.
    pub has_started: bool,
    /// The status of its end, if the command ended: the end can be taken.
    pub ended: Option<u16>,
}

impl From<raw::Report> for Report {
    fn from(it: raw::Report) -> Self {
        Self {
            connection: Connection::told(it.connection),
            reference: it.reference,
            unit: it.unit,
            block: (it.touched != 0).then_some(it.lbn),
            seek: it.seek,
            has_started: it.started != 0,
            ended: (it.ended != 0).then_some(it.status),
        }
    }
}

/// A waiting command.
#[derive(Clone, Copy, Debug, PartialEq, Eq, Hash)]
pub struct Waiting {
    /// That it came by.
    pub connection: Connection,
    /// Its reference number.
    pub reference: u32,
    /// How many steps it may still wait, at most.
    pub figure: u32,
}

impl From<raw::Waiting> for Waiting {
    fn from(it: raw::Waiting) -> Self {
        Self { connection: Connection::told(it.connection), reference: it.reference, figure: it.figure }
    }
}

/// A command that keeps another one back, in one of these ways or both.
#[derive(Clone, Copy, Debug, PartialEq, Eq, Hash)]
pub struct Holder {
    /// That it came by.
    pub connection: Connection,
    /// Its reference number.
    pub reference: u32,
    /// Whether both are of one unit, and one of them is sequential.
    pub fences: bool,
    /// Whether it has less left of its budget than the other one takes.
    pub is_overdrawn: bool,
}

impl From<raw::Holder> for Holder {
    fn from(it: raw::Holder) -> Self {
        Self {
            connection: Connection::told(it.connection),
            reference: it.reference,
            fences: it.fences != 0,
            is_overdrawn: it.overdrawn != 0,
        }
    }
}

/// A message or an end of C's, of as many bytes as that says.
pub(crate) fn packet(it: &raw::Packet) -> crate::Packet {
    List::new(it.bytes, it.length as usize)
}
