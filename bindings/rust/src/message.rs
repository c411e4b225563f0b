//! Commands to messages, and ends from them.

use crate::error::{checked, Error};
use crate::raw;
use crate::values::packet;
use crate::{Opcode, Packet};

/// What a transfer moves.
#[derive(Clone, Copy, Debug, PartialEq, Eq, Hash)]
pub struct Transfer {
    /// How many bytes.
    pub bytes: u32,
    /// From this block on.
    pub lbn: u32,
    /// Where they are in host memory: the first four bytes of its buffer descriptor.
    pub buffer: u32,
}

/// What a command asks for.
#[derive(Clone, Copy, Debug, PartialEq, Eq, Hash)]
pub enum Order {
    /// It ends the command of this reference number.
    Abort(u32),
    /// A poll: it asks for the figure of the command of this reference number.
    GetCommandStatus(u32),
    /// It asks what a unit is.
    GetUnitStatus,
    /// It says to the controller what its host wants, and asks what the controller is.
    SetControllerCharacteristics {
        /// That of MSCP, which is 0.
        version: u16,
        /// The controller's, of which 0x80 asks for attention messages.
        flags: u16,
        /// The host's, in seconds, or 0 for none.
        timeout: u16,
    },
    /// It takes a unit offline.
    Available,
    /// It brings a unit online.
    Online,
    /// It says to a unit what its host wants.
    SetUnitCharacteristics,
    /// It reads blocks, and drops them.
    Access(Transfer),
    /// It writes zeros.
    Erase(Transfer),
    /// It compares blocks with the host's bytes.
    CompareHostData(Transfer),
    /// It reads blocks.
    Read(Transfer),
    /// It writes blocks.
    Write(Transfer),
    /// Another opcode, with none of these fields.
    Other(u8),
}

/// A command.
#[derive(Clone, Copy, Debug, PartialEq, Eq, Hash)]
pub struct Command {
    /// Its reference number.
    pub reference: u32,
    /// The unit that it is for.
    pub unit: u16,
    /// Its modifiers.
    pub modifiers: u16,
    /// What it asks for.
    pub order: Order,
}

/// What an end says beside its status.
#[derive(Clone, Copy, Debug, PartialEq, Eq, Hash)]
pub enum Body {
    /// Nothing: an unknown opcode, AVAILABLE.
    Bare,
    /// ABORT: the reference number of the command that it is about.
    Abort(u32),
    /// GET COMMAND STATUS.
    CommandStatus {
        /// The reference number of the command that it is about.
        other: u32,
        /// Its figure, in steps.
        figure: u32,
    },
    /// GET UNIT STATUS.
    UnitStatus {
        /// Of the unit.
        id: u64,
        /// The type of its media.
        media: u32,
        /// In blocks.
        track: u16,
        /// In tracks.
        group: u16,
        /// In groups.
        cylinder: u16,
    },
    /// SET CONTROLLER CHARACTERISTICS.
    Controller {
        /// The controller's, in seconds.
        timeout: u16,
        /// Of the controller.
        id: u64,
    },
    /// ONLINE, SET UNIT CHARACTERISTICS.
    Online {
        /// Of the unit.
        id: u64,
        /// The type of its media.
        media: u32,
        /// In blocks.
        size: u32,
        /// Of its volume.
        serial: u32,
    },
    /// A transfer: the bytes of its good blocks.
    Moved(u32),
}

/// An end.
#[derive(Clone, Copy, Debug, PartialEq, Eq, Hash)]
pub struct End {
    /// Of its command.
    pub reference: u32,
    /// Of its command.
    pub unit: u16,
    /// Its endcode.
    pub code: u8,
    /// How the command went.
    pub status: u16,
    /// What it says beside that.
    pub body: Body,
}

impl Command {
    /// Its message. What a controller reads in it is the command.
    #[must_use]
    pub fn message(&self) -> Packet {
        let mut message = raw::Packet::ZERO;
        // SAFETY: both are ours.
        unsafe { raw::mscp_write_command(&raw::Command::from(*self), &mut message) };
        packet(&message)
    }
}

impl From<Command> for raw::Command {
    fn from(it: Command) -> Self {
        let Command { reference, unit, modifiers, order } = it;
        let bare = |opcode: u8| Self { reference, unit, modifiers, opcode, ..Self::ZERO };
        let named = |opcode: Opcode| bare(opcode.number());
        let moves = |opcode: Opcode, it: Transfer| {
            let Transfer { bytes, lbn, buffer } = it;
            Self { bytes, lbn, buffer, ..named(opcode) }
        };
        match order {
            Order::Abort(other) => Self { other, ..named(Opcode::Abort) },
            Order::GetCommandStatus(other) => Self { other, ..named(Opcode::GetCommandStatus) },
            Order::GetUnitStatus => named(Opcode::GetUnitStatus),
            Order::SetControllerCharacteristics { version, flags, timeout } => {
                Self { version, flags, timeout, ..named(Opcode::SetControllerCharacteristics) }
            }
            Order::Available => named(Opcode::Available),
            Order::Online => named(Opcode::Online),
            Order::SetUnitCharacteristics => named(Opcode::SetUnitCharacteristics),
            Order::Access(it) => moves(Opcode::Access, it),
            Order::Erase(it) => moves(Opcode::Erase, it),
            Order::CompareHostData(it) => moves(Opcode::CompareHostData, it),
            Order::Read(it) => moves(Opcode::Read, it),
            Order::Write(it) => moves(Opcode::Write, it),
            Order::Other(opcode) => bare(opcode),
        }
    }
}

impl End {
    /// The end that these bytes are.
    ///
    /// # Errors
    /// [`Error::Unreadable`] if there aren't 12 to 64, or fewer than its endcode has, or that isn't 0x80, alone or with an
    /// [`Opcode`]'s number.
    pub fn read(bytes: &[u8]) -> Result<Self, Error> {
        let mut end = raw::End::ZERO;
        // SAFETY: there are so many bytes; `end` is ours.
        checked(unsafe { raw::mscp_read_end_at(bytes.as_ptr(), bytes.len(), &mut end) })?;
        Ok(end.into())
    }
}

impl From<raw::End> for End {
    fn from(it: raw::End) -> Self {
        let raw::End { id, reference, other, figure, moved, media, size, serial, .. } = it;
        let raw::End { unit, status, track, group, cylinder, timeout, code, .. } = it;
        let body = match Opcode::of_number(code & 0x7F) {
            None | Some(Opcode::Available) => Body::Bare,
            Some(Opcode::DetermineAccessPaths | Opcode::CompareControllerData) => Body::Bare,
            Some(Opcode::Flush | Opcode::Replace | Opcode::Format) => Body::Bare,
            Some(Opcode::Abort) => Body::Abort(other),
            Some(Opcode::GetCommandStatus) => Body::CommandStatus { other, figure },
            Some(Opcode::GetUnitStatus) => Body::UnitStatus { id, media, track, group, cylinder },
            Some(Opcode::SetControllerCharacteristics) => Body::Controller { timeout, id },
            Some(Opcode::Online | Opcode::SetUnitCharacteristics) => Body::Online { id, media, size, serial },
            Some(Opcode::Access | Opcode::Erase | Opcode::CompareHostData | Opcode::Read | Opcode::Write) => {
                Body::Moved(moved)
            }
        };
        End { reference, unit, code, status, body }
    }
}
