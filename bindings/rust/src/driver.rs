//! A driver's account of a real port.

use core::fmt;

use crate::error::{checked, never_refused, Error};
use crate::held::Held;
use crate::host::Poll;
use crate::raw::{self, status};
use crate::values::packet;
use crate::{List, DRIVER_SAVED_MAX};

/// A driver's account of a real port: the credits that the port grants, the commands whose ends weren't heard, its polls, and
/// the ticks between them.
pub struct Driver {
    held: Held<{ raw::DRIVER_SIZE / 8 }>,
    watch: raw::Watch,
}

/// A command whose end wasn't heard.
#[derive(Clone, Copy, Debug, PartialEq, Eq, Hash)]
pub struct Asked {
    /// Its reference number.
    pub reference: u32,
    /// The unit that it names.
    pub unit: u16,
    /// Its opcode.
    pub opcode: u8,
    /// The bytes that it asks for.
    pub bytes: u32,
}

/// The end of a command or a poll.
#[derive(Clone, Copy, Debug, PartialEq, Eq, Hash)]
pub struct Ended {
    /// Of the command.
    pub reference: u32,
    /// Of the command.
    pub unit: u16,
    /// Of its end.
    pub status: u16,
    /// The bytes of its good blocks, if it is a transfer.
    pub moved: u32,
    /// The bytes that it asked for.
    pub asked: u32,
    /// Its endcode.
    pub code: u8,
    /// Its opcode, 0 of a poll.
    pub opcode: u8,
}

/// What a message from a port says.
#[derive(Clone, Copy, Debug, PartialEq, Eq, Hash)]
pub enum Heard {
    /// A command ended.
    Ended(Ended),
    /// A command ended, and its end says that more bytes moved than it asked for.
    MovedTooMuch(Ended),
    /// The polled command's first figure.
    First(u32),
    /// The polled command's figure, which has fallen.
    Progress(u32),
    /// The polled command has ended in the meantime.
    Late,
    /// The polled command's figure hasn't fallen: reset the port.
    NoProgress,
    /// The controller doesn't know the polled command: reset the port.
    Lost,
    /// The end of a poll, without a figure.
    Refused(Ended),
    /// A unit became available.
    Available(u16),
    /// Another attention message.
    Attention {
        /// Its code.
        code: u8,
        /// Its unit.
        unit: u16,
    },
    /// An error log.
    Logged,
    /// So many credits, and nothing else.
    Credits(u8),
}

/// What a driver is to do at a tick of its timer.
#[derive(Clone, Copy, Debug, PartialEq, Eq, Hash)]
pub enum Advice {
    /// Nothing.
    Nothing,
    /// Poll the oldest command.
    Poll,
    /// No answer came for a timeout: reset the port.
    Reset,
}

impl Driver {
    /// An account of one credit, for a controller whose timeout has this many ticks. Make it anew when the port is reset.
    ///
    /// # Errors
    /// [`Error::NoHandle`] if the library doesn't fit.
    pub fn new(timeout: u32) -> Result<Self, Error> {
        let watch = raw::Watch { timeout, ..raw::Watch::ZERO };
        let mut it = Self { held: Held::room(raw::DRIVER_ROOM), watch };
        // SAFETY: the handle is that of memory of ours, in which nothing was made.
        checked(unsafe { raw::mscp_driver_init_at(it.held.handle()) })?;
        Ok(it)
    }

    /// The controller's timeout has this many ticks.
    pub fn set_timeout(&mut self, timeout: u32) {
        self.watch.timeout = timeout;
    }

    /// How many credits are free: 0 to 65535.
    #[must_use]
    pub fn credits(&self) -> u32 {
        // SAFETY: the handle is that of an account that was made, and the call keeps it.
        unsafe { raw::mscp_driver_credits(&self.held.fixed()) as u32 }
    }

    /// This message is to be sent: send it, if this is no error. Its command takes a credit, and is outstanding from now on.
    ///
    /// # Errors
    /// The first that holds of [`Error::Short`], [`Error::Long`], [`Error::NoCredit`], [`Error::LastCredit`] and
    /// [`Error::Doubled`].
    pub fn submit(&mut self, message: &[u8]) -> Result<(), Error> {
        // SAFETY: the handle is that of an account that was made; the message has so many bytes.
        checked(unsafe { raw::mscp_driver_submit_at(self.held.handle(), message.as_ptr(), message.len()) }).map(drop)
    }

    /// The oldest command that isn't answered when it arrives is to be polled, by a GET COMMAND STATUS of this reference
    /// number, which takes a credit.
    ///
    /// # Errors
    /// [`Error::NoCredit`] or [`Error::Doubled`].
    pub fn poll(&mut self, reference: u32) -> Result<Poll, Error> {
        let mut message = raw::Packet::ZERO;
        // SAFETY: the handle is that of an account that was made; `message` is ours.
        match checked(unsafe { raw::mscp_driver_poll(self.held.handle(), reference, &mut message) })? {
            status::DONE => Ok(Poll::Send(packet(&message))),
            status::BUSY => Ok(Poll::Busy),
            _ => Ok(Poll::Nothing),
        }
    }

    /// The port sent this: an envelope of four bytes, and its text. The credits of the envelope are free.
    ///
    /// # Errors
    /// [`Error::Cut`], [`Error::OtherConnection`], [`Error::BadKind`], [`Error::Unreadable`] or [`Error::Unknown`].
    pub fn hear(&mut self, bytes: &[u8]) -> Result<Heard, Error> {
        let mut heard = raw::Heard::ZERO;
        let (handle, watch) = (self.held.handle(), &mut self.watch);
        // SAFETY: the handle is that of an account that was made; there are so many bytes; the other two are ours.
        let said =
            checked(unsafe { raw::mscp_driver_hear_at(handle, watch, bytes.as_ptr(), bytes.len(), &mut heard) })?;
        let raw::Heard { figure, reference, moved, asked, unit, status, code, opcode, credits } = heard;
        let ended = Ended { reference, unit, status, moved, asked, code, opcode };
        Ok(match said {
            status::MOVED_TOO_MUCH => Heard::MovedTooMuch(ended),
            status::FIRST => Heard::First(figure),
            status::PROGRESS => Heard::Progress(figure),
            status::LATE => Heard::Late,
            status::NO_PROGRESS => Heard::NoProgress,
            status::LOST => Heard::Lost,
            status::REFUSED => Heard::Refused(ended),
            status::NOW_AVAILABLE => Heard::Available(unit),
            status::ATTENTION => Heard::Attention { code, unit },
            status::LOGGED => Heard::Logged,
            status::CREDITS => Heard::Credits(credits),
            _ => Heard::Ended(ended),
        })
    }

    /// A tick of the driver's timer.
    pub fn tick(&mut self) -> Advice {
        // SAFETY: the handle is that of an account that was made, and the call keeps it; the watch is ours.
        match unsafe { raw::mscp_driver_tick(&self.held.fixed(), &mut self.watch) } {
            status::POLL => Advice::Poll,
            status::SILENT => Advice::Reset,
            _ => Advice::Nothing,
        }
    }

    /// The commands whose ends weren't heard, in the order of sending.
    #[must_use]
    pub fn outstanding(&self) -> List<Asked, 64> {
        let mut list = [raw::Asked::ZERO; 64];
        // SAFETY: the handle is that of an account that was made, and the call keeps it; the list has that room.
        let count = unsafe { raw::mscp_driver_outstanding_at(&self.held.fixed(), list.as_mut_ptr(), list.len()) };
        List::of(&list, usize::try_from(count).unwrap_or(0), |it| {
            let raw::Asked { reference, unit, opcode, bytes } = it;
            Asked { reference, unit, opcode, bytes }
        })
    }

    /// All that the account keeps, as bytes, but for the ticks.
    #[must_use]
    pub fn save(&self) -> List<u8, DRIVER_SAVED_MAX> {
        let (mut bytes, mut length) = ([0; DRIVER_SAVED_MAX], 0);
        let handle = self.held.fixed();
        // SAFETY: the handle is that of an account that was made, and the call keeps it; the bytes are that room.
        let status = unsafe { raw::mscp_driver_save_at(&handle, bytes.as_mut_ptr(), bytes.len(), &mut length) };
        never_refused(status);
        List::new(bytes, length)
    }

    /// The account that was saved, for a controller whose timeout has this many ticks, which are counted anew.
    ///
    /// # Errors
    /// The first fault of the bytes.
    pub fn restore(bytes: &[u8], timeout: u32) -> Result<Self, Error> {
        let watch = raw::Watch { timeout, ..raw::Watch::ZERO };
        let mut it = Self { held: Held::room(raw::DRIVER_ROOM), watch };
        // SAFETY: the handle is that of memory of ours, in which nothing was made; there are so many bytes.
        checked(unsafe { raw::mscp_driver_restore_at(it.held.handle(), bytes.as_ptr(), bytes.len()) })?;
        Ok(it)
    }
}

/// How many credits are free.
impl fmt::Debug for Driver {
    fn fmt(&self, to: &mut fmt::Formatter<'_>) -> fmt::Result {
        to.debug_struct("Driver").field("credits", &self.credits()).finish_non_exhaustive()
    }
}
