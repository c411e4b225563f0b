//! The host's end.

use core::fmt;
use core::mem::MaybeUninit;
use core::ptr::addr_of_mut;

use crate::error::{checked, never_refused, Error};
use crate::held::Held;
use crate::raw::{self, status};
use crate::values::packet;
use crate::{List, Packet, HOST_SAVED_MAX};

/// A host's end of a connection: its credits, its polls of its oldest command, and what each end says.
pub struct Host(Held<{ raw::HOST_SIZE / 8 }>);

/// What is to be done about a poll.
#[derive(Clone, Copy, Debug, PartialEq, Eq)]
pub enum Poll {
    /// Send this message, which is outstanding from now on.
    Send(Packet),
    /// The end of the last poll is still to come.
    Busy,
    /// No command is outstanding that isn't answered when it arrives.
    Nothing,
}

/// What an end says.
#[derive(Clone, Copy, Debug, PartialEq, Eq, Hash)]
pub enum News {
    /// A command ended, or a poll was refused.
    Ended {
        /// Of the command.
        reference: u32,
        /// Of the command.
        unit: u16,
        /// Of its end.
        status: u16,
        /// The bytes of its good blocks, if it is a transfer.
        moved: u32,
        /// Its endcode.
        code: u8,
    },
    /// The polled command's first figure.
    First(u32),
    /// The polled command's figure, which has fallen.
    Progress(u32),
    /// The polled command has ended in the meantime.
    Late,
    /// The polled command's figure hasn't fallen: reset the controller.
    NoProgress,
    /// The controller doesn't know the polled command: reset it.
    Lost,
}

impl Host {
    /// A host of a connection with this many credits: 2 to 64. Make it anew when its port is reset.
    ///
    /// # Errors
    /// [`Error::BadCredits`], or [`Error::NoHandle`] if the library doesn't fit.
    pub fn new(credits: u32) -> Result<Self, Error> {
        let mut it = Self(Held::room(raw::HOST_ROOM));
        it.init(credits)?;
        Ok(it)
    }

    /// The same where it is to stay, as in [`Controller::new_in`](crate::Controller::new_in).
    ///
    /// # Errors
    /// As [`Host::new`].
    pub fn new_in(place: &mut MaybeUninit<Self>, credits: u32) -> Result<&mut Self, Error> {
        let at = place.as_mut_ptr();
        // SAFETY: the place is ours. What has to be written of a host is written: its memory may be anything.
        let it = unsafe {
            Held::room_at(addr_of_mut!((*at).0), raw::HOST_ROOM);
            &mut *at
        };
        it.init(credits)?;
        Ok(it)
    }

    fn init(&mut self, credits: u32) -> Result<(), Error> {
        // SAFETY: the handle is that of memory of ours, in which nothing was made.
        checked(unsafe { raw::mscp_host_init_at(self.0.handle(), credits) }).map(drop)
    }

    /// How many credits are free: 0 to 64.
    #[must_use]
    pub fn balance(&self) -> u32 {
        // SAFETY: the handle is that of a host that was made, and the call keeps it.
        unsafe { raw::mscp_host_balance(&self.0.fixed()) as u32 }
    }

    /// This message is to be sent: send it, if this is no error. Its command is outstanding from now on.
    ///
    /// # Errors
    /// The first that holds of [`Error::Short`], [`Error::Long`], [`Error::NoCredit`], [`Error::LastCredit`] and
    /// [`Error::Doubled`].
    pub fn submit(&mut self, message: &[u8]) -> Result<(), Error> {
        // SAFETY: the handle is that of a host that was made; the message has so many bytes.
        checked(unsafe { raw::mscp_host_submit_at(self.0.handle(), message.as_ptr(), message.len()) }).map(drop)
    }

    /// The oldest command that isn't answered when it arrives is to be polled, by a GET COMMAND STATUS of this reference
    /// number.
    ///
    /// # Errors
    /// [`Error::NoCredit`] or [`Error::Doubled`].
    pub fn poll(&mut self, reference: u32) -> Result<Poll, Error> {
        let mut message = raw::Packet::ZERO;
        // SAFETY: the handle is that of a host that was made; `message` is ours.
        match checked(unsafe { raw::mscp_host_poll(self.0.handle(), reference, &mut message) })? {
            status::DONE => Ok(Poll::Send(packet(&message))),
            status::BUSY => Ok(Poll::Busy),
            _ => Ok(Poll::Nothing),
        }
    }

    /// An end was received: its command's credit is free again.
    ///
    /// # Errors
    /// [`Error::Unreadable`] or [`Error::Unknown`].
    pub fn receive(&mut self, end: &[u8]) -> Result<News, Error> {
        let mut news = raw::News::ZERO;
        // SAFETY: the handle is that of a host that was made; the end has so many bytes; `news` is ours.
        let status =
            checked(unsafe { raw::mscp_host_receive_at(self.0.handle(), end.as_ptr(), end.len(), &mut news) })?;
        Ok(match status {
            status::FIRST => News::First(news.figure),
            status::PROGRESS => News::Progress(news.figure),
            status::LATE => News::Late,
            status::NO_PROGRESS => News::NoProgress,
            status::LOST => News::Lost,
            _ => {
                let raw::News { reference, unit, status, moved, code, .. } = news;
                News::Ended { reference, unit, status, moved, code }
            }
        })
    }

    /// All that the host keeps, as bytes.
    #[must_use]
    pub fn save(&self) -> List<u8, HOST_SAVED_MAX> {
        let (mut bytes, mut length) = ([0; HOST_SAVED_MAX], 0);
        // SAFETY: the handle is that of a host that was made, and the call keeps it; the bytes are that room.
        let status = unsafe { raw::mscp_host_save_at(&self.0.fixed(), bytes.as_mut_ptr(), bytes.len(), &mut length) };
        never_refused(status);
        List::new(bytes, length)
    }

    /// The host that was saved.
    ///
    /// # Errors
    /// The first fault of the bytes.
    pub fn restore(bytes: &[u8]) -> Result<Self, Error> {
        let mut it = Self(Held::room(raw::HOST_ROOM));
        // SAFETY: the handle is that of memory of ours, in which nothing was made; there are so many bytes.
        checked(unsafe { raw::mscp_host_restore_at(it.0.handle(), bytes.as_ptr(), bytes.len()) })?;
        Ok(it)
    }
}

/// How many credits are free.
impl fmt::Debug for Host {
    fn fmt(&self, to: &mut fmt::Formatter<'_>) -> fmt::Result {
        to.debug_struct("Host").field("balance", &self.balance()).finish_non_exhaustive()
    }
}
