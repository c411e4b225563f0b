//! The controller.

use core::fmt;
use core::mem::MaybeUninit;
use core::ptr::addr_of_mut;

use crate::error::{checked, never_refused, Error};
use crate::held::Held;
use crate::raw;
use crate::values::{packet, Connection, Holder, Limits, Picker, Report, Sent, Settings, Unit, Upcoming, Waiting};
use crate::{List, Packet, COMMANDS_MAX, SAVED_MAX, UNITS_MAX};

/// A controller: it takes its hosts' messages in, says which block is served next, and gives their ends.
///
/// It lies in place, in some 18 KiB, and may move: box it, or make it where it is to stay ([`Controller::new_in`]). It may go
/// to another thread, but two have none in common:
///
/// ```compile_fail
/// fn serves_two_threads<T: Sync>() {}
/// serves_two_threads::<mscp::Controller>();
/// ```
pub struct Controller(Held<{ raw::SIZE / 8 }>);

impl Controller {
    /// A controller of these units, in rising order of their numbers.
    ///
    /// # Errors
    /// [`Error::ManyUnits`], those of the first unit that has one ([`Error::ZeroTrack`] to [`Error::ZeroSize`]),
    /// [`Error::UnitsFall`], [`Error::NoUnits`], and those of the limits ([`Error::BadCredits`] to [`Error::BadBound`]). Or
    /// [`Error::NoHandle`] if the library doesn't fit.
    #[inline] // else it would be moved once more, on the stack
    pub fn new(limits: &Limits, units: &[Unit], picker: Picker) -> Result<Self, Error> {
        let mut it = Self(Held::room(raw::ROOM));
        it.init(limits, units, picker)?;
        Ok(it)
    }

    /// The same where it is to stay, as in a `static`: nothing of its size is moved here. What the library moves while it makes
    /// one is said in `mscp.h`, at `mscp_init`.
    ///
    /// # Errors
    /// As [`Controller::new`].
    pub fn new_in<'a>(
        place: &'a mut MaybeUninit<Self>,
        limits: &Limits,
        units: &[Unit],
        picker: Picker,
    ) -> Result<&'a mut Self, Error> {
        let at = place.as_mut_ptr();
        // SAFETY: the place is ours. What has to be written of a controller is written: its memory may be anything.
        let it = unsafe {
            Held::room_at(addr_of_mut!((*at).0), raw::ROOM);
            &mut *at
        };
        it.init(limits, units, picker)?;
        Ok(it)
    }

    fn init(&mut self, limits: &Limits, units: &[Unit], picker: Picker) -> Result<(), Error> {
        let (limits, units) = (raw::Limits::from(*limits), Units::new(units));
        // SAFETY: the handle is that of memory of ours, in which nothing was made; the limits and so many units are there.
        let status =
            unsafe { raw::mscp_init_at(self.0.handle(), &limits, units.list.as_ptr(), units.count, picker.number()) };
        checked(status).map(drop)
    }

    /// Forgets all that came, as a reset of the port does. Ends that weren't taken are gone.
    pub fn reset(&mut self) {
        // SAFETY: the handle is that of a controller that was made.
        never_refused(unsafe { raw::mscp_reset(self.0.handle()) });
    }

    /// Takes a message of the connection's host in. One that names no valid command is no error: it gets an end that says
    /// why.
    ///
    /// # Errors
    /// The first that holds of [`Error::Short`], [`Error::Long`], [`Error::NoCredit`], [`Error::LastCredit`] and
    /// [`Error::Doubled`].
    pub fn send(&mut self, connection: Connection, message: &[u8]) -> Result<Sent, Error> {
        let mut sent = raw::Sent::ZERO;
        // SAFETY: the handle is that of a controller that was made; the message has so many bytes; `sent` is ours.
        let status = unsafe {
            raw::mscp_send_at(self.0.handle(), connection.number(), message.as_ptr(), message.len(), &mut sent)
        };
        checked(status).map(|status| Sent::told(status, sent))
    }

    /// Takes the connection's oldest end that wasn't taken, if there is one, which frees its credit.
    pub fn take(&mut self, connection: Connection) -> Option<Packet> {
        let mut end = raw::Packet::ZERO;
        // SAFETY: the handle is that of a controller that was made; `end` is ours.
        let status = unsafe { raw::mscp_take(self.0.handle(), connection.number(), &mut end) };
        (never_refused(status) == raw::status::DONE).then(|| packet(&end))
    }

    /// What the next step serves, if a command waits. Until a step, an ABORT of that command or a reset this answers the
    /// same.
    pub fn begin(&mut self) -> Option<Upcoming> {
        let mut upcoming = raw::Upcoming::ZERO;
        // SAFETY: the handle is that of a controller that was made; `upcoming` is ours.
        let status = unsafe { raw::mscp_begin(self.0.handle(), &mut upcoming) };
        (never_refused(status) == raw::status::DONE).then(|| upcoming.into())
    }

    /// The step of the command that is begun, if that is of this connection and has this reference number. Its block had
    /// this status: 0 for a good one; with another, whose low five bits are 5 to 31, the command ends.
    ///
    /// # Errors
    /// The first that holds of [`Error::BadStatus`] and [`Error::NotBegun`].
    pub fn finish(&mut self, connection: Connection, reference: u32, status: u16) -> Result<Report, Error> {
        let mut report = raw::Report::ZERO;
        // SAFETY: the handle is that of a controller that was made; `report` is ours.
        let status = unsafe { raw::mscp_finish(self.0.handle(), connection.number(), reference, status, &mut report) };
        checked(status).map(|_| report.into())
    }

    /// [`Controller::begin`] and [`Controller::finish`] in one. `None` if no command waits.
    ///
    /// # Errors
    /// [`Error::BadStatus`].
    pub fn step(&mut self, status: u16) -> Result<Option<Report>, Error> {
        let mut report = raw::Report::ZERO;
        // SAFETY: the handle is that of a controller that was made; `report` is ours.
        let status = checked(unsafe { raw::mscp_step(self.0.handle(), status, &mut report) })?;
        Ok((status == raw::status::DONE).then(|| report.into()))
    }

    /// The waiting commands of both connections with their figures, oldest first.
    #[must_use]
    pub fn look(&self) -> List<Waiting, COMMANDS_MAX> {
        let mut list = [raw::Waiting::ZERO; COMMANDS_MAX];
        // SAFETY: the handle is that of a controller that was made, and the call keeps it; the list has that room.
        let count = unsafe { raw::mscp_look_at(&self.0.fixed(), list.as_mut_ptr(), list.len()) };
        List::of(&list, never_refused(count) as usize, Waiting::from)
    }

    /// The commands that keep the connection's waiting command of this reference number back, oldest first.
    #[must_use]
    pub fn why(&self, connection: Connection, reference: u32) -> List<Holder, COMMANDS_MAX> {
        let mut list = [raw::Holder::ZERO; COMMANDS_MAX];
        // SAFETY: the handle is that of a controller that was made, and the call keeps it; the list has that room.
        let count =
            unsafe { raw::mscp_why_at(&self.0.fixed(), connection.number(), reference, list.as_mut_ptr(), list.len()) };
        List::of(&list, never_refused(count) as usize, Holder::from)
    }

    /// How many steps the connection's waiting command of this reference number may still wait, at most.
    #[must_use]
    pub fn figure(&self, connection: Connection, reference: u32) -> Option<u32> {
        // SAFETY: the handle is that of a controller that was made, and the call keeps it.
        let figure = unsafe { raw::mscp_figure(&self.0.fixed(), connection.number(), reference) };
        u32::try_from(figure).ok().filter(|it| *it > 0)
    }

    /// How many commands of the connection wait: 0 to 63.
    #[must_use]
    pub fn waiting(&self, connection: Connection) -> u32 {
        // SAFETY: the handle is that of a controller that was made, and the call keeps it.
        unsafe { raw::mscp_waiting(&self.0.fixed(), connection.number()) as u32 }
    }

    /// How many of its ends weren't taken: 0 to 64.
    #[must_use]
    pub fn untaken(&self, connection: Connection) -> u32 {
        // SAFETY: the handle is that of a controller that was made, and the call keeps it.
        unsafe { raw::mscp_untaken(&self.0.fixed(), connection.number()) as u32 }
    }

    /// How many of its credits are free: 0 to 64.
    #[must_use]
    pub fn balance(&self, connection: Connection) -> u32 {
        // SAFETY: the handle is that of a controller that was made, and the call keeps it.
        unsafe { raw::mscp_balance(&self.0.fixed(), connection.number()) as u32 }
    }

    /// Whether the unit of this number is online.
    #[must_use]
    pub fn is_online(&self, unit: u16) -> bool {
        // SAFETY: the handle is that of a controller that was made, and the call keeps it.
        unsafe { raw::mscp_is_online(&self.0.fixed(), unit) == 1 }
    }

    /// Its limits and units: what it was made of, also if it was restored.
    #[must_use]
    pub fn settings(&self) -> Settings {
        let (mut limits, mut units) = (raw::Limits::ZERO, [raw::Unit::ZERO; UNITS_MAX]);
        // SAFETY: the handle is that of a controller that was made, and the call keeps it; the rest is ours.
        let count = unsafe { raw::mscp_settings_at(&self.0.fixed(), &mut limits, units.as_mut_ptr(), units.len()) };
        Settings { limits: limits.into(), units: List::of(&units, never_refused(count) as usize, Unit::from) }
    }

    /// All that the calls answer of it, with limits, units and picker, as bytes: the same state has the same bytes on every
    /// machine.
    #[must_use]
    pub fn save(&self) -> List<u8, SAVED_MAX> {
        let (mut bytes, mut length) = ([0; SAVED_MAX], 0);
        // SAFETY: the handle is that of a controller that was made, and the call keeps it; the bytes are that room.
        let status = unsafe { raw::mscp_save_at(&self.0.fixed(), bytes.as_mut_ptr(), bytes.len(), &mut length) };
        never_refused(status);
        List::new(bytes, length)
    }

    /// The controller that was saved. Bytes of a stranger make one with which every call is safe, or none.
    ///
    /// # Errors
    /// The first fault of the bytes, [`Error::SavedLength`] to [`Error::SavedForm`].
    pub fn restore(bytes: &[u8]) -> Result<Self, Error> {
        let mut it = Self(Held::room(raw::ROOM));
        // SAFETY: the handle is that of memory of ours, in which nothing was made; there are so many bytes.
        checked(unsafe { raw::mscp_restore_at(it.0.handle(), bytes.as_ptr(), bytes.len()) })?;
        Ok(it)
    }
}

/// What waits in it, and how many ends weren't taken, by connection.
impl fmt::Debug for Controller {
    fn fmt(&self, to: &mut fmt::Formatter<'_>) -> fmt::Result {
        let untaken = [Connection::First, Connection::Second].map(|it| self.untaken(it));
        to.debug_struct("Controller").field("waiting", &self.look()).field("untaken", &untaken).finish_non_exhaustive()
    }
}

/// Units as C has them: as many as there may be, and one more, which is refused as any number more is.
pub(crate) struct Units {
    pub(crate) list: [raw::Unit; UNITS_MAX + 1],
    pub(crate) count: usize,
}

impl Units {
    pub(crate) fn new(units: &[Unit]) -> Self {
        let mut list = [raw::Unit::ZERO; UNITS_MAX + 1];
        list.iter_mut().zip(units).for_each(|(to, from)| *to = (*from).into());
        Self { list, count: units.len().min(UNITS_MAX + 1) }
    }
}
