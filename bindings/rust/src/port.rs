//! The port.

use core::fmt;
use core::mem::MaybeUninit;
use core::ptr::addr_of_mut;

use crate::action::{Action, Hardware, Medium, Outcome, State, Volume, Way};
use crate::bus::Bus;
use crate::controller::Units;
use crate::error::{checked, never_refused, Error};
use crate::held::Held;
use crate::raw::{self, status};
use crate::values::{BusKind, Connection, Holder, Limits, Picker, Settings, Unit, Upcoming, Waiting};
use crate::{List, BLOCK, COMMANDS_MAX, PORT_SAVED_MAX, UNITS_MAX};

/// Moves a block on a bus.
fn transfer<B: Bus + ?Sized>(
    bus: &mut B,
    unit: u16,
    block: u32,
    address: u32,
    count: usize,
    way: Way,
) -> Result<(), Outcome> {
    let (mut there, mut here) = ([0; BLOCK], [0; BLOCK]);
    if matches!(way, Way::Write | Way::Compare) {
        bus.read(address, &mut here[..count]).map_err(Outcome::Bus)?;
    }
    if matches!(way, Way::Write | Way::Erase) {
        return bus.write_block(unit, block, &here).map_err(Outcome::Failed);
    }
    bus.read_block(unit, block, &mut there).map_err(Outcome::Failed)?;
    match way {
        Way::Read => bus.write(address, &there[..count]).map_err(Outcome::Bus),
        Way::Compare if there[..count] != here[..count] => Err(Outcome::Different),
        _ => Ok(()),
    }
}

/// A port between a host's bus and a controller of its own: two registers, rings, credits, and volumes.
///
/// It does no input or output. [`Port::turn`] has a [`Bus`] do what it wants. Who gives a transfer its time asks by
/// [`Port::next`] and [`Port::next_message`], and reports the block by [`Port::went_by`].
pub struct Port {
    held: Held<{ raw::PORT_SIZE / 8 }>,
    bus: BusKind,
}

impl Port {
    /// A port over a controller as [`Controller::new`](crate::Controller::new) makes one. Its host may have `credits` commands
    /// outstanding: 1 to one fewer than the first connection has credits. Its units have no volumes yet.
    ///
    /// # Errors
    /// Those of a controller, and [`Error::BadHostCredits`].
    #[inline] // else it would be moved once more, on the stack
    pub fn new(
        limits: &Limits,
        units: &[Unit],
        picker: Picker,
        hardware: Hardware,
        credits: u32,
    ) -> Result<Self, Error> {
        let mut it = Self::room(hardware.bus);
        it.init(limits, units, picker, hardware, credits)?;
        Ok(it)
    }

    /// The same where it is to stay, as in [`Controller::new_in`](crate::Controller::new_in).
    ///
    /// # Errors
    /// As [`Port::new`].
    pub fn new_in<'a>(
        place: &'a mut MaybeUninit<Self>,
        limits: &Limits,
        units: &[Unit],
        picker: Picker,
        hardware: Hardware,
        credits: u32,
    ) -> Result<&'a mut Self, Error> {
        let at = place.as_mut_ptr();
        // SAFETY: the place is ours. What has to be written of a port is written: its memory may be anything.
        let it = unsafe {
            Held::room_at(addr_of_mut!((*at).held), raw::PORT_ROOM);
            addr_of_mut!((*at).bus).write(hardware.bus);
            &mut *at
        };
        it.init(limits, units, picker, hardware, credits)?;
        Ok(it)
    }

    fn room(bus: BusKind) -> Self {
        Self { held: Held::room(raw::PORT_ROOM), bus }
    }

    fn init(
        &mut self,
        limits: &Limits,
        units: &[Unit],
        picker: Picker,
        hardware: Hardware,
        credits: u32,
    ) -> Result<(), Error> {
        let (limits, units, hardware) = (raw::Limits::from(*limits), Units::new(units), hardware.into());
        let (handle, list) = (self.held.handle(), units.list.as_ptr());
        // SAFETY: the handle is that of memory of ours, in which nothing was made; all else is there.
        let status =
            unsafe { raw::mscp_port_init_at(handle, &limits, list, units.count, picker.number(), &hardware, credits) };
        checked(status).map(drop)
    }

    // ---- registers

    /// The host reads IP, the first register, which shows 0.
    pub fn read_ip(&mut self) -> u16 {
        // SAFETY: the handle is that of a port that was made.
        never_refused(unsafe { raw::mscp_port_read_ip(self.held.handle()) });
        0
    }

    /// The host writes IP, whatever it writes there, or its bus is reset: the port forgets all that its host has said. Volumes
    /// stay.
    pub fn write_ip(&mut self) {
        // SAFETY: the handle is that of a port that was made.
        never_refused(unsafe { raw::mscp_port_write_ip(self.held.handle()) });
    }

    /// What SA shows, the second register.
    #[must_use]
    pub fn read_sa(&self) -> u16 {
        // SAFETY: the handle is that of a port that was made, and the call keeps it.
        never_refused(unsafe { raw::mscp_port_read_sa(&self.held.fixed()) }) as u16
    }

    /// The host writes this word to SA.
    pub fn write_sa(&mut self, word: u16) {
        // SAFETY: the handle is that of a port that was made.
        never_refused(unsafe { raw::mscp_port_write_sa(self.held.handle(), word) });
    }

    // ---- actions

    /// Has the machine do what the port wants: from the machine's clock, every few hundred instructions, `most` actions at
    /// most, or as many as there are until the host has to go on a little. Whether more is to be done.
    pub fn turn<B: Bus + ?Sized>(&mut self, bus: &mut B, most: u32) -> bool {
        self.look_again();
        for done in 0..most {
            match self.next() {
                None => return false,
                Some(Action::Pause) if done > 0 => return true,
                // What was wanted is done at once, so it is wanted still.
                Some(action) => drop(self.perform(bus, &action)),
            }
        }
        true
    }

    /// What the port wants done next, or `None` until a register is touched, a volume comes or goes, the clock ticks, or it is
    /// to look again. Until you report how it went the port answers the same, unless a register is touched, a volume comes, goes,
    /// or is protected or no more, the clock ticks, the port is to look again, or messages alone are asked for.
    #[allow(clippy::should_implement_trait)] // it is no end if this answers None
    pub fn next(&mut self) -> Option<Action> {
        let mut action = raw::Action::ZERO;
        // SAFETY: the handle is that of a port that was made; `action` is ours.
        let status = unsafe { raw::mscp_port_next(self.held.handle(), &mut action) };
        (never_refused(status) == status::DONE).then(|| Action::told(&action, self.bus))
    }

    /// What it wants done next while a block takes its time: no block is moved. One that was in hand is put aside, and
    /// [`Port::next`] wants it anew.
    pub fn next_message(&mut self) -> Option<Action> {
        let mut action = raw::Action::ZERO;
        // SAFETY: the handle is that of a port that was made; `action` is ours.
        let status = unsafe { raw::mscp_port_next_message(self.held.handle(), &mut action) };
        (never_refused(status) == status::DONE).then(|| Action::told(&action, self.bus))
    }

    /// Does an action on a bus, and reports how it went.
    ///
    /// # Errors
    /// [`Error::Unasked`], if the port doesn't want it any more: nothing was reported then.
    pub fn perform<B: Bus + ?Sized>(&mut self, bus: &mut B, action: &Action) -> Result<(), Error> {
        let mut bytes = [0; 64];
        let outcome = match *action {
            Action::Pause => Outcome::Done,
            Action::Read { address, count } => {
                let part = &mut bytes[..count.min(64)];
                match bus.read(address, part) {
                    Ok(()) => return self.was_read(part),
                    Err(fault) => Outcome::Bus(fault),
                }
            }
            Action::Write { address, ref bytes } => bus.write(address, bytes).into(),
            Action::Interrupt { vector } => {
                bus.interrupt(vector);
                Outcome::Done
            }
            Action::Transfer { unit, block, address, count, way, .. } => {
                transfer(bus, unit, block, address, count.min(BLOCK), way).into()
            }
        };
        self.went(outcome)
    }

    /// These bytes were read in host memory, as it wanted: just as many.
    ///
    /// # Errors
    /// [`Error::Unasked`].
    pub fn was_read(&mut self, bytes: &[u8]) -> Result<(), Error> {
        // SAFETY: the handle is that of a port that was made; there are so many bytes.
        checked(unsafe { raw::mscp_port_was_read_at(self.held.handle(), bytes.as_ptr(), bytes.len()) }).map(drop)
    }

    /// What it wanted went so. A read that was done is reported by [`Port::was_read`].
    ///
    /// # Errors
    /// [`Error::BadOutcome`] or [`Error::Unasked`].
    pub fn went(&mut self, outcome: Outcome) -> Result<(), Error> {
        let (number, status) = outcome.numbers();
        // SAFETY: the handle is that of a port that was made.
        checked(unsafe { raw::mscp_port_went(self.held.handle(), number, status) }).map(drop)
    }

    /// The block of this serial went so, which [`Port::next`] told: for a disk that takes its time. The port hears of it exactly
    /// if it wants that block now.
    ///
    /// # Errors
    /// [`Error::BadOutcome`], or [`Error::Unasked`]: its command was aborted, say, and another one has its number; or messages
    /// alone were asked for, and [`Port::next`] hasn't told the block again.
    pub fn went_by(&mut self, serial: u64, outcome: Outcome) -> Result<(), Error> {
        let (number, status) = outcome.numbers();
        // SAFETY: the handle is that of a port that was made.
        checked(unsafe { raw::mscp_port_went_by(self.held.handle(), serial, number, status) }).map(drop)
    }

    /// The port looks again whether its host has given slots for ends back, since the host doesn't say so. [`Port::turn`] does
    /// it.
    pub fn look_again(&mut self) {
        // SAFETY: the handle is that of a port that was made.
        never_refused(unsafe { raw::mscp_port_look_again(self.held.handle()) });
    }

    /// A second went by. The port looks again, too, and takes a host that was silent for too long for dead.
    pub fn tick(&mut self) {
        // SAFETY: the handle is that of a port that was made.
        never_refused(unsafe { raw::mscp_port_tick(self.held.handle()) });
    }

    // ---- volumes

    /// A volume came into a unit, in place of one that was there.
    ///
    /// # Errors
    /// [`Error::UnknownUnit`] or [`Error::BadSize`].
    pub fn volume_came(&mut self, unit: u16, medium: &Medium) -> Result<(), Error> {
        let medium = (*medium).into();
        // SAFETY: the handle is that of a port that was made; the medium is there.
        checked(unsafe { raw::mscp_port_volume_came(self.held.handle(), unit, &medium) }).map(drop)
    }

    /// The volume of a unit went.
    ///
    /// # Errors
    /// [`Error::UnknownUnit`].
    pub fn volume_went(&mut self, unit: u16) -> Result<(), Error> {
        // SAFETY: the handle is that of a port that was made.
        checked(unsafe { raw::mscp_port_volume_went(self.held.handle(), unit) }).map(drop)
    }

    /// Nothing may be written on the volume of a unit from now on, or something may again. It stays the same volume.
    ///
    /// # Errors
    /// [`Error::UnknownUnit`].
    pub fn protect(&mut self, unit: u16, is_protected: bool) -> Result<(), Error> {
        // SAFETY: the handle is that of a port that was made.
        checked(unsafe { raw::mscp_port_protect(self.held.handle(), unit, is_protected.into()) }).map(drop)
    }

    // ---- looks

    /// What kind of port it is, also of one that was restored.
    #[must_use]
    pub fn hardware(&self) -> Hardware {
        let mut hardware = raw::Hardware::ZERO;
        // SAFETY: the handle is that of a port that was made, and the call keeps it; `hardware` is ours.
        never_refused(unsafe { raw::mscp_port_hardware(&self.held.fixed(), &mut hardware) });
        hardware.into()
    }

    /// How far the port has come.
    #[must_use]
    pub fn state(&self) -> State {
        let mut state = raw::State::ZERO;
        // SAFETY: the handle is that of a port that was made, and the call keeps it; `state` is ours.
        never_refused(unsafe { raw::mscp_port_state(&self.held.fixed(), &mut state) });
        state.into()
    }

    /// What is in a unit.
    ///
    /// # Errors
    /// [`Error::UnknownUnit`].
    pub fn volume(&self, unit: u16) -> Result<Volume, Error> {
        let mut volume = raw::Volume::ZERO;
        // SAFETY: the handle is that of a port that was made, and the call keeps it; `volume` is ours.
        checked(unsafe { raw::mscp_port_volume(&self.held.fixed(), unit, &mut volume) })?;
        Ok(volume.into())
    }

    /// The step that is begun: if the port wants a block moved, its command and its block, with its serial.
    #[must_use]
    pub fn begun(&self) -> Option<Upcoming> {
        let mut upcoming = raw::Upcoming::ZERO;
        // SAFETY: the handle is that of a port that was made, and the call keeps it; `upcoming` is ours.
        let status = unsafe { raw::mscp_port_begun(&self.held.fixed(), &mut upcoming) };
        (never_refused(status) == status::DONE).then(|| upcoming.into())
    }

    /// The limits and units of its controller.
    #[must_use]
    pub fn settings(&self) -> Settings {
        let (mut limits, mut units) = (raw::Limits::ZERO, [raw::Unit::ZERO; UNITS_MAX]);
        let (handle, list, room) = (self.held.fixed(), units.as_mut_ptr(), units.len());
        // SAFETY: the handle is that of a port that was made, and the call keeps it; the rest is ours.
        let count = unsafe { raw::mscp_port_settings_at(&handle, &mut limits, list, room) };
        Settings { limits: limits.into(), units: List::of(&units, never_refused(count) as usize, Unit::from) }
    }

    /// The commands that wait in its controller with their figures, oldest first. The host's are those of the first connection.
    #[must_use]
    pub fn look(&self) -> List<Waiting, COMMANDS_MAX> {
        let mut list = [raw::Waiting::ZERO; COMMANDS_MAX];
        // SAFETY: the handle is that of a port that was made, and the call keeps it; the list has that room.
        let count = unsafe { raw::mscp_port_look_at(&self.held.fixed(), list.as_mut_ptr(), list.len()) };
        List::of(&list, never_refused(count) as usize, Waiting::from)
    }

    /// The commands that keep one of them back, oldest first.
    #[must_use]
    pub fn why(&self, connection: Connection, reference: u32) -> List<Holder, COMMANDS_MAX> {
        let mut list = [raw::Holder::ZERO; COMMANDS_MAX];
        let (handle, number, room) = (self.held.fixed(), connection.number(), list.len());
        // SAFETY: the handle is that of a port that was made, and the call keeps it; the list has that room.
        let count = unsafe { raw::mscp_port_why_at(&handle, number, reference, list.as_mut_ptr(), room) };
        List::of(&list, never_refused(count) as usize, Holder::from)
    }

    // ---- bytes

    /// All of the port, as bytes, with its controller.
    #[must_use]
    pub fn save(&self) -> List<u8, PORT_SAVED_MAX> {
        let (mut bytes, mut length) = ([0; PORT_SAVED_MAX], 0);
        let (handle, room) = (self.held.fixed(), bytes.len());
        // SAFETY: the handle is that of a port that was made, and the call keeps it; the bytes are that room.
        never_refused(unsafe { raw::mscp_port_save_at(&handle, bytes.as_mut_ptr(), room, &mut length) });
        List::new(bytes, length)
    }

    /// The port that was saved, on a bus of this kind: it wants again what it wanted.
    ///
    /// # Errors
    /// The first fault of the bytes; or [`Error::BadBus`], if the port was on another bus.
    pub fn restore(bytes: &[u8], bus: BusKind) -> Result<Self, Error> {
        let mut it = Self::room(bus);
        // SAFETY: the handle is that of memory of ours, in which nothing was made; there are so many bytes.
        checked(unsafe { raw::mscp_port_restore_at(it.held.handle(), bytes.as_ptr(), bytes.len()) })?;
        if it.hardware().bus != bus {
            return Err(Error::BadBus);
        }
        Ok(it)
    }
}

/// Its bus, how far it has come, and what waits in its controller.
impl fmt::Debug for Port {
    fn fmt(&self, to: &mut fmt::Formatter<'_>) -> fmt::Result {
        let mut it = to.debug_struct("Port");
        it.field("bus", &self.bus).field("state", &self.state()).field("waiting", &self.look()).finish_non_exhaustive()
    }
}
