//! The queue as one writes it by hand for speed. It keeps the same rules as the proved one, and nothing says so but
//! that the reports are the same.
//!
//! A step takes as much from the figure of each command but that in service. So a clock counts what was taken, and of
//! each command the sum of its figure and of the clock is kept, which changes at aborts alone. What is left of the
//! oldest one's budget is its figure less its own blocks, and no other one has less left.

use crate::drive::{Drive, Unit};
use crate::picker::Picker;
use crate::slot::*;

mod serving;

const SUCCESS: u16 = 0;
const ALREADY_ONLINE: u16 = 0x0100;
pub const INVALID_OPCODE: u16 = 0x0801;
const INVALID_BYTE_COUNT: u16 = 0x0C01;
const INVALID_BLOCK: u16 = 0x1C01;
const ABORTED: u16 = 2;
const UNIT_OFFLINE: u16 = 3;
const UNIT_AVAILABLE: u16 = 4;

/// The list of those that wait.
const ORDER: u8 = 64;
const NOWHERE: u8 = 255;

pub struct Limits {
    pub id: u64,
    pub budget: u32,
    pub credits: u32,
    pub longest: u32,
    pub timeout: u16,
}

pub enum Sent {
    Queued(#[allow(dead_code)] usize), // reports have its slot
    Answered,
    Aborted(u32),
}

#[derive(Clone, Copy, PartialEq)]
pub enum Refused {
    NoCredit,
    LastCredit,
    Doubled,
}

pub struct Queue {
    pub limits: Limits,
    pub drives: Vec<Drive>,
    pub slots: [Slot; SLOTS],
    places: [u8; 256], // of units, by the low byte of their numbers
    names: Names,
    free: u64,    // the slots of no command
    waiting: u64, // those whose command waits
    credits: u32, // that are free
    order: Chains,
    sweep: Option<Box<Picker>>, // or the oldest starts
    serving: u8,
    stamps: [u32; SLOTS],   // of each that waits its figure and the clock, when it came
    arrivals: [u32; SLOTS], // as the slots have them
    last_arrival: u32,
    clock: u32,
    left: u32, // of all that wait
    ends: [u8; SLOTS],
    oldest_end: u8,
    next_end: u8,
}

impl Queue {
    pub fn new(limits: Limits, units: &[Unit], sweeps: bool) -> Self {
        let drives: Vec<Drive> = units.iter().map(|it| Drive::new(*it)).collect();
        let mut places = [NOWHERE; 256];
        for (place, unit) in units.iter().enumerate() {
            places[usize::from(unit.number as u8)] = place as u8;
        }
        // Without a budget the sweep has no choice.
        let sweeps = sweeps && limits.budget > 0;
        Self {
            credits: limits.credits,
            limits,
            sweep: sweeps.then(|| Box::new(Picker::new(&drives))),
            drives,
            slots: [Slot::default(); SLOTS],
            places,
            names: Names::new(),
            free: !0,
            waiting: 0,
            order: Chains::new(),
            serving: NONE,
            stamps: [0; SLOTS],
            arrivals: [0; SLOTS],
            last_arrival: 0,
            clock: 0,
            left: 0,
            ends: [0; SLOTS],
            oldest_end: 0,
            next_end: 0,
        }
    }

    #[allow(dead_code)] // a report's last line has it
    pub fn waiting(&self) -> u32 {
        self.waiting.count_ones()
    }

    #[inline]
    fn refused(&self, command: &Command) -> Option<Refused> {
        if self.credits == 0 {
            Some(Refused::NoCredit)
        } else if self.credits == 1 && !command.is_immediate() {
            Some(Refused::LastCredit)
        } else {
            self.names.find(command.reference, &self.slots).map(|_| Refused::Doubled)
        }
    }

    #[inline]
    pub fn send(&mut self, command: Command) -> Result<Sent, Refused> {
        match self.refused(&command) {
            Some(why) => Err(why),
            None if command.is_transfer() => Ok(self.send_transfer(command)),
            None => Ok(self.send_other(command)),
        }
    }

    /// Where a unit stands.
    #[inline]
    fn place(&self, number: u16) -> Option<usize> {
        let place = usize::from(self.places[usize::from(number as u8)]);
        match self.drives.get(place) {
            Some(it) if it.unit.number == number => Some(place),
            Some(_) => self.drives.iter().position(|it| it.unit.number == number),
            None => None,
        }
    }

    #[inline]
    fn send_transfer(&mut self, command: Command) -> Sent {
        let Some(place) = self.place(command.unit) else {
            return self.answer(command, UNIT_OFFLINE, Body::Moved, 0);
        };
        let drive = &self.drives[place];
        let weight = command.parameter.div_ceil(512).max(1);
        if command.block >= drive.unit.size {
            return self.answer(command, INVALID_BLOCK, Body::Moved, 0);
        }
        if weight > drive.unit.size - command.block || weight > self.limits.longest {
            return self.answer(command, INVALID_BYTE_COUNT, Body::Moved, 0);
        }
        let cylinder = drive.cylinder(command.block);
        self.wait(command, place, weight, cylinder, true)
    }

    fn send_other(&mut self, command: Command) -> Sent {
        match command.opcode {
            ABORT => return self.abort(command),
            GET_COMMAND_STATUS => return self.poll(command),
            SET_CONTROLLER => return self.answer(command, SUCCESS, Body::Controller, 0),
            GET_UNIT_STATUS | AVAILABLE | ONLINE | SET_UNIT => {}
            _ => return self.answer(command, INVALID_OPCODE, Body::Bare, 0),
        }
        let Some(place) = self.place(command.unit) else {
            return self.answer(command, UNIT_OFFLINE, body(command.opcode), 0);
        };
        if command.opcode != GET_UNIT_STATUS {
            return self.wait(command, place, 1, 0, false);
        }
        let status = if self.drives[place].is_online { SUCCESS } else { UNIT_AVAILABLE };
        let slot = self.end_at_once(command, status, Body::Unit, 0);
        self.slots[slot].place = place as u8;
        Sent::Answered
    }

    /// A command takes a free slot.
    #[inline]
    fn enter(&mut self, command: &Command) -> usize {
        let slot = self.free.trailing_zeros() as usize & 63;
        self.free &= self.free - 1;
        self.credits -= 1;
        self.names.turn(command.reference, slot);
        slot
    }

    #[inline]
    fn wait(&mut self, command: Command, place: usize, weight: u32, cylinder: u32, is_transfer: bool) -> Sent {
        let slot = self.enter(&command);
        self.waiting |= 1 << slot;
        self.last_arrival = self.last_arrival.wrapping_add(1);
        self.left += weight;
        self.stamps[slot] = (self.left + self.limits.budget).wrapping_add(self.clock);
        self.arrivals[slot] = self.last_arrival;
        let it = &mut self.slots[slot];
        it.command = command;
        it.arrival = self.last_arrival;
        it.cylinder = cylinder;
        it.weight = weight;
        it.done = 0;
        it.place = place as u8;
        it.is_transfer = is_transfer;
        self.order.push(ORDER, slot as u8);
        if let Some(picker) = &mut self.sweep {
            picker.insert(slot, &self.slots, &self.drives);
        }
        Sent::Queued(slot)
    }

    #[inline]
    fn end_at_once(&mut self, command: Command, status: u16, body: Body, figure: u32) -> usize {
        let slot = self.enter(&command);
        let it = &mut self.slots[slot];
        (it.command, it.figure, it.place) = (command, figure, NOWHERE);
        if body == Body::Moved {
            it.command.parameter = 0;
        }
        self.end(slot, status, body);
        slot
    }

    #[inline]
    fn answer(&mut self, command: Command, status: u16, body: Body, figure: u32) -> Sent {
        self.end_at_once(command, status, body, figure);
        Sent::Answered
    }

    /// The end of a slot's command stands behind all others.
    #[inline]
    fn end(&mut self, slot: usize, status: u16, body: Body) {
        let it = &mut self.slots[slot];
        (it.status, it.body) = (status, body);
        self.ends[usize::from(self.next_end & 63)] = slot as u8;
        self.next_end = self.next_end.wrapping_add(1);
    }

    /// The slot of a command that waits.
    #[inline]
    fn find(&self, reference: u32) -> Option<usize> {
        let slot = self.names.find(reference, &self.slots)?;
        (self.waiting >> slot & 1 == 1).then_some(slot)
    }

    #[inline]
    fn poll(&mut self, command: Command) -> Sent {
        let figure = self.find(command.parameter).map_or(0, |it| self.figure(it));
        self.answer(command, SUCCESS, Body::Status, figure)
    }

    #[inline]
    fn figure(&self, slot: usize) -> u32 {
        self.stamps[slot].wrapping_sub(self.clock)
    }

    /// The slot and the figure of each waiting command, oldest first.
    #[allow(dead_code)] // reports have it
    #[inline]
    pub fn figures(&self) -> impl Iterator<Item = (usize, u32)> + '_ {
        let mut at = ORDER;
        std::iter::from_fn(move || {
            at = self.order.next(at);
            (at != ORDER).then(|| (usize::from(at & 63), self.figure(usize::from(at & 63))))
        })
    }

    fn abort(&mut self, command: Command) -> Sent {
        let Some(slot) = self.find(command.parameter) else {
            return self.answer(command, SUCCESS, Body::Abort, 0);
        };
        self.take_back(slot);
        let it = &mut self.slots[slot];
        if it.is_transfer {
            it.command.parameter = it.done * 512;
        }
        it.place = NOWHERE;
        let body = body(it.command.opcode);
        self.end(slot, ABORTED, body);
        self.answer(command, SUCCESS, Body::Abort, 0);
        Sent::Aborted(command.parameter)
    }

    /// What an aborted command had left goes from the figures: of all if it was in service, or of those after it.
    fn take_back(&mut self, slot: usize) {
        let left = self.slots[slot].left();
        if usize::from(self.serving) == slot {
            self.serving = NONE;
            self.clock = self.clock.wrapping_add(left);
        } else {
            let since = self.arrivals[slot];
            // Of slots that have no command it does no harm, and four go at once.
            for (stamp, arrival) in self.stamps.iter_mut().zip(&self.arrivals) {
                *stamp = stamp.wrapping_sub(if is_later(*arrival, since) { left } else { 0 });
            }
            if let Some(it) = self.slots.get(usize::from(self.serving)) {
                self.stamps[usize::from(self.serving)] = self.clock.wrapping_add(it.left());
            }
        }
        self.leave(slot, left);
    }

    /// A command waits no longer, and had so much left.
    #[inline]
    fn leave(&mut self, slot: usize, left: u32) {
        self.waiting &= !(1 << slot);
        self.left -= left;
        self.order.remove(slot as u8);
        if let Some(picker) = &mut self.sweep {
            picker.remove(slot, &self.slots);
        }
    }

    /// The oldest end is taken: its slot is free then, and tells of the end until the next message.
    #[inline]
    pub fn take(&mut self) -> Option<usize> {
        if self.oldest_end == self.next_end {
            return None;
        }
        let slot = usize::from(self.ends[usize::from(self.oldest_end & 63)] & 63);
        self.oldest_end = self.oldest_end.wrapping_add(1);
        self.free |= 1 << slot;
        self.credits += 1;
        self.names.turn(self.slots[slot].command.reference, slot);
        Some(slot)
    }

    /// What an end tells of its unit.
    pub fn unit(&self, it: &Slot) -> Unit {
        self.drives.get(usize::from(it.place)).map_or(Unit::default(), |drive| drive.unit)
    }
}

/// What an end of this opcode has.
fn body(opcode: u8) -> Body {
    match opcode {
        GET_UNIT_STATUS => Body::Unit,
        ONLINE | SET_UNIT => Body::Online,
        AVAILABLE => Body::Bare,
        _ => Body::Moved,
    }
}
