//! A port of C's, called directly.

use mscp::raw::{self, status};
use mscp::{Bus, BusFault, BusKind, Hardware, Picker, BLOCK};

use crate::common::{InC as _, Raw};
use crate::machine::{Machine, LIMITS, UNITS};

/// C's port, and what port.c does for one.
pub struct InC {
    pub port: Raw,
    pub machine: Machine,
    /// The bits that an address of its bus has.
    pub lines: u32,
}

impl InC {
    pub fn new(machine: Machine, hardware: Hardware, picker: Picker) -> Self {
        let mut port = Raw::new(raw::PORT_SIZE, raw::PORT_ROOM);
        let (limits, units, kind) = (LIMITS.in_c(), UNITS.map(|it| it.in_c()), hardware.in_c());
        let (handle, list, picker) = (port.handle(), units.as_ptr(), picker as u32);
        // SAFETY: the handle is that of memory of its own, in which nothing was made; all else is there.
        let status = unsafe { raw::mscp_port_init_at(handle, &limits, list, units.len(), picker, &kind, 8) };
        assert_eq!(status, status::DONE);
        let lines = match hardware.bus {
            BusKind::Q => 0x3F_FFFF,
            BusKind::Uni => 0x3_FFFF,
        };
        Self { port, machine, lines }
    }

    /// The next action, of messages alone or of all, or nothing.
    pub fn next(&mut self, is_message: bool) -> Option<raw::Action> {
        let mut action = raw::Action::ZERO;
        // SAFETY: the handle is that of a port that was made; `action` is there.
        let status = unsafe {
            if is_message {
                raw::mscp_port_next_message(self.port.handle(), &mut action)
            } else {
                raw::mscp_port_next(self.port.handle(), &mut action)
            }
        };
        (status == status::DONE).then_some(action)
    }

    fn went<T>(&mut self, it: Result<T, BusFault>) -> i32 {
        let number = match it {
            Ok(_) => 0,
            Err(BusFault::Missing) => 1,
            Err(BusFault::Parity) => 2,
            Err(BusFault::Unmapped) => 3,
        };
        self.tell(number, 0)
    }

    fn tell(&mut self, outcome: u32, block: u16) -> i32 {
        // SAFETY: the handle is that of a port that was made.
        unsafe { raw::mscp_port_went(self.port.handle(), outcome, block) }
    }

    /// Does actions as port.c does in a turn.
    pub fn turn(&mut self, most: u32) -> bool {
        // SAFETY: the handle is that of a port that was made.
        assert_eq!(unsafe { raw::mscp_port_look_again(self.port.handle()) }, status::DONE);
        for done in 0..most {
            match self.next(false) {
                None => return false,
                Some(it) if it.kind == 1 && done > 0 => return true,
                Some(it) => {
                    let _ = self.perform(&it);
                }
            }
        }
        true
    }

    /// Does an action, and tells how it went.
    pub fn perform(&mut self, it: &raw::Action) -> i32 {
        let (address, count) = (it.address & self.lines, it.count as usize);
        let mut bytes = [0; BLOCK];
        match it.kind {
            2 => match self.machine.read(address, &mut bytes[..count]) {
                // SAFETY: the handle is that of a port that was made; there are so many bytes.
                Ok(()) => unsafe { raw::mscp_port_was_read_at(self.port.handle(), bytes.as_ptr(), count) },
                fault => self.went(fault),
            },
            3 => {
                let it = self.machine.write(address, &it.bytes[..count]);
                self.went(it)
            }
            4 => {
                self.machine.interrupt(it.vector);
                self.tell(0, 0)
            }
            5 => self.transfer(it, address, count),
            _ => self.tell(0, 0),
        }
    }

    fn transfer(&mut self, it: &raw::Action, address: u32, count: usize) -> i32 {
        let (mut here, mut there) = ([0; BLOCK], [0; BLOCK]);
        if it.opcode == 34 || it.opcode == 32 {
            if let Err(fault) = self.machine.read(address, &mut here[..count]) {
                return self.went::<()>(Err(fault));
            }
        }
        let went = match it.opcode {
            34 | 18 => self.machine.write_block(it.unit, it.block, &here),
            _ => self.machine.read_block(it.unit, it.block, &mut there),
        };
        match went {
            Ok(()) if it.opcode == 32 && there[..count] != here[..count] => self.tell(4, 0),
            Ok(()) if it.opcode == 33 => {
                let it = self.machine.write(address, &there[..count]);
                self.went(it)
            }
            Ok(()) => self.tell(0, 0),
            Err(block) => self.tell(5, block.status()),
        }
    }

    pub fn saved(&mut self) -> Vec<u8> {
        let (mut bytes, mut length) = (vec![0; mscp::PORT_SAVED_MAX], 0);
        // SAFETY: the handle is that of a port that was made; the bytes are that room.
        let status =
            unsafe { raw::mscp_port_save_at(self.port.handle(), bytes.as_mut_ptr(), bytes.len(), &mut length) };
        assert_eq!(status, status::DONE);
        bytes.truncate(length);
        bytes
    }
}
