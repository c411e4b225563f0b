//! A host of a port that has its turns: it has rings of one slot each, and sends a command at a time.

use mscp::{Hardware, Medium, Opcode, Picker, Port};

use crate::machine::{Machine, Touch, DISK, LIMITS, UNITS};

/// A slot of a response, and one of a command.
pub const RINGS: usize = 0x100;
const RESPONSE: usize = 0x204;
const COMMAND: usize = 0x304;
/// Where its transfers have their bytes.
pub const BUFFER: usize = 0x4000;

/// The ways to make a port.
#[derive(Clone, Copy, Debug)]
pub enum Way {
    New,
    InPlace,
    Restored,
    /// Over one of the other bus.
    RestoredInPlace,
}

impl Way {
    pub const ALL: [Way; 4] = [Way::New, Way::InPlace, Way::Restored, Way::RestoredInPlace];

    pub fn make(self, hardware: Hardware) -> Box<Port> {
        let new = |it| Box::new(Port::new(&LIMITS, &UNITS, Picker::Sweep, it, 8).unwrap());
        match self {
            Way::New => new(hardware),
            Way::InPlace => {
                let mut place = Box::new(std::mem::MaybeUninit::uninit());
                assert!(Port::new_in(&mut place, &LIMITS, &UNITS, Picker::Sweep, hardware, 8).is_ok());
                // SAFETY: a port was made in the place.
                unsafe { Box::from_raw(Box::into_raw(place).cast::<Port>()) }
            }
            Way::Restored => Box::new(Port::restore(&new(hardware).save(), hardware.bus).unwrap()),
            Way::RestoredInPlace => {
                let mut it = new(if hardware.bus == mscp::BusKind::Q { Hardware::UDA50 } else { Hardware::RQDX3 });
                *it = Port::restore(&new(hardware).save(), hardware.bus).unwrap();
                it
            }
        }
    }
}

pub struct Host {
    pub port: Box<Port>,
    pub machine: Machine,
}

/// A command, of its fields that aren't 0. With `Opcode::Online` these are flags in the high half of the bytes.
#[derive(Clone, Copy)]
pub struct Asked {
    pub unit: u16,
    pub opcode: Opcode,
    pub modifiers: u16,
    pub bytes: u32,
    pub buffer: u32,
    pub lbn: u32,
}

impl Host {
    pub fn new(port: Box<Port>) -> Self {
        Self { port, machine: Machine::new() }
    }

    /// One whose port is up, with these volumes in its units, which are online.
    pub fn with(hardware: Hardware, media: [Medium; 2]) -> Self {
        let mut it = Self::new(Way::New.make(hardware));
        it.start(0);
        for (unit, medium) in UNITS.iter().zip(media) {
            it.port.volume_came(unit.number, &medium).unwrap();
            assert_eq!(it.status(Asked::online(unit.number, 0, 0)), 0);
        }
        it
    }

    pub fn online(hardware: Hardware) -> Self {
        Self::with(hardware, [DISK; 2])
    }

    /// It starts the port, with these bits in its first word: what SA shows in each step.
    pub fn start(&mut self, bits: u16) -> [u16; 4] {
        self.port.write_ip();
        [0x8000 | bits, RINGS as u16, 0, 1].map(|answer| {
            self.turn();
            let shown = self.port.read_sa();
            self.port.write_sa(answer);
            shown
        })
    }

    /// Turns, as long as there is more to be done. That is soon over.
    pub fn turn(&mut self) {
        assert!((0..20).any(|_| !self.port.turn(&mut self.machine, 1000)));
    }

    /// Writes a command into its slot, and says so.
    pub fn ask(&mut self, it: Asked) {
        let (opcode, modifiers) = (u32::from(it.opcode.number()), u32::from(it.modifiers) << 16);
        let words = [32, 0x0403_0201, it.unit.into(), opcode | modifiers, it.bytes, it.buffer, 0, 0, it.lbn];
        words.iter().enumerate().for_each(|(i, word)| self.machine.put(COMMAND - 4 + 4 * i, *word));
        self.machine.put(RINGS + 4, 0x8000_0000 | COMMAND as u32);
        self.port.read_ip();
    }

    /// Gives the port the slot for an end.
    pub fn give(&mut self) {
        self.machine.put(RESPONSE - 4, 48);
        self.machine.put(RINGS, 0x8000_0000 | RESPONSE as u32);
    }

    /// Whether the port has given that slot back.
    pub fn is_answered(&self) -> bool {
        self.machine.memory[RINGS + 3] < 0x80
    }

    /// Sends a command, and waits for its end.
    pub fn end(&mut self, it: Asked) -> [u8; 48] {
        self.give();
        self.ask(it);
        self.turn();
        assert!(self.is_answered());
        let end: [u8; 48] = self.machine.memory[RESPONSE..RESPONSE + 48].try_into().unwrap();
        assert_eq!((&end[..4], end[8]), ([1, 2, 3, 4].as_ref(), 0x80 | it.opcode.number()));
        end
    }

    pub fn status(&mut self, it: Asked) -> u16 {
        let end = self.end(it);
        u16::from_le_bytes([end[10], end[11]])
    }

    /// The status of a transfer, and the bytes of its good blocks.
    pub fn transfer(&mut self, it: Asked) -> (u16, u32) {
        let end = self.end(it);
        (u16::from_le_bytes([end[10], end[11]]), u32::from_le_bytes([end[12], end[13], end[14], end[15]]))
    }

    pub fn buffer(&mut self) -> &mut [u8] {
        &mut self.machine.memory[BUFFER..BUFFER + 2048]
    }

    /// Whether a block of unit 5 is in its buffer.
    pub fn has_block(&self, block: usize) -> bool {
        self.machine.memory[BUFFER..BUFFER + 512] == self.machine.disks[1][block]
    }

    /// What was asked of the machine in its buffer and on its disks, since that was asked.
    pub fn touches(&mut self) -> Vec<Touch> {
        let is_of_buffer = |it: &Touch| match *it {
            Touch::Read(address, _) | Touch::Write(address, _) => address as usize >= BUFFER,
            _ => true,
        };
        std::mem::take(&mut self.machine.touches).into_iter().filter(is_of_buffer).collect()
    }
}

impl Asked {
    pub fn online(unit: u16, modifiers: u16, flags: u16) -> Self {
        let bytes = u32::from(flags) << 16;
        Self { unit, opcode: Opcode::Online, modifiers, bytes, buffer: 0, lbn: 0 }
    }

    /// A transfer of unit 5.
    pub fn moves(opcode: Opcode, bytes: u32, lbn: u32) -> Self {
        Self { unit: 5, opcode, modifiers: 0, bytes, buffer: BUFFER as u32, lbn }
    }
}
