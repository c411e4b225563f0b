//! The machine that ports are tried in.

use mscp::{BadBlock, Bus, BusFault, BusKind, Hardware, Limits, Medium, Unit, BLOCK};

pub const LIMITS: Limits = Limits { id: 7, budget: 64, credits: 9, second: 0, longest: 64, timeout: 60 };
pub const UNITS: [Unit; 2] = [
    Unit { id: 3, number: 0, size: 64, media: 5, serial: 9, track: 4, group: 2, cylinder: 1 },
    Unit { id: 4, number: 5, size: 48, media: 8, serial: 7, track: 3, group: 1, cylinder: 4 },
];
/// What is put into a unit.
pub const DISK: Medium = Medium { size: 48, media: 6, is_protected: false, is_removable: true };
/// Hardware of each bus, with models and versions that differ from each other.
pub const KINDS: [Hardware; 4] = [
    Hardware::RQDX3,
    Hardware::UDA50,
    Hardware { bus: BusKind::Uni, model: 0xFF, software: 0xFE, version: 0xFD },
    Hardware { bus: BusKind::Q, model: 77, software: 15, version: 0 },
];
pub const MEMORY: usize = 1 << 15;
/// Addresses behind the memory, on each bus, and what is wrong there.
pub const FAULTS: [(u32, BusFault); 3] =
    [(0x1_0000, BusFault::Missing), (0x2_0000, BusFault::Unmapped), (0x3_0000, BusFault::Parity)];
/// Blocks that can't be moved, with their statuses: of these two one that can't be read, and one that can't be written.
pub const BAD_TO_READ: (u32, u16) = (13, 0x0008);
pub const BAD_TO_WRITE: (u32, u16) = (14, 0x0025);
/// And one that can't be either.
pub const BAD: (u32, u16) = (15, 0x000B);

/// What the machine was asked for.
#[derive(Clone, Copy, Debug, PartialEq)]
pub enum Touch {
    Read(u32, usize),
    Write(u32, usize),
    Interrupt(u16),
    ReadBlock(u16, u32),
    WriteBlock(u16, u32),
}

#[derive(Clone, PartialEq)]
pub struct Machine {
    pub memory: Vec<u8>,
    pub disks: [Vec<[u8; BLOCK]>; 2],
    pub touches: Vec<Touch>,
}

impl Machine {
    pub fn new() -> Self {
        let block = |unit: u32, block: u32| {
            std::array::from_fn(|i| (i as u32 * 7 + (i as u32 >> 8) + block * 5 + unit * 3) as u8 ^ 0x5A)
        };
        let disk = |i: usize| (0..UNITS[i].size).map(|it| block(i as u32, it)).collect();
        Self { memory: vec![0; MEMORY], disks: [disk(0), disk(1)], touches: vec![] }
    }

    fn part(&mut self, address: u32, count: usize) -> Result<&mut [u8], BusFault> {
        let fault = FAULTS[(address as usize >> 16).saturating_sub(1) % 3].1;
        self.memory.get_mut(address as usize..).and_then(|it| it.get_mut(..count)).ok_or(fault)
    }

    pub fn put(&mut self, address: usize, word: u32) {
        self.memory[address..address + 4].copy_from_slice(&word.to_le_bytes());
    }

    /// The disk of a unit.
    pub fn disk(&mut self, unit: u16) -> &mut [[u8; BLOCK]] {
        let at = UNITS.iter().position(|it| it.number == unit);
        &mut self.disks[at.unwrap()]
    }
}

impl Bus for Machine {
    fn read(&mut self, address: u32, bytes: &mut [u8]) -> Result<(), BusFault> {
        self.touches.push(Touch::Read(address, bytes.len()));
        bytes.copy_from_slice(self.part(address, bytes.len())?);
        Ok(())
    }

    fn write(&mut self, address: u32, bytes: &[u8]) -> Result<(), BusFault> {
        self.touches.push(Touch::Write(address, bytes.len()));
        self.part(address, bytes.len())?.copy_from_slice(bytes);
        Ok(())
    }

    fn interrupt(&mut self, vector: u16) {
        self.touches.push(Touch::Interrupt(vector));
    }

    fn read_block(&mut self, unit: u16, block: u32, bytes: &mut [u8; BLOCK]) -> Result<(), BadBlock> {
        self.touches.push(Touch::ReadBlock(unit, block));
        match block {
            13 => return Err(BadBlock::DATA_ERROR),
            15 => return Err(BadBlock::DRIVE_ERROR),
            _ => *bytes = self.disk(unit)[block as usize],
        }
        Ok(())
    }

    fn write_block(&mut self, unit: u16, block: u32, bytes: &[u8; BLOCK]) -> Result<(), BadBlock> {
        self.touches.push(Touch::WriteBlock(unit, block));
        match block {
            14 => return Err(BadBlock::new(0x0025).unwrap()),
            15 => return Err(BadBlock::DRIVE_ERROR),
            _ => self.disk(unit)[block as usize] = *bytes,
        }
        Ok(())
    }
}
