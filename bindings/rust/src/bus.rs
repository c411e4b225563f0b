//! The machine that a port is in.

use crate::BLOCK;

/// What a machine does for its port.
///
/// An address is one of the bus, of 22 bits or 18. Mapping it is the machine's, and so is what lies there.
pub trait Bus {
    /// Reads host memory from an address on.
    ///
    /// # Errors
    /// [`BusFault`], if not all of it can be read.
    fn read(&mut self, address: u32, bytes: &mut [u8]) -> Result<(), BusFault>;

    /// Writes host memory from an address on.
    ///
    /// # Errors
    /// [`BusFault`], if not all of it can be written.
    fn write(&mut self, address: u32, bytes: &[u8]) -> Result<(), BusFault>;

    /// Interrupts the host by a vector.
    fn interrupt(&mut self, vector: u16);

    /// Reads a block of a unit's volume.
    ///
    /// # Errors
    /// [`BadBlock`], if it can't be read: its command ends with that status.
    fn read_block(&mut self, unit: u16, block: u32, bytes: &mut [u8; BLOCK]) -> Result<(), BadBlock>;

    /// Writes a block of a unit's volume.
    ///
    /// # Errors
    /// [`BadBlock`], if it can't be written: its command ends with that status.
    fn write_block(&mut self, unit: u16, block: u32, bytes: &[u8; BLOCK]) -> Result<(), BadBlock>;
}

/// Why host memory couldn't be read or written.
#[derive(Clone, Copy, Debug, PartialEq, Eq, Hash)]
pub enum BusFault {
    /// Not all of that memory is there.
    Missing,
    /// It has a parity error.
    Parity,
    /// The bus maps no memory there.
    Unmapped,
}

/// Why a block couldn't be moved: a status whose low five bits are 5 to 31.
#[derive(Clone, Copy, Debug, PartialEq, Eq, Hash)]
pub struct BadBlock(u16);

impl BadBlock {
    /// Data Error.
    pub const DATA_ERROR: Self = Self(0x0008);
    /// Drive Error.
    pub const DRIVE_ERROR: Self = Self(0x000B);

    /// That of a status, if it is one of a bad block.
    #[must_use]
    pub const fn new(status: u16) -> Option<Self> {
        if status & 0x1F >= 5 {
            Some(Self(status))
        } else {
            None
        }
    }

    /// Its status.
    #[must_use]
    pub const fn status(self) -> u16 {
        self.0
    }
}
