//! Words for opcodes and statuses: those of the tables of the proved library.

use core::fmt;

use crate::{End, Opcode};

/// What the manual calls a command of this opcode.
pub(crate) const fn opcode_name(opcode: u8) -> &'static str {
    match opcode {
        1 => "ABORT",
        2 => "GET COMMAND STATUS",
        3 => "GET UNIT STATUS",
        4 => "SET CONTROLLER CHARACTERISTICS",
        8 => "AVAILABLE",
        9 => "ONLINE",
        10 => "SET UNIT CHARACTERISTICS",
        11 => "DETERMINE ACCESS PATHS",
        16 => "ACCESS",
        17 => "COMPARE CONTROLLER DATA",
        18 => "ERASE",
        19 => "FLUSH",
        20 => "REPLACE",
        32 => "COMPARE HOST DATA",
        33 => "READ",
        34 => "WRITE",
        24 | 47 => "FORMAT",
        _ => "command of an unknown opcode",
    }
}

/// Words for the status of an end: the manual's name of its code, and what its sub-code says if it has words.
#[must_use]
pub const fn status_words(status: u16) -> &'static str {
    match status {
        0x0100 => "Success: already online",
        0x0001 => "Invalid Command: message length",
        0x0801 => "Invalid Command: opcode",
        0x0C01 => "Invalid Command: byte count, or MSCP version",
        0x1C01 => "Invalid Command: logical block number",
        0x0003 => "Unit-Offline: unknown unit",
        0x0023 => "Unit-Offline: no volume",
        0x1006 => "Write Protected: by software",
        0x2006 => "Write Protected: by hardware",
        0x0029 => "Host Buffer Access Error: odd transfer address",
        0x0049 => "Host Buffer Access Error: odd byte count",
        0x0069 => "Host Buffer Access Error: non-existent memory",
        0x0089 => "Host Buffer Access Error: memory parity error",
        0x00A9 => "Host Buffer Access Error: invalid page table entry",
        _ => code_name(status % 32),
    }
}

/// What the manual calls statuses of this code.
const fn code_name(code: u16) -> &'static str {
    match code {
        0 => "Success",
        1 => "Invalid Command",
        2 => "Command Aborted",
        3 => "Unit-Offline",
        4 => "Unit-Available",
        5 => "Media Format Error",
        6 => "Write Protected",
        7 => "Compare Error",
        8 => "Data Error",
        9 => "Host Buffer Access Error",
        10 => "Controller Error",
        11 => "Drive Error",
        _ => "unknown status",
    }
}

impl fmt::Display for Opcode {
    fn fmt(&self, to: &mut fmt::Formatter<'_>) -> fmt::Result {
        to.write_str(opcode_name(self.number()))
    }
}

/// As `READ 5 of unit 0: Success`.
impl fmt::Display for End {
    fn fmt(&self, to: &mut fmt::Formatter<'_>) -> fmt::Result {
        let (name, words) = (opcode_name(self.code % 0x80), status_words(self.status));
        write!(to, "{name} {} of unit {}: {words}", self.reference, self.unit)
    }
}
