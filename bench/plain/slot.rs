//! What the queue keeps of a command, and in which orders: each command has one of 64 slots from its message until its
//! end is taken, so a set of commands is a word of 64 bits.

pub const SLOTS: usize = 64;
/// No slot, where a byte names one.
pub const NONE: u8 = 255;

pub const ABORT: u8 = 1;
pub const GET_COMMAND_STATUS: u8 = 2;
pub const GET_UNIT_STATUS: u8 = 3;
pub const SET_CONTROLLER: u8 = 4;
pub const AVAILABLE: u8 = 8;
pub const ONLINE: u8 = 9;
pub const SET_UNIT: u8 = 10;
pub const ACCESS: u8 = 16;
pub const ERASE: u8 = 18;
pub const COMPARE: u8 = 32;
pub const READ: u8 = 33;
pub const WRITE: u8 = 34;

/// A set of opcodes, a bit each.
const fn set(opcodes: &[u8]) -> u64 {
    let (mut bits, mut at) = (0, 0);
    while at < opcodes.len() {
        bits |= 1 << opcodes[at];
        at += 1;
    }
    bits
}

const IMMEDIATE: u64 = set(&[ABORT, GET_COMMAND_STATUS, GET_UNIT_STATUS, SET_CONTROLLER]);
const TRANSFERS: u64 = set(&[ACCESS, ERASE, COMPARE, READ, WRITE]);

/// What a message asks for.
#[derive(Clone, Copy, Default)]
pub struct Command {
    pub reference: u32,
    pub parameter: u32, // bytes of a transfer, or another command's number
    pub block: u32,
    pub unit: u16, // its number
    pub opcode: u8,
}

impl Command {
    /// It goes to blocks.
    #[inline]
    pub fn is_transfer(&self) -> bool {
        self.opcode < 64 && TRANSFERS >> self.opcode & 1 == 1
    }

    /// It is answered when it comes.
    #[inline]
    pub fn is_immediate(&self) -> bool {
        self.opcode < 64 && IMMEDIATE >> self.opcode & 1 == 1
    }
}

/// What an end message has from byte 12 on.
#[derive(Clone, Copy, Default, PartialEq)]
pub enum Body {
    #[default]
    Bare,
    Abort,
    Status,
    Unit,
    Controller,
    Online,
    Moved,
}

/// A command that waits, or its end. They lie in lines of a cache.
#[derive(Clone, Copy, Default)]
#[repr(align(64))]
pub struct Slot {
    pub command: Command, // at the end of a transfer its parameter is the bytes that were moved
    pub arrival: u32,     // how many came before, of which the high bits are lost
    pub cylinder: u32,
    pub weight: u32,
    pub done: u32,
    pub figure: u32, // of another command, which this one's end tells
    pub status: u16,
    pub place: u8, // of its unit; none, in an end that has zeros for what it tells of a unit
    pub is_transfer: bool,
    pub body: Body,
}

impl Slot {
    /// It came before another that waits, if fewer than 2^31 have come since.
    #[inline]
    pub fn is_older(&self, other: &Self) -> bool {
        is_later(other.arrival, self.arrival)
    }

    #[inline]
    pub fn left(&self) -> u32 {
        self.weight - self.done
    }
}

/// One arrival is after another.
#[inline]
pub fn is_later(arrival: u32, other: u32) -> bool {
    arrival.wrapping_sub(other) as i32 > 0
}

/// The slots of the bits of a word, from the lowest on.
pub struct Bits(pub u64);

impl Iterator for Bits {
    type Item = usize;

    #[inline]
    fn next(&mut self) -> Option<usize> {
        if self.0 == 0 {
            return None;
        }
        let lowest = self.0.trailing_zeros() as usize;
        self.0 &= self.0 - 1;
        Some(lowest)
    }
}

/// Lists of slots, linked both ways. Slots have the numbers below 64, and each list has a number above, where its ends
/// are: so no step asks whether there is a neighbour.
pub struct Chains {
    next: [u8; 256],
    back: [u8; 256],
}

impl Chains {
    /// Empty lists.
    pub fn new() -> Self {
        let itself = std::array::from_fn(|it| it as u8);
        Self { next: itself, back: itself }
    }

    #[inline]
    pub fn next(&self, of: u8) -> u8 {
        self.next[usize::from(of)]
    }

    #[inline]
    pub fn is_empty(&self, list: u8) -> bool {
        self.next(list) == list
    }

    /// A slot becomes the last.
    #[inline]
    pub fn push(&mut self, list: u8, slot: u8) {
        let last = self.back[usize::from(list)];
        self.back[usize::from(slot)] = last;
        self.next[usize::from(slot)] = list;
        self.next[usize::from(last)] = slot;
        self.back[usize::from(list)] = slot;
    }

    #[inline]
    pub fn remove(&mut self, slot: u8) {
        let (back, next) = (self.back[usize::from(slot)], self.next[usize::from(slot)]);
        self.next[usize::from(back)] = next;
        self.back[usize::from(next)] = back;
    }
}

/// Who has which reference number: the slots by the low byte of theirs. Hosts count upwards, so that few share one.
pub struct Names {
    slots: [u64; 256],
}

impl Names {
    pub fn new() -> Self {
        Self { slots: [0; 256] }
    }

    /// A slot comes or goes.
    #[inline]
    pub fn turn(&mut self, reference: u32, slot: usize) {
        self.slots[usize::from(reference as u8)] ^= 1 << slot;
    }

    #[inline]
    pub fn find(&self, reference: u32, slots: &[Slot; SLOTS]) -> Option<usize> {
        Bits(self.slots[usize::from(reference as u8)]).find(|it| slots[*it].command.reference == reference)
    }
}
