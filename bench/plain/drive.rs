//! Units, and where their heads are.

#[derive(Clone, Copy, Default)]
pub struct Unit {
    pub id: u64,
    pub number: u16,
    pub track: u16,
    pub group: u16,
    pub cylinder: u16,
    pub size: u32,
    pub media: u32,
    pub serial: u32,
}

pub struct Drive {
    pub unit: Unit,
    pub is_online: bool,
    pub is_up: bool,
    pub head: u32,
    pub last: u32, // its last cylinder
    blocks: u32,   // of a cylinder
    edge: u64,     // the first block above the head's cylinder, while a transfer is served
}

impl Drive {
    pub fn new(unit: Unit) -> Self {
        let blocks = u64::from(unit.track) * u64::from(unit.group) * u64::from(unit.cylinder);
        // With so many or more all blocks are on one cylinder.
        let blocks = u32::try_from(blocks).unwrap_or(u32::MAX);
        Self { unit, is_online: false, is_up: true, head: 0, last: (unit.size - 1) / blocks, blocks, edge: 0 }
    }

    #[inline]
    pub fn cylinder(&self, block: u32) -> u32 {
        block / self.blocks
    }

    /// The cylinders that the head crosses to this one, if it goes on its way and turns at an end of the unit.
    #[inline]
    pub fn cost(&self, cylinder: u32) -> u64 {
        let (head, to) = (i64::from(self.head), i64::from(cylinder));
        let (ahead, rest) = if self.is_up { (to - head, i64::from(self.last) - head) } else { (head - to, head) };
        (if ahead >= 0 { ahead } else { 2 * rest - ahead }) as u64
    }

    /// The head goes to the first block of a transfer, which may turn it. How many cylinders that crosses.
    #[inline]
    pub fn start(&mut self, cylinder: u32) -> u32 {
        let crossed = cylinder.abs_diff(self.head);
        if crossed > 0 {
            self.is_up = cylinder > self.head;
        }
        self.head = cylinder;
        self.edge = (u64::from(cylinder) + 1) * u64::from(self.blocks);
        crossed
    }

    /// It goes to the next block of one.
    #[inline]
    pub fn go_on(&mut self, block: u32) -> u32 {
        if u64::from(block) < self.edge {
            return 0;
        }
        self.head += 1;
        self.edge += u64::from(self.blocks);
        1
    }
}
