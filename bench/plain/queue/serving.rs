//! What a step does.

use super::*;

/// What a step did.
pub struct Served {
    pub slot: usize,
    pub place: usize, // of its unit
    pub block: Option<u32>,
    #[allow(dead_code)] // C is told it, and no report
    pub has_started: bool,
    pub seek: u32,
    pub ended: Option<u16>,
}

impl Queue {
    /// A command starts. Its slot.
    #[inline]
    fn start(&mut self) -> usize {
        let oldest = usize::from(self.order.next(ORDER) & 63);
        let room = self.figure(oldest) - self.slots[oldest].weight;
        let slot = match &mut self.sweep {
            Some(picker) if self.waiting & (self.waiting - 1) != 0 => {
                picker.pick(&self.slots, &self.drives, oldest, room, self.limits.longest)
            }
            _ => oldest,
        };
        self.stamps[slot & 63] = self.clock.wrapping_add(self.slots[slot & 63].weight);
        slot
    }

    /// A step, whose block is good if it has no status.
    #[inline]
    pub fn step(&mut self, bad: Option<u16>) -> Option<Served> {
        if self.waiting == 0 {
            return None;
        }
        let slot = match self.serving {
            NONE => self.start(),
            it => usize::from(it & 63),
        };
        let it = &mut self.slots[slot];
        let place = usize::from(it.place);
        let drive = &mut self.drives[place];
        if !it.is_transfer || !drive.is_online {
            return Some(self.step_aside(slot, bad));
        }
        let (block, done) = (it.command.block + it.done, it.done);
        let seek = if done == 0 { drive.start(it.cylinder) } else { drive.go_on(block) };
        let ended = match bad {
            None => {
                it.done += 1;
                self.clock = self.clock.wrapping_add(1);
                self.left -= 1;
                (it.done == it.weight).then_some(SUCCESS)
            }
            Some(_) => {
                it.command.parameter = done * 512;
                bad
            }
        };
        self.serving = slot as u8;
        if let Some(status) = ended {
            self.finish(slot, status, Body::Moved);
        }
        Some(Served { slot, place, block: Some(block), has_started: done == 0, seek, ended })
    }

    /// The command in service ends.
    #[inline]
    fn finish(&mut self, slot: usize, status: u16, body: Body) {
        self.serving = NONE;
        let left = self.slots[slot].left();
        self.clock = self.clock.wrapping_add(left);
        self.leave(slot, left);
        self.end(slot, status, body);
    }

    /// A step of a command that touches no block.
    fn step_aside(&mut self, slot: usize, bad: Option<u16>) -> Served {
        let it = &mut self.slots[slot];
        let place = usize::from(it.place);
        let drive = &mut self.drives[place];
        let opcode = it.command.opcode;
        let status = if it.is_transfer {
            it.command.parameter = 0;
            UNIT_AVAILABLE
        } else {
            bad.unwrap_or_else(|| follow(drive, opcode))
        };
        self.finish(slot, status, body(opcode));
        if bad.is_some() {
            self.slots[slot].place = NOWHERE;
        }
        Served { slot, place, block: None, has_started: true, seek: 0, ended: Some(status) }
    }
}

/// A command with a good step that isn't a transfer: what becomes of its unit, and its status.
fn follow(drive: &mut Drive, opcode: u8) -> u16 {
    let was_online = drive.is_online;
    drive.is_online = opcode != AVAILABLE && (was_online || opcode == ONLINE);
    if opcode == ONLINE && was_online {
        ALREADY_ONLINE
    } else {
        SUCCESS
    }
}
