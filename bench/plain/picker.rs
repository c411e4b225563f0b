//! Which command starts, by the sweep: a choice for each unit, which is kept until the unit's head moves or its free
//! commands change, and the cheapest of these.
//!
//! A free transfer is one before the unit's oldest sequential command, its fence. Those behind the fence stand in a
//! list until it opens. The cylinders of a unit are cut into 64 ranges, each with the set of its free transfers, and a
//! word says in which ranges there are any. So the nearest one is found by counting zeros of a word.

use crate::drive::Drive;
use crate::slot::{Bits, Chains, Slot, NONE, SLOTS};

/// The cost where there is no command.
const NOTHING: u64 = u64::MAX;
/// The list behind the first unit's fence.
const BEHIND: u8 = 64;

/// The free transfers of a unit.
struct Ranges {
    shift: u32, // of a cylinder's number
    taken: u64,
    slots: [u64; 64],
}

impl Ranges {
    fn new(last: u32) -> Self {
        Self { shift: (32 - last.leading_zeros()).saturating_sub(6), taken: 0, slots: [0; 64] }
    }

    #[inline]
    fn of(&self, cylinder: u32) -> usize {
        (cylinder >> self.shift & 63) as usize
    }

    #[inline]
    fn insert(&mut self, cylinder: u32, slot: usize) {
        let range = self.of(cylinder);
        self.slots[range] |= 1 << slot;
        self.taken |= 1 << range;
    }

    #[inline]
    fn remove(&mut self, cylinder: u32, slot: usize) {
        let range = self.of(cylinder);
        self.slots[range] &= !(1 << slot);
        if self.slots[range] == 0 {
            self.taken &= !(1 << range);
        }
    }

    /// The one that the sweep chooses, of one or more, and its cost. In the range of the head all may be behind it, so
    /// two ranges are looked at; or the farthest, if none is ahead.
    #[inline(always)]
    fn nearest(&self, drive: &Drive, is_up: bool, slots: &[Slot; SLOTS]) -> (usize, u64) {
        let (head, at) = (drive.head, self.of(drive.head));
        let ahead_by = |to: u32| if is_up { to.wrapping_sub(head) } else { head.wrapping_sub(to) };
        let mut ahead = self.taken & if is_up { !0 << at } else { !0 >> (63 - at) };
        while ahead != 0 {
            let range = first(ahead, is_up);
            let slot = least(self.slots[range], ahead_by, slots);
            let to = slots[slot].cylinder;
            if if is_up { to >= head } else { to <= head } {
                return (slot, ahead_by(to).into());
            }
            ahead ^= 1 << range;
        }
        let slot = least(self.slots[first(self.taken, !is_up)], |to| ahead_by(to).wrapping_neg(), slots);
        (slot, drive.cost(slots[slot].cylinder))
    }

    /// The same of those that have no more blocks than these, or are this one.
    fn nearest_within(&self, drive: &Drive, slots: &[Slot; SLOTS], room: u32, oldest: usize) -> (usize, u64) {
        let (mut best, mut least) = (0, NOTHING);
        for slot in Bits(self.taken).flat_map(|range| Bits(self.slots[range])) {
            let it = &slots[slot];
            let cost = drive.cost(it.cylinder);
            let is_better = cost < least || cost == least && it.is_older(&slots[best]);
            if is_better && (it.weight <= room || slot == oldest) {
                (best, least) = (slot, cost);
            }
        }
        (best, least)
    }
}

/// The lowest or the highest bit.
#[inline]
fn first(bits: u64, is_lowest: bool) -> usize {
    (if is_lowest { bits.trailing_zeros() } else { 63 - bits.leading_zeros() } & 63) as usize
}

/// Of some transfers that with the least measure of its cylinder, of equal ones the oldest.
#[inline(always)]
fn least(some: u64, measure: impl Fn(u32) -> u32, slots: &[Slot; SLOTS]) -> usize {
    let mut best = first(some, true);
    let mut least = measure(slots[best].cylinder);
    for slot in Bits(some & some.wrapping_sub(1)) {
        let it = measure(slots[slot].cylinder);
        if it < least || it == least && slots[slot].is_older(&slots[best]) {
            (best, least) = (slot, it);
        }
    }
    best
}

pub struct Picker {
    units: Vec<Ranges>,
    fences: [u8; 16],
    lists: Chains,
    behind: u64, // those in the lists
    stale: u64,  // units that have to choose anew
    choices: [u8; 16],
    costs: [u64; 16], // of the choices
}

impl Picker {
    pub fn new(drives: &[Drive]) -> Self {
        Self {
            units: drives.iter().map(|it| Ranges::new(it.last)).collect(),
            fences: [NONE; 16],
            lists: Chains::new(),
            behind: 0,
            stale: 0,
            choices: [0; 16],
            costs: [NOTHING; 16],
        }
    }

    /// A command comes.
    #[inline]
    pub fn insert(&mut self, slot: usize, slots: &[Slot; SLOTS], drives: &[Drive]) {
        let it = &slots[slot];
        let place = usize::from(it.place & 15);
        if self.fences[place] != NONE {
            self.lists.push(BEHIND + it.place, slot as u8);
            self.behind |= 1 << slot;
        } else if !it.is_transfer {
            self.fences[place] = slot as u8;
            self.stale |= 1 << place;
        } else {
            self.units[place].insert(it.cylinder, slot);
            if self.stale >> place & 1 == 0 {
                self.compare(slot, it.cylinder, place, &drives[place]);
            }
        }
    }

    /// A free transfer is its unit's choice if it is cheaper.
    #[inline]
    fn compare(&mut self, slot: usize, cylinder: u32, place: usize, drive: &Drive) {
        let cost = drive.cost(cylinder);
        if cost < self.costs[place] {
            (self.choices[place], self.costs[place]) = (slot as u8, cost);
        }
    }

    /// A command goes.
    #[inline]
    pub fn remove(&mut self, slot: usize, slots: &[Slot; SLOTS]) {
        let it = &slots[slot];
        let place = usize::from(it.place & 15);
        self.stale |= 1 << place;
        if self.behind >> slot & 1 == 1 {
            self.lists.remove(slot as u8);
            self.behind &= !(1 << slot);
        } else if it.is_transfer {
            self.units[place].remove(it.cylinder, slot);
        } else {
            self.open(place, slots);
        }
    }

    /// The fence of a unit has gone: what was behind it is free up to the next.
    fn open(&mut self, place: usize, slots: &[Slot; SLOTS]) {
        let list = BEHIND + place as u8;
        self.fences[place] = NONE;
        while self.fences[place] == NONE && !self.lists.is_empty(list) {
            let slot = self.lists.next(list);
            self.lists.remove(slot);
            self.behind &= !(1 << slot);
            let it = &slots[usize::from(slot & 63)];
            if it.is_transfer {
                self.units[place].insert(it.cylinder, slot.into());
            } else {
                self.fences[place] = slot;
            }
        }
    }

    /// A unit chooses anew: the nearest of its free transfers, or its fence if there are none.
    fn choose(&mut self, place: usize, slots: &[Slot; SLOTS], drive: &Drive) {
        let unit = &self.units[place];
        let (slot, cost) = match (unit.taken, drive.is_up) {
            (0, _) if self.fences[place] == NONE => (0, NOTHING),
            (0, _) => (self.fences[place].into(), 0),
            (_, true) => unit.nearest(drive, true, slots),
            (_, false) => unit.nearest(drive, false, slots),
        };
        (self.choices[place], self.costs[place]) = (slot as u8, cost);
    }

    /// The command that starts, where the oldest may be passed by so many blocks.
    #[inline]
    pub fn pick(&mut self, slots: &[Slot; SLOTS], drives: &[Drive], oldest: usize, room: u32, longest: u32) -> usize {
        if room == 0 {
            return oldest;
        }
        for place in Bits(self.stale) {
            self.choose(place & 15, slots, &drives[place]);
        }
        self.stale = 0;
        if room < longest {
            return self.pick_within(slots, drives, oldest, room);
        }
        let (mut best, mut least) = (0, NOTHING);
        for place in 0..self.units.len().min(16) {
            let cost = self.costs[place];
            if cost < least || cost == least && cost != NOTHING && self.is_older(place, best, slots) {
                (best, least) = (place, cost);
            }
        }
        usize::from(self.choices[best] & 63)
    }

    /// The choice of a unit came before that of another.
    fn is_older(&self, place: usize, other: usize, slots: &[Slot; SLOTS]) -> bool {
        let choice = |it: usize| &slots[usize::from(self.choices[it & 15] & 63)];
        choice(place).is_older(choice(other))
    }

    /// The same where the oldest may not be passed by all of them.
    fn pick_within(&self, slots: &[Slot; SLOTS], drives: &[Drive], oldest: usize, room: u32) -> usize {
        let (mut best, mut least) = (0, NOTHING - 1);
        for place in 0..self.units.len() {
            let (mut slot, mut cost) = (usize::from(self.choices[place & 15] & 63), self.costs[place & 15]);
            if cost != NOTHING && slots[slot].weight > room && slot != oldest {
                (slot, cost) = self.units[place].nearest_within(&drives[place], slots, room, oldest);
            }
            if cost <= least && (cost < least || slots[slot].is_older(&slots[best])) {
                (best, least) = (slot, cost);
            }
        }
        best
    }
}
