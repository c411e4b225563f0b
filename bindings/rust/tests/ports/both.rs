//! A port of the safe type beside one of C's, on machines of the same memory and disks.

use std::mem::MaybeUninit;

use mscp::raw::{self, status};
use mscp::{Action, Connection, Hardware, Medium, Picker, Port, Stage, Way};

use crate::common::{moved, status_of, InC as _, Random};
use crate::in_c::InC;
use crate::machine::{Machine, Touch, DISK, LIMITS, UNITS};

const RINGS: usize = 0x100; // four responses, and four commands

const OPCODES: [u32; 17] = [9, 32, 32, 33, 33, 34, 34, 34, 16, 18, 18, 1, 2, 3, 4, 10, 99];

fn word(random: &mut Random) -> u32 {
    random.below(1 << 16) as u32 | (random.below(1 << 16) as u32) << 16
}

/// The two side by side.
pub struct Both {
    safe: Box<Port>,
    machine: Machine,
    c: InC,
    hardware: Hardware,
    /// Of both in all.
    pub pauses: u32,
    pub interrupts: usize,
    /// How often both were found up.
    pub ups: u32,
}

impl Both {
    pub fn new(hardware: Hardware, picker: Picker) -> Self {
        let machine = Machine::new();
        let mut place = Box::new(MaybeUninit::uninit());
        let made = Port::new_in(&mut place, &LIMITS, &UNITS, picker, hardware, 8);
        assert!(made.is_ok());
        // SAFETY: a port was made in the place.
        let safe = unsafe { Box::from_raw(Box::into_raw(place).cast::<Port>()) };
        let c = InC::new(machine.clone(), hardware, picker);
        let mut it = Self { safe, machine, c, hardware, pauses: 0, interrupts: 0, ups: 0 };
        (0..4).for_each(|slot| it.put_command(slot, [32, 0, 0, 3, 0, 0, 0, 0, 0]));
        it
    }

    fn put(&mut self, address: usize, word: u32) {
        self.machine.put(address, word);
        self.c.machine.put(address, word);
    }

    /// An action of each, if they want one; whether they do.
    pub fn act(&mut self, is_message: bool) -> bool {
        let action = if is_message { self.safe.next_message() } else { self.safe.next() };
        let in_c = self.c.next(is_message);
        let (action, in_c) = match (action, in_c) {
            (Some(action), Some(in_c)) => (action, in_c),
            (None, None) => return false,
            (action, in_c) => panic!("{action:?} and {in_c:?}"),
        };
        is_that(&action, &in_c, self.c.lines);
        self.pauses += u32::from(action == Action::Pause);
        let told = self.safe.perform(&mut self.machine, &action);
        assert_eq!(status_of(&told, |()| status::DONE), self.c.perform(&in_c));
        true
    }

    /// Each does so many actions, one by one.
    pub fn act_often(&mut self, most: usize) {
        self.safe.look_again();
        // SAFETY: the handle is that of a port that was made.
        unsafe { raw::mscp_port_look_again(self.c.port.handle()) };
        (0..most).all(|_| self.act(false));
    }

    /// A turn of each.
    pub fn turn(&mut self, most: u32) {
        let told = self.safe.turn(&mut self.machine, most);
        assert_eq!(told, self.c.turn(most));
    }

    fn write_ip(&mut self) {
        self.safe.write_ip();
        // SAFETY: the handle is that of a port that was made.
        unsafe { raw::mscp_port_write_ip(self.c.port.handle()) };
    }

    pub fn write_sa(&mut self, word: u16) {
        self.safe.write_sa(word);
        // SAFETY: the handle is that of a port that was made.
        unsafe { raw::mscp_port_write_sa(self.c.port.handle(), word) };
    }

    fn read_ip(&mut self) {
        // SAFETY: the handle is that of a port that was made.
        unsafe { raw::mscp_port_read_ip(self.c.port.handle()) };
        assert_eq!(self.safe.read_ip(), 0);
    }

    /// The host starts both, with rings of four slots and interrupts, and brings the units online with volumes that came.
    pub fn start(&mut self, random: &mut Random) {
        self.write_ip();
        for answer in [0x8000 | 2 << 11 | 2 << 8 | 0x80 | 0x15, RINGS as u16, 0, 1] {
            self.act_often(1000);
            self.write_sa(answer);
        }
        for unit in UNITS {
            self.put_in(unit.number, &DISK);
            self.order(random, unit.number, 9);
            self.turn(100);
        }
    }

    /// The host writes some command into a slot, often one that is valid, and gives all slots.
    pub fn command(&mut self, random: &mut Random) {
        let (unit, opcode) = ([0, 0, 5, 5, 5, 1][random.below(6)], OPCODES[random.below(OPCODES.len())]);
        self.order(random, unit, opcode);
    }

    fn order(&mut self, random: &mut Random, unit: u16, opcode: u32) {
        let (slot, lbn) = (random.below(4), random.below(50) as u32);
        let buffer = [0x4000, 0x4000, 0x5000, 0x4001, 0xFFC0_4000, 0x7FFC_4000, 0x1D_0000, 0x3FFE_0000, 0xFFF3_0000];
        let buffer = buffer[random.below(buffer.len())];
        let bytes = [512, 512, 1024, 2000, 0, 33][random.below(6)];
        if opcode == 32 && unit != 1 {
            self.put_blocks(random, unit, lbn as usize);
        }
        let length = if random.below(60) == 0 { random.below(70) as u32 } else { [32, 32, 48, 64][random.below(4)] };
        let words = [length, word(random), unit.into(), opcode, bytes, buffer, 0, 0, lbn];
        self.put_command(slot, words);
        for slot in 0..4 {
            self.put(RINGS + 4 * slot, 0xC000_0804 + 0x80 * slot as u32);
            self.put(0x800 + 0x80 * slot, 48);
            self.put(RINGS + 16 + 4 * slot, 0xC000_1004 + 0x80 * slot as u32);
        }
        self.read_ip();
    }

    fn put_command(&mut self, slot: usize, words: [u32; 9]) {
        words.iter().enumerate().for_each(|(i, word)| self.put(0x1000 + 0x80 * slot + 4 * i, *word));
    }

    /// The buffers of both have what is on the disk from a block on, or all but a bit of it.
    fn put_blocks(&mut self, random: &mut Random, unit: u16, lbn: usize) {
        let mut bytes = self.machine.disk(unit)[lbn.min(44)..][..4].concat();
        bytes[random.below(2048)] ^= [0, 1, 0x80][random.below(3)];
        for memory in [&mut self.machine.memory, &mut self.c.machine.memory] {
            memory[0x4000..0x4800].copy_from_slice(&bytes);
        }
    }

    pub fn tick(&mut self) {
        self.safe.tick();
        // SAFETY: the handle is that of a port that was made.
        unsafe { raw::mscp_port_tick(self.c.port.handle()) };
    }

    pub fn change_volume(&mut self, random: &mut Random) {
        let unit = [0, 0, 0, 5, 5, 5, 1][random.below(7)];
        let medium = Medium { size: [48, 64, 64, 65][random.below(4)], is_protected: random.below(3) == 0, ..DISK };
        let medium = Medium { is_removable: random.below(2) == 0, media: word(random), ..medium };
        let port = self.c.port.handle();
        // SAFETY: the handle is that of a port that was made.
        let (told, number) = unsafe {
            match random.below(4) {
                0 => (self.safe.volume_went(unit), raw::mscp_port_volume_went(port, unit)),
                1 => (self.safe.protect(unit, true), raw::mscp_port_protect(port, unit, 1)),
                2 => (self.safe.protect(unit, false), raw::mscp_port_protect(port, unit, 0)),
                _ => return self.put_in(unit, &medium),
            }
        };
        assert_eq!(status_of(&told, |()| status::DONE), number);
    }

    fn put_in(&mut self, unit: u16, medium: &Medium) {
        let (told, in_c) = (self.safe.volume_came(unit, medium), medium.in_c());
        // SAFETY: the handle is that of a port that was made; the medium is there.
        let number = unsafe { raw::mscp_port_volume_came(self.c.port.handle(), unit, &in_c) };
        assert_eq!(status_of(&told, |()| status::DONE), number);
    }

    /// All that is told of both without a change.
    pub fn look(&mut self) {
        let (mut hardware, mut state, mut begun) = (raw::Hardware::ZERO, raw::State::ZERO, raw::Upcoming::ZERO);
        let (mut limits, mut units) = (raw::Limits::ZERO, [raw::Unit::ZERO; 16]);
        let (mut list, mut holders) = ([raw::Waiting::ZERO; 63], [raw::Holder::ZERO; 63]);
        let (c, look) = (self.c.port.handle(), self.safe.look());
        let reference = look.last().map_or(0, |it| it.reference);
        // SAFETY: the handle is that of a port that was made; all else is there.
        let (is_begun, waiting, held, count) = unsafe {
            assert_eq!(i32::from(self.safe.read_sa()), raw::mscp_port_read_sa(c));
            assert_eq!(raw::mscp_port_hardware(c, &mut hardware), status::DONE);
            assert_eq!(raw::mscp_port_state(c, &mut state), status::DONE);
            let waiting = raw::mscp_port_look_at(c, list.as_mut_ptr(), 63) as usize;
            let held = raw::mscp_port_why_at(c, 0, reference, holders.as_mut_ptr(), 63) as usize;
            let count = raw::mscp_port_settings_at(c, &mut limits, units.as_mut_ptr(), 16) as usize;
            (raw::mscp_port_begun(c, &mut begun) == status::DONE, waiting, held, count)
        };
        assert_eq!((self.safe.hardware(), hardware), (self.hardware, self.hardware.in_c()));
        assert_eq!(self.safe.state().in_c(), state);
        assert_eq!(self.safe.begun().map(|it| it.in_c()), is_begun.then_some(begun));
        let settings = self.safe.settings();
        assert_eq!((settings.limits, &*settings.units), (LIMITS, UNITS.as_ref()));
        assert_eq!(settings.limits.in_c(), limits);
        assert!(settings.units.into_iter().map(|it| it.in_c()).eq(units[..count].iter().copied()));
        assert!(look.into_iter().map(|it| it.in_c()).eq(list[..waiting].iter().copied()));
        let why = self.safe.why(Connection::First, reference);
        assert!(why.into_iter().map(|it| it.in_c()).eq(holders[..held].iter().copied()));
        for unit in [0, 5, 1] {
            let mut volume = raw::Volume::ZERO;
            let told = self.safe.volume(unit);
            // SAFETY: the handle is that of a port that was made; the volume is there.
            let number = unsafe { raw::mscp_port_volume(self.c.port.handle(), unit, &mut volume) };
            assert_eq!(status_of(&told, |_| status::DONE), number);
            told.into_iter().for_each(|it| assert_eq!(it.in_c(), volume));
        }
    }

    /// Whether its host has changed a disk.
    pub fn has_written(&self) -> bool {
        self.machine.disks != Machine::new().disks
    }

    pub fn agree(&mut self) {
        assert!(self.machine == self.c.machine);
        assert_eq!(&*self.safe.save(), self.c.saved());
        self.interrupts += self.machine.touches.iter().filter(|it| matches!(it, Touch::Interrupt(_))).count();
        self.ups += u32::from(self.safe.state().stage == Stage::Up);
        self.machine.touches.clear();
        self.c.machine.touches.clear();
    }

    /// The safe port moves, or is another one that was restored, elsewhere or in its place.
    pub fn shift(&mut self, random: &mut Random) {
        let other = Port::restore(&self.safe.save(), self.hardware.bus).unwrap();
        match random.below(3) {
            0 => self.safe = moved(std::mem::replace(&mut *self.safe, other)),
            1 => self.safe = moved(other),
            _ => *self.safe = other,
        }
    }
}

/// What the safe type says is what C says.
fn is_that(action: &Action, it: &raw::Action, lines: u32) {
    let (address, count) = (it.address & lines, it.count as usize);
    let way = match it.opcode {
        33 => Way::Read,
        34 => Way::Write,
        18 => Way::Erase,
        32 => Way::Compare,
        _ => Way::Access,
    };
    match action {
        Action::Pause => assert_eq!(it.kind, 1),
        Action::Read { address: a, count: c } => assert_eq!((2, address, count), (it.kind, *a, *c)),
        Action::Write { address: a, bytes } => assert_eq!((3, address, &it.bytes[..count]), (it.kind, *a, &**bytes)),
        Action::Interrupt { vector } => assert_eq!((4, *vector), (it.kind, it.vector)),
        Action::Transfer { unit, block, address: a, count: c, way: w, serial } => {
            assert_eq!((5, *unit, *block, *w, *serial), (it.kind, it.unit, it.block, way, it.serial));
            assert_eq!((*a, *c), (address, count));
        }
    }
}
