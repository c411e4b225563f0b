//! A driver's account answers as C's does that is called directly, on random messages of a port that often says what no port
//! would. The safe one moves meanwhile.

mod common;

use std::collections::BTreeMap;

use common::{moved, status_of, InC, Random, Raw};
use mscp::raw::{self, status};
use mscp::{Advice, Asked, Command, Driver, Ended, Heard, Opcode, Order, Poll, Transfer};

/// The two side by side, and what they have sent.
struct Both {
    safe: Box<Driver>,
    c: Raw,
    watch: raw::Watch,
    sent: Vec<Vec<u8>>,
    /// How often a call had each status.
    counts: BTreeMap<i32, u32>,
}

impl Both {
    fn new(timeout: u32) -> Self {
        let mut c = Raw::new(raw::DRIVER_SIZE, raw::DRIVER_ROOM);
        // SAFETY: the handle is that of memory of its own, in which nothing was made.
        assert_eq!(unsafe { raw::mscp_driver_init_at(c.handle()) }, status::DONE);
        let watch = raw::Watch { timeout, waited: 0, silent: 0 };
        Self { safe: moved(Driver::new(timeout).unwrap()), c, watch, sent: vec![], counts: BTreeMap::new() }
    }

    fn count(&mut self, status: i32) {
        *self.counts.entry(status).or_default() += 1;
    }

    fn submit(&mut self, random: &mut Random) {
        let it = Transfer { bytes: [512, 1024, 0, u32::MAX][random.below(4)], lbn: 7, buffer: 0 };
        let order = match random.below(6) {
            0 => Order::SetControllerCharacteristics { version: 0, flags: 0x80, timeout: 0 },
            1 => Order::Write(it),
            2 => Order::Online,
            3 => Order::Abort(random.below(8) as u32),
            _ => Order::Read(it),
        };
        let command = Command { reference: random.below(8) as u32, unit: random.below(9) as u16, modifiers: 0, order };
        let mut message = command.message().to_vec();
        if random.below(12) == 0 {
            message.resize([0, 11, 65][random.below(3)], 0);
        }
        let told = self.safe.submit(&message);
        // SAFETY: the handle is that of an account that was made; the message has so many bytes.
        let number = unsafe { raw::mscp_driver_submit_at(self.c.handle(), message.as_ptr(), message.len()) };
        assert_eq!(status_of(&told, |()| status::DONE), number);
        if told.is_ok() {
            self.sent.push(message);
        }
    }

    fn poll(&mut self, random: &mut Random) {
        let (reference, mut message) = (random.below(8) as u32 + 6, raw::Packet::ZERO);
        let told = self.safe.poll(reference);
        // SAFETY: the handle is that of an account that was made; `message` is there.
        let number = unsafe { raw::mscp_driver_poll(self.c.handle(), reference, &mut message) };
        assert_eq!(status_of(&told, |it| it.in_c()), number);
        if let Ok(Poll::Send(bytes)) = told {
            assert_eq!(&*bytes, &message.bytes[..message.length as usize]);
            self.sent.push(bytes.to_vec());
        }
    }

    fn hear(&mut self, bytes: &[u8]) {
        let mut heard = raw::Heard::ZERO;
        let told = self.safe.hear(bytes);
        let (handle, watch) = (self.c.handle(), &mut self.watch);
        // SAFETY: the handle is that of an account that was made; there are so many bytes; the rest is there.
        let number = unsafe { raw::mscp_driver_hear_at(handle, watch, bytes.as_ptr(), bytes.len(), &mut heard) };
        assert_eq!(status_of(&told, |it| it.in_c().0), number);
        told.into_iter().for_each(|it| assert_eq!(it.in_c().1, heard));
        self.count(number);
    }

    fn tick(&mut self) {
        // SAFETY: the handle is that of an account that was made; the watch is there.
        let number = unsafe { raw::mscp_driver_tick(self.c.handle(), &mut self.watch) };
        let told = match self.safe.tick() {
            Advice::Nothing => status::NOTHING,
            Advice::Poll => status::POLL,
            Advice::Reset => status::SILENT,
        };
        assert_eq!(told, number);
        self.count(number);
    }

    /// All that is told without a change. Then it is another one, moved or restored, whose ticks are counted anew.
    fn look(&mut self, random: &mut Random) {
        let (mut list, mut bytes, mut length) = ([raw::Asked::ZERO; 64], [0; mscp::DRIVER_SAVED_MAX], 0);
        let handle = self.c.handle();
        // SAFETY: the handle is that of an account that was made; the list and the bytes are those rooms.
        let (credits, count) = unsafe {
            let status = raw::mscp_driver_save_at(handle, bytes.as_mut_ptr(), bytes.len(), &mut length);
            assert_eq!(status, status::DONE);
            (raw::mscp_driver_credits(handle), raw::mscp_driver_outstanding_at(handle, list.as_mut_ptr(), 64))
        };
        assert_eq!(i64::from(self.safe.credits()), credits);
        assert!(self.safe.outstanding().into_iter().map(InC::in_c).eq(list[..count as usize].iter().copied()));
        assert_eq!(&*self.safe.save(), &bytes[..length]);
        let timeout = random.below(6) as u32;
        match random.below(3) {
            0 => self.safe = moved(std::mem::replace(&mut *self.safe, Driver::new(0).unwrap())),
            1 => {
                self.safe.set_timeout(timeout);
                self.watch.timeout = timeout;
            }
            _ => {
                *self.safe = Driver::restore(&bytes[..length], timeout).unwrap();
                self.watch = raw::Watch { timeout, waited: 0, silent: 0 };
            }
        }
    }

    /// What the port says: mostly the end of what was sent, with some credits.
    fn message(&mut self, random: &mut Random) -> Vec<u8> {
        let mut text = vec![0; 48];
        let mut kind = 0;
        match random.below(12) {
            0 => {
                text[4..6].copy_from_slice(&[random.below(256) as u8, random.below(256) as u8]);
                text[8] = [0x40, 0x41, 0x42][random.below(3)];
            }
            1 => kind = 1,
            2 => kind = 2,
            _ if self.sent.is_empty() => text[8] = 0xA1,
            _ => {
                let it = self.sent.remove(random.below(self.sent.len().min(3)));
                text[..12].copy_from_slice(&it[..12]);
                text[8] |= 0x80;
                text[10] = if random.below(6) == 0 { 9 } else { 0 };
                text[12..16].copy_from_slice(&it[12.min(it.len() - 4)..][..4]);
                if it[8] == Opcode::GetCommandStatus.number() {
                    text[16] = [0, 1, 2, 3, 9, 200][random.below(6)];
                } else if random.below(4) == 0 {
                    text[12..16].copy_from_slice(&[random.below(256) as u8, 2, 0, 0]);
                }
            }
        }
        text[4] ^= random.below(9) as u8 / 8;
        let connection = random.below(20) as u8 / 19;
        let mut bytes = vec![48, 0, kind << 4 | random.below(4) as u8, connection];
        bytes.extend(text);
        if random.below(12) == 0 {
            bytes[2] = random.below(256) as u8;
        }
        bytes.truncate(if random.below(20) == 0 { random.below(52) } else { 52 });
        bytes
    }
}

impl InC for Ended {
    type It = raw::Heard;

    fn in_c(self) -> raw::Heard {
        let Ended { reference, unit, status, moved, asked, code, opcode } = self;
        raw::Heard { figure: 0, reference, moved, asked, unit, status, code, opcode, credits: 0 }
    }
}

/// What is heard has a status in C, and fields.
impl InC for Heard {
    type It = (i32, raw::Heard);

    fn in_c(self) -> (i32, raw::Heard) {
        let none = raw::Heard::ZERO;
        match self {
            Heard::Ended(it) => (status::ENDED, it.in_c()),
            Heard::MovedTooMuch(it) => (status::MOVED_TOO_MUCH, it.in_c()),
            Heard::Refused(it) => (status::REFUSED, it.in_c()),
            Heard::First(figure) => (status::FIRST, raw::Heard { figure, ..none }),
            Heard::Progress(figure) => (status::PROGRESS, raw::Heard { figure, ..none }),
            Heard::Late => (status::LATE, none),
            Heard::NoProgress => (status::NO_PROGRESS, none),
            Heard::Lost => (status::LOST, none),
            Heard::Available(unit) => (status::NOW_AVAILABLE, raw::Heard { unit, code: 0x40, ..none }),
            Heard::Attention { code, unit } => (status::ATTENTION, raw::Heard { unit, code, ..none }),
            Heard::Logged => (status::LOGGED, none),
            Heard::Credits(credits) => (status::CREDITS, raw::Heard { credits, ..none }),
        }
    }
}

impl InC for Asked {
    type It = raw::Asked;

    fn in_c(self) -> raw::Asked {
        let Asked { reference, unit, opcode, bytes } = self;
        raw::Asked { reference, unit, opcode, bytes }
    }
}

#[test]
fn drivers_answer_as_c_does() {
    let mut random = Random(6);
    let mut counts = BTreeMap::new();
    for round in 0..200 {
        let mut both = Both::new(round % 5);
        for _ in 0..400 {
            match random.below(12) {
                0..=2 => both.submit(&mut random),
                3 => both.poll(&mut random),
                4..=7 => {
                    let message = both.message(&mut random);
                    both.hear(&message);
                }
                8 | 9 => both.tick(),
                _ => both.look(&mut random),
            }
        }
        both.counts.into_iter().for_each(|(status, count)| *counts.entry(status).or_insert(0) += count);
    }
    for status in status::ENDED..=status::SILENT {
        assert!(counts.get(&status).map_or(false, |it| *it > 3), "{status} of {counts:?}");
    }
}

/// Each envelope's credits are free, up to 65535 of them.
#[test]
fn credits_are_counted() {
    let (mut driver, mut credits) = (Driver::new(5).unwrap(), 1);
    for _ in 0..4500 {
        assert_eq!(
            (driver.hear(&[0, 0, 0x2F, 0]), driver.credits()),
            (Ok(Heard::Credits(15)), (credits + 15).min(65535))
        );
        credits += 15;
    }
}
