//! A port that does what a machine's host asks at random, in steps of its own and in turns, beside one of C's on a machine of
//! the same memory and disks. The safe one moves meanwhile. And what turns of a port do for a host, by the manual.

mod both;
#[path = "../common/mod.rs"]
mod common;
mod hosts;
mod in_c;
mod machine;
mod turning;

use both::Both;
use common::Random;
use machine::{DISK, KINDS, LIMITS, UNITS};
use mscp::{BusKind, Error, Hardware, Medium, Opcode, Outcome, Picker, Port, Stage};

#[test]
fn ports_answer_as_c_does() {
    let mut random = Random(3);
    for kind in 0..8 {
        let mut both = Both::new(KINDS[kind % 4], Picker::ALL[kind / 4]);
        for _ in 0..50 {
            both.start(&mut random);
            for _ in 0..60 {
                match random.below(16) {
                    0..=4 => both.command(&mut random),
                    5..=7 => both.act_often(random.below(60)),
                    8 | 9 => both.turn(random.below(60) as u32),
                    10 => both.tick(),
                    11 => drop(both.act(true)),
                    12 if random.below(3) == 0 => both.change_volume(&mut random),
                    13 if random.below(8) == 0 => both.write_sa(random.below(1 << 16) as u16),
                    14 => both.shift(&mut random),
                    _ => both.look(),
                }
                both.agree();
            }
        }
        assert!(both.ups > 2000 && both.interrupts > 500 && both.pauses > 300 && both.has_written());
    }
}

/// What is told unasked is refused, and changes nothing.
#[test]
fn unasked_outcomes_are_refused() {
    let mut port = Port::new(&LIMITS, &UNITS, Picker::Sweep, Hardware::RQDX3, 8).unwrap();
    let saved = port.save();
    assert_eq!(port.went(Outcome::Different), Err(Error::Unasked));
    assert_eq!(port.was_read(&[]), Err(Error::Unasked));
    assert_eq!(port.save(), saved);
    assert_eq!((port.state().stage, port.state().is_held_back), (Stage::First, false));
}

#[test]
fn faults_are_those_of_c() {
    let made = |credits| Port::new(&LIMITS, &UNITS, Picker::Sweep, Hardware::UDA50, credits).err();
    assert_eq!((made(0), made(9), made(8)), (Some(Error::BadHostCredits), Some(Error::BadHostCredits), None));
    let mut place = std::mem::MaybeUninit::uninit();
    let port = Port::new_in(&mut place, &LIMITS, &UNITS, Picker::Sweep, Hardware::UDA50, 8).unwrap();
    assert_eq!(port.volume_came(0, &Medium { size: 65, ..DISK }), Err(Error::BadSize));
    assert_eq!(port.volume(0).map(|it| it.is_there), Ok(false));
    assert_eq!(port.volume_came(0, &DISK), Ok(()));
    assert_eq!(port.volume(0).map(|it| (it.is_there, it.size, it.is_removable)), Ok((true, 48, true)));
}

/// A port that was saved on one bus isn't made on the other.
#[test]
fn other_buses_are_refused() {
    for (hardware, other) in [(Hardware::RQDX3, BusKind::Uni), (Hardware { model: 77, ..Hardware::UDA50 }, BusKind::Q)]
    {
        let port = Port::new(&LIMITS, &UNITS, Picker::Sweep, hardware, 8).unwrap();
        assert_eq!(port.hardware(), hardware);
        assert_eq!(Port::restore(&port.save(), other).err(), Some(Error::BadBus));
        assert_eq!(Port::restore(&port.save(), hardware.bus).map(|it| it.hardware()).ok(), Some(hardware));
    }
}

/// Addresses have the bits of the bus.
#[test]
fn values_are_in_range() {
    assert_eq!((BusKind::Q.address(0xFFFF_FFFF), BusKind::Uni.address(0xFFFF_FFFF)), (0x3F_FFFF, 0x3_FFFF));
    assert_eq!(Opcode::of_number(12), None);
}
