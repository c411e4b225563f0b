//! What turns of a port do for a host. Statuses are those of the manual.

use mscp::{Action, BusKind, Error, Hardware, Medium, Opcode, Outcome, Port, Stage, Volume};

use crate::hosts::{Asked, Host, Way, BUFFER, RINGS};
use crate::machine::{Touch, BAD, BAD_TO_READ, BAD_TO_WRITE, DISK, FAULTS, KINDS};

/// The host gives the slot for an end back without a word: a turn sees it.
#[test]
fn turns_look_again() {
    let mut host = Host::online(Hardware::RQDX3);
    host.ask(Asked::moves(Opcode::Read, 512, 3));
    host.turn();
    assert!(host.port.state().is_held_back);
    for _ in 0..3 {
        assert!(!host.port.turn(&mut host.machine, 1000));
    }
    host.give();
    assert_eq!(host.port.next(), None);
    assert!(!host.is_answered());
    host.turn();
    assert!(host.is_answered() && !host.port.state().is_held_back);
    assert!(host.has_block(3));
}

/// A turn of no actions does none, and one of one does one.
#[test]
fn turns_are_as_long_as_they_may_be() {
    let (mut host, mut other) = (Host::online(Hardware::RQDX3), Host::online(Hardware::RQDX3));
    for it in [&mut host, &mut other] {
        it.give();
        it.ask(Asked::moves(Opcode::Read, 2048, 3));
    }
    let saved = host.port.save();
    assert!(host.port.turn(&mut host.machine, 0));
    assert_eq!(host.port.save(), saved);
    while let Some(action) = other.port.next() {
        assert!(host.port.turn(&mut host.machine, 1));
        other.port.perform(&mut other.machine, &action).unwrap();
        assert!(host.machine == other.machine);
        assert_eq!(host.port.save(), other.port.save());
    }
    assert!(!host.port.turn(&mut host.machine, 1) && host.is_answered());
}

/// Of a block that is reported by its serial the port hears once, and only while it wants that block.
#[test]
fn blocks_are_heard_by_their_serials() {
    let mut host = Host::online(Hardware::RQDX3);
    host.give();
    host.ask(Asked::moves(Opcode::Read, 1024, 3));
    let mut last = 0;
    for _ in 0..2 {
        let serial = loop {
            match host.port.next().unwrap() {
                Action::Transfer { serial, .. } => break serial,
                action => host.port.perform(&mut host.machine, &action).unwrap(),
            }
        };
        assert!(serial > last);
        assert_eq!(host.port.begun().map(|it| it.serial), Some(serial));
        assert_eq!(host.port.went_by(last, Outcome::Done), Err(Error::Unasked));
        while let Some(action) = host.port.next_message() {
            host.port.perform(&mut host.machine, &action).unwrap();
        }
        assert_eq!(host.port.went_by(serial, Outcome::Done), Err(Error::Unasked));
        while let Some(action) = host.port.next().filter(|it| !matches!(it, Action::Transfer { .. })) {
            host.port.perform(&mut host.machine, &action).unwrap();
        }
        assert_eq!(host.port.went_by(serial, Outcome::Done), Ok(()));
        assert_eq!(host.port.went_by(serial, Outcome::Done), Err(Error::Unasked));
        last = serial;
    }
    host.turn();
    assert!(host.is_answered());
}

/// A byte that differs is seen wherever it stands in a block, and those behind the transfer aren't looked at.
#[test]
fn compares_see_each_byte() {
    let mut host = Host::online(Hardware::UDA50);
    for (bytes, lbn) in [(512, 0), (1024, 20), (700, 30), (66, 40)] {
        let blocks = host.machine.disks[1][lbn as usize..][..2].concat();
        let it = Asked::moves(Opcode::CompareHostData, bytes, lbn);
        host.buffer()[..1024].copy_from_slice(&blocks);
        assert_eq!(host.transfer(it), (0, bytes));
        for (place, byte) in blocks.iter().enumerate() {
            host.buffer()[place] ^= 1 << (place % 8);
            let differs = (0x0007, place as u32 / 512 * 512);
            let told = if place < bytes as usize { differs } else { (0, bytes) };
            assert_eq!(host.transfer(it), told, "byte {place} of {bytes}");
            host.buffer()[place] = *byte;
        }
    }
    assert!(host.machine.touches.iter().all(|it| !matches!(it, Touch::WriteBlock(..))));
}

/// Each byte goes where it is to go, and no other one is touched.
#[test]
fn transfers_move_each_byte() {
    for (bytes, lbn) in [(2, 0), (62, 1), (64, 2), (66, 3), (510, 4), (512, 5), (514, 6), (1024, 8), (1024, 46)] {
        let (count, at) = (bytes as usize, lbn as usize);
        let (first, last) = (count.min(512), count.saturating_sub(512));
        let counts = if last > 0 { vec![first, last] } else { vec![first] };
        let each = |touches: &dyn Fn(u32, u32, usize) -> Vec<Touch>| -> Vec<Touch> {
            counts.iter().zip(0..).flat_map(|(it, i)| touches(lbn + i, BUFFER as u32 + 512 * i, *it)).collect()
        };
        for opcode in [Opcode::Read, Opcode::Write, Opcode::Erase, Opcode::Access, Opcode::CompareHostData] {
            let mut host = Host::online(KINDS[at % 4]);
            let (before, mut disks) = (vec![0xE5; 2048], host.machine.disks.clone());
            host.buffer().copy_from_slice(&before);
            let mut after = before.clone();
            host.touches();
            let mut bytes_of_disk = disks[1][at..][..counts.len()].concat();
            let (status, touches) = match opcode {
                Opcode::Read => {
                    after[..count].copy_from_slice(&bytes_of_disk[..count]);
                    (0, each(&|lbn, at, count| vec![Touch::ReadBlock(5, lbn), Touch::Write(at, count)]))
                }
                Opcode::Write => {
                    bytes_of_disk.fill(0);
                    bytes_of_disk[..count].fill(0xE5);
                    (0, each(&|lbn, at, count| vec![Touch::Read(at, count), Touch::WriteBlock(5, lbn)]))
                }
                Opcode::Erase => {
                    bytes_of_disk.fill(0);
                    (0, each(&|lbn, _, _| vec![Touch::WriteBlock(5, lbn)]))
                }
                Opcode::Access => (0, each(&|lbn, _, _| vec![Touch::ReadBlock(5, lbn)])),
                _ => (0x0007, vec![Touch::Read(BUFFER as u32, first), Touch::ReadBlock(5, lbn)]),
            };
            let moved = if status == 0 { bytes } else { 0 };
            assert_eq!(host.transfer(Asked::moves(opcode, bytes, lbn)), (status, moved));
            assert_eq!(host.touches(), touches, "{opcode:?} of {bytes}");
            disks[1][at..].iter_mut().zip(bytes_of_disk.chunks(512)).for_each(|(to, it)| to.copy_from_slice(it));
            assert!(host.buffer() == after && host.machine.disks == disks, "{opcode:?} of {bytes}");
        }
    }
}

/// What can't be moved ends its command with the status of what is wrong.
#[test]
fn faults_have_their_statuses() {
    let mut host = Host::online(Hardware::UDA50);
    let all = [Opcode::Read, Opcode::Write, Opcode::CompareHostData, Opcode::Access, Opcode::Erase];
    for opcode in all {
        for ((buffer, _), status) in FAULTS.into_iter().zip([0x0069, 0x00A9, 0x0089]) {
            let it = Asked { buffer, ..Asked::moves(opcode, 512, 3) };
            let touches_none = matches!(opcode, Opcode::Access | Opcode::Erase);
            assert_eq!(host.transfer(it), if touches_none { (0, 512) } else { (status, 0) }, "{opcode:?}");
        }
        let writes = matches!(opcode, Opcode::Write | Opcode::Erase);
        for (lbn, status) in [BAD_TO_READ, BAD_TO_WRITE, BAD] {
            let is_bad = lbn == BAD.0 || writes == (lbn == BAD_TO_WRITE.0);
            let blocks = host.machine.disks[1][lbn as usize];
            host.buffer()[..512].copy_from_slice(&blocks);
            let told = host.transfer(Asked::moves(opcode, 512, lbn));
            assert_eq!(told, if is_bad { (status, 0) } else { (0, 512) }, "{opcode:?} of {lbn}");
        }
    }
    assert_eq!(host.transfer(Asked::moves(Opcode::Read, 1024, BAD_TO_READ.0 - 1)), (BAD_TO_READ.1, 512));
    assert_eq!(host.transfer(Asked::moves(Opcode::Read, 1025, 3)), (0x0049, 0));
    assert_eq!(host.transfer(Asked { buffer: 0x4001, ..Asked::moves(Opcode::Read, 512, 3) }), (0x0029, 0));
}

/// Where no memory is, the port stops with the code of what isn't there: the packet of a command, that of an end, a slot, or
/// the area of the rings.
#[test]
fn missing_rings_are_fatal() {
    let it = Asked::moves(Opcode::Read, 512, 3);
    for (address, _) in FAULTS {
        for (slot, code) in [(RINGS + 4, 1), (RINGS, 2)] {
            let mut host = Host::online(Hardware::UDA50);
            host.give();
            host.ask(it);
            host.machine.put(slot, 0x8000_0000 | address);
            host.turn();
            assert_eq!((host.port.state().stage, host.port.read_sa()), (Stage::Dead(code), 0x8000 | code));
        }
    }
    let mut host = Host::online(Hardware::UDA50);
    host.ask(it);
    host.machine.memory.clear();
    host.turn();
    assert_eq!((host.port.state().stage, host.port.read_sa()), (Stage::Dead(6), 0x8006));
    host.start(0);
    host.turn();
    assert_eq!((host.port.state().stage, host.port.read_sa()), (Stage::Dead(7), 0x8007));
}

/// Whichever way a port is made, it says of what it was made, to its program and to its host.
#[test]
fn hardware_comes_back() {
    let others = [0, 13, 128, 254].map(|it| Hardware { model: it, software: !it, version: it ^ 0x55, ..KINDS[1] });
    for hardware in KINDS.into_iter().chain(others) {
        for way in Way::ALL {
            let mut host = Host::new(way.make(hardware));
            assert_eq!(host.port.hardware(), hardware, "{way:?}");
            assert!(format!("{:?}", host.port).starts_with(&format!("Port {{ bus: {:?},", hardware.bus)));
            let shown = host.start(0x80 | 0x15);
            let (first, vector) = (if hardware.bus == BusKind::Q { 0x0B40 } else { 0x0940 }, Touch::Interrupt(0x54));
            assert_eq!(shown[0], first);
            let told = u16::from(hardware.model % 128) * 16 + u16::from(hardware.software % 16);
            assert_eq!(shown[3], 0x4000 + told);
            assert_eq!(host.touches().iter().filter(|it| **it == vector).count(), 3);
            let opcode = Opcode::SetControllerCharacteristics;
            let end = host.end(Asked { unit: 0, opcode, ..Asked::moves(opcode, 0, 0) });
            assert_eq!((&end[16..20], end[20]), ([60, 0, hardware.software, hardware.version].as_ref(), 7));
            assert_eq!(host.port.state().stage, Stage::Up);
        }
    }
    assert_eq!(Hardware::RQDX3, Hardware { bus: BusKind::Q, model: 19, software: 3, version: 1 });
    assert_eq!(Hardware::UDA50, Hardware { bus: BusKind::Uni, model: 6, software: 3, version: 1 });
}

/// Whichever way a port is made, its addresses have the lines of its bus.
#[test]
fn addresses_are_of_the_bus() {
    for hardware in KINDS {
        for way in Way::ALL {
            let mut host = Host::new(way.make(hardware));
            host.start(0);
            host.port.volume_came(5, &DISK).unwrap();
            assert_eq!(host.status(Asked::online(5, 0, 0)), 0);
            for (bits, is_there) in [(0xFFC0_0000, true), (0x003C_0000, hardware.bus == BusKind::Uni)] {
                let it = Asked::moves(Opcode::Read, 512, 7);
                host.buffer().fill(0);
                let told = host.transfer(Asked { buffer: it.buffer | bits, ..it });
                assert_eq!(told.0 == 0, is_there, "{way:?} of {hardware:?}");
                assert_eq!(host.has_block(7), is_there);
            }
        }
    }
}

/// What is in unit 5 with these flags: there, protected, protected by the host, online, and removable.
fn volume_is(port: &Port, (size, media): (u32, u32), flags: [bool; 5]) {
    let [is_there, is_protected, is_protected_by_host, is_online, is_removable] = flags;
    let it = Volume { size, media, is_there, is_protected, is_protected_by_host, is_online, is_removable };
    assert_eq!(port.volume(5), Ok(it));
}

/// A port says each of a volume's flags under its own name, as they come and go one by one.
#[test]
fn volumes_tell_their_flags() {
    let (one, fixed) = ((48, 6), Medium { is_removable: false, ..DISK });
    let mut host = Host::new(Way::New.make(Hardware::UDA50));
    host.start(0);
    volume_is(&host.port, (0, 0), [false; 5]);
    host.port.volume_came(5, &fixed).unwrap();
    volume_is(&host.port, one, [true, false, false, false, false]);
    host.port.volume_came(5, &DISK).unwrap();
    volume_is(&host.port, one, [true, false, false, false, true]);
    host.port.volume_went(5).unwrap();
    volume_is(&host.port, one, [false, false, false, false, true]);
    host.port.volume_came(5, &Medium { size: 1, media: 9, is_protected: true, is_removable: false }).unwrap();
    volume_is(&host.port, (1, 9), [true, true, false, false, false]);
    host.port.protect(5, false).unwrap();
    volume_is(&host.port, (1, 9), [true, false, false, false, false]);
    host.port.volume_came(5, &fixed).unwrap();
    assert_eq!(host.status(Asked::online(5, 0, 0)), 0);
    volume_is(&host.port, one, [true, false, false, true, false]);
    host.port.protect(5, true).unwrap();
    volume_is(&host.port, one, [true, true, false, true, false]);
    assert_eq!(host.status(Asked::moves(Opcode::Write, 512, 3)), 0x2006);
    host.port.protect(5, false).unwrap();
    let protects = Asked { opcode: Opcode::SetUnitCharacteristics, ..Asked::online(5, 4, 0x1000) };
    assert_eq!(host.status(protects), 0);
    volume_is(&host.port, one, [true, false, true, true, false]);
    assert_eq!(host.status(Asked::moves(Opcode::Write, 512, 3)), 0x1006);
    host.port.volume_went(5).unwrap();
    volume_is(&host.port, one, [false; 5]);
    assert_eq!(host.status(Asked::moves(Opcode::Read, 512, 3)), 0x0023);
}
