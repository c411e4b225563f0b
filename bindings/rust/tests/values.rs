//! Values go to C and come back field by field, limits are refused behind their edges alone, and who asks about nobody is told
//! of nobody.

mod common;

use common::{moved, status_of, InC, Random, Raw};
use mscp::raw::{self, status};
use mscp::{
    BadBlock, BusKind, Command, Connection, Controller, Error, Hardware, Holder, Host, Limits, Medium, Opcode, Order,
    Picker, Port, Report, Sent, State, Unit, Upcoming, Volume, Waiting,
};

const LIMITS: Limits = Limits { id: 7, budget: 20, credits: 6, second: 4, longest: 8, timeout: 60 };
const UNIT: Unit = Unit { id: 3, number: 1, size: 64, media: 5, serial: 9, track: 4, group: 2, cylinder: 1 };

/// Any number, often one at an edge.
fn word(random: &mut Random) -> u32 {
    let any = random.below(1 << 16) as u32 | (random.below(1 << 16) as u32) << 16;
    [0, 1, u32::MAX, any, any, any][random.below(6)]
}

fn half(random: &mut Random) -> u16 {
    word(random) as u16
}

fn byte(random: &mut Random) -> u8 {
    word(random) as u8
}

fn flag(random: &mut Random) -> u8 {
    random.below(2) as u8
}

/// What C answers becomes the same values, and becomes them again.
#[test]
fn each_field_is_itself() {
    let mut random = Random(4);
    let r = &mut random;
    for _ in 0..2000 {
        let it = raw::Volume {
            size: word(r),
            media: word(r),
            is_there: flag(r),
            is_protected: flag(r),
            is_protected_by_host: flag(r),
            is_online: flag(r),
            is_removable: flag(r),
        };
        assert_eq!(Volume::from(it).in_c(), it);
        let stage = r.below(10) as u8;
        let word_of_it = if matches!(stage, 1 | 9) { half(r) } else { 0 };
        let it = raw::State { word: word_of_it, stage, is_held_back: flag(r) };
        assert_eq!(State::from(it).in_c(), it);
        let touches = flag(r);
        let it = raw::Upcoming {
            serial: u64::from(word(r)) << 32 | u64::from(word(r)),
            reference: word(r),
            bytes: word(r),
            lbn: word(r) * u32::from(touches),
            done: word(r),
            weight: word(r),
            unit: half(r),
            opcode: byte(r),
            touches,
            connection: flag(r),
        };
        assert_eq!(Upcoming::from(it).in_c(), it);
        let (touched, ended) = (flag(r), flag(r));
        let it = raw::Report {
            reference: word(r),
            lbn: word(r) * u32::from(touched),
            seek: word(r),
            unit: half(r),
            status: half(r) * u16::from(ended),
            touched,
            started: flag(r),
            ended,
            connection: flag(r),
        };
        assert_eq!(Report::from(it).in_c(), it);
        let it = raw::Waiting { reference: word(r), figure: word(r), connection: flag(r) };
        assert_eq!(Waiting::from(it).in_c(), it);
        let it = raw::Holder { reference: word(r), connection: flag(r), fences: flag(r), overdrawn: flag(r) };
        assert_eq!(Holder::from(it).in_c(), it);
        let it = raw::Hardware { bus: flag(r), model: byte(r), software: byte(r), version: byte(r) };
        assert_eq!((Hardware::from(it).in_c(), raw::Hardware::from(Hardware::from(it))), (it, it));
        let (is_protected, is_removable) = (r.below(2) == 0, r.below(2) == 0);
        let it = Medium { size: word(r), media: word(r), is_protected, is_removable };
        assert_eq!(raw::Medium::from(it), it.in_c());
        let (unit, limits) = (any_unit(r), any_limits(r));
        assert_eq!((raw::Unit::from(unit), Unit::from(unit.in_c())), (unit.in_c(), unit));
        assert_eq!((raw::Limits::from(limits), Limits::from(limits.in_c())), (limits.in_c(), limits));
    }
}

/// Each flag of a volume is told alone under its own name.
#[test]
fn each_flag_is_told_alone() {
    let none = raw::Volume::ZERO;
    let told = |it: raw::Volume| {
        let it = Volume::from(it);
        [it.is_there, it.is_protected, it.is_protected_by_host, it.is_online, it.is_removable]
    };
    assert_eq!(told(none), [false; 5]);
    assert_eq!(told(raw::Volume { is_there: 1, ..none }), [true, false, false, false, false]);
    assert_eq!(told(raw::Volume { is_protected: 1, ..none }), [false, true, false, false, false]);
    assert_eq!(told(raw::Volume { is_protected_by_host: 1, ..none }), [false, false, true, false, false]);
    assert_eq!(told(raw::Volume { is_online: 1, ..none }), [false, false, false, true, false]);
    assert_eq!(told(raw::Volume { is_removable: 1, ..none }), [false, false, false, false, true]);
}

fn any_unit(r: &mut Random) -> Unit {
    let id = u64::from(word(r)) << 32 | u64::from(word(r));
    let (size, media, serial) = (word(r), word(r), word(r));
    Unit { id, number: half(r), size, media, serial, track: half(r), group: half(r), cylinder: half(r) }
}

fn any_limits(r: &mut Random) -> Limits {
    let (id, budget) = (u64::from(word(r)) << 32 | u64::from(word(r)), u64::from(word(r)) << r.below(9));
    Limits { id, budget, credits: word(r), second: word(r), longest: word(r), timeout: half(r) }
}

/// Limits at their edges, a few of which are behind them.
fn limits_at_edges(r: &mut Random) -> Limits {
    let credits = [2, 2, 32, 62, 64, 63, 1, 65][r.below(8)];
    let second = [0, 0, 0, 2, 2, 32, 62, 1, 63][r.below(9)];
    let longest = [1, 1, 64, 8_388_608, 8_388_608, 8_388_609, 0][r.below(7)];
    let timeout = [1, 255, 1, 255, 0, 256][r.below(6)];
    let bound = u64::from(u32::MAX) - u64::from(longest) * u64::from(credits + second - 1 - u32::from(second > 0));
    let budget = [0, 1, bound, bound + 1, bound.wrapping_sub(1)][r.below(5)];
    Limits { id: 7, budget, credits, second, longest, timeout }
}

fn units_at_edges(r: &mut Random) -> Vec<Unit> {
    let count = [1, 1, 2, 16, 16, 17, 18, 0][r.below(8)];
    let first = [0, 1, u16::MAX - 15][r.below(3)];
    let mut units: Vec<_> = (0..count)
        .map(|i| Unit { number: first.saturating_add(i), id: u64::from(i) << 40, serial: u32::from(i), ..UNIT })
        .collect();
    if count > 0 {
        let it = &mut units[r.below(count.into())];
        match r.below(14) {
            0 => it.track = 0,
            1 => it.group = 0,
            2 => it.cylinder = 0,
            3 => it.size = 0,
            4 => it.number = 3,
            _ => *it = Unit { size: u32::MAX, media: u32::MAX, track: u16::MAX, group: u16::MAX, ..*it },
        }
    }
    units
}

/// What is made is made as by C, or refused for the same reason, and says of what it was made.
#[test]
fn makers_refuse_as_c_does() {
    let mut random = Random(5);
    let r = &mut random;
    let (mut controllers, mut ports) = (0, 0);
    for _ in 0..4000 {
        let (limits, units) = (limits_at_edges(r), units_at_edges(r));
        let (picker, list) = (Picker::ALL[r.below(2)], units.iter().map(|it| it.in_c()).collect::<Vec<_>>());
        let mut c = Raw::new(raw::PORT_SIZE, if r.below(2) == 0 { raw::ROOM } else { raw::PORT_ROOM });
        let (handle, in_c, count) = (c.handle(), limits.in_c(), list.len());
        // SAFETY: the handle is ours.
        let settings = if unsafe { (*handle).mark } == raw::ROOM {
            let safe = Controller::new(&limits, &units, picker);
            // SAFETY: the handle is that of memory of its own, in which nothing was made; all else is there.
            let number = unsafe { raw::mscp_init_at(handle, &in_c, list.as_ptr(), count, picker.number()) };
            assert_eq!(status_of(&safe, |_| status::DONE), number);
            controllers += safe.is_ok() as u32;
            safe.ok().map(|it| it.settings())
        } else {
            let hardware = Hardware { bus: BusKind::ALL[r.below(2)], model: byte(r), software: byte(r), version: 5 };
            let credits = [1, 1, limits.credits - 1, limits.credits - 1, limits.credits, 0][r.below(6)];
            let safe = Port::new(&limits, &units, picker, hardware, credits);
            let (list, kind) = (list.as_ptr(), hardware.in_c());
            // SAFETY: the handle is that of memory of its own, in which nothing was made; all else is there.
            let number = unsafe { raw::mscp_port_init_at(handle, &in_c, list, count, picker.number(), &kind, credits) };
            assert_eq!(status_of(&safe, |_| status::DONE), number);
            ports += safe.is_ok() as u32;
            safe.ok().map(|it| it.settings())
        };
        settings.into_iter().for_each(|it| assert_eq!((it.limits, &*it.units), (limits, &*units)));
    }
    assert!(controllers > 100 && ports > 50, "{controllers} controllers and {ports} ports");
}

/// The last that is taken and the first that isn't, at each end.
#[test]
fn limits_end_where_they_say() {
    let made = |it: Limits| Controller::new(&it, &[UNIT], Picker::Oldest).err();
    let alone = Limits { second: 0, ..LIMITS };
    for credits in 0..70 {
        let told = if (2..=64).contains(&credits) { Ok(credits) } else { Err(Error::BadCredits) };
        assert_eq!(Host::new(credits).map(|it| it.balance()), told);
        let it = Controller::new(&Limits { credits, ..alone }, &[UNIT], Picker::Oldest);
        assert_eq!(it.map(|it| it.balance(Connection::First)), told);
        for second in 0..70 {
            let is_good = second == 0 || second >= 2 && credits + second <= 64;
            let fault = Some(Error::BadCredits).filter(|_| !is_good || !(2..=64).contains(&credits));
            let it = Controller::new(&Limits { credits, second, ..LIMITS }, &[UNIT], Picker::Oldest);
            assert_eq!(it.as_ref().err(), fault.as_ref(), "{credits} and {second}");
            it.into_iter().for_each(|it| assert_eq!(it.balance(Connection::Second), second));
        }
    }
    for timeout in [0, 1, 255, 256, u16::MAX] {
        let fault = Some(Error::BadTimeout).filter(|_| !(1..=255).contains(&timeout));
        assert_eq!(made(Limits { timeout, ..LIMITS }), fault);
    }
    for longest in [0, 1, 8_388_608, 8_388_609, u32::MAX] {
        let fault = Some(Error::BadLongest).filter(|_| !(1..=8_388_608).contains(&longest));
        assert_eq!(made(Limits { longest, ..LIMITS }), fault);
    }
    // 5 and 3 commands of 8 blocks, and the budget, are the bound.
    let most = u64::from(u32::MAX) - 8 * 8;
    for budget in [0, most, most + 1, u64::MAX] {
        assert_eq!(made(Limits { budget, ..LIMITS }), Some(Error::BadBound).filter(|_| budget > most));
    }
    for length in 0..80 {
        let sent = Controller::new(&LIMITS, &[UNIT], Picker::Oldest).unwrap().send(Connection::First, &vec![0; length]);
        let fault = [Error::Short, Error::Long][usize::from(length > 12)];
        let good = Sent::Answered { reference: 0, aborted: None };
        assert_eq!(sent, if (12..=64).contains(&length) { Ok(good) } else { Err(fault) });
    }
    for status in 0..=u16::MAX {
        assert_eq!(BadBlock::new(status).map(BadBlock::status), Some(status).filter(|it| it % 32 >= 5));
    }
}

/// A volume has 1 block to those of its unit.
#[test]
fn volumes_fit_their_units() {
    for size in [1, 64, 0x1_0000, u32::MAX - 1, u32::MAX] {
        let mut port = Port::new(&LIMITS, &[Unit { size, ..UNIT }], Picker::Sweep, Hardware::UDA50, 5).unwrap();
        for it in [0, 1, size - 1, size, size.saturating_add(1)] {
            let told = port.volume_came(1, &Medium { size: it, ..Medium::default() });
            assert_eq!(told, if (1..=size).contains(&it) { Ok(()) } else { Err(Error::BadSize) });
            assert!(told.is_err() || port.volume(1).map(|it| it.size) == Ok(it));
        }
    }
}

/// The statuses of the manual: Data Error is 8, and Drive Error 11.
#[test]
fn bad_blocks_have_their_statuses() {
    assert_eq!((BadBlock::DATA_ERROR.status(), BadBlock::DRIVE_ERROR.status()), (8, 11));
    assert_eq!(BadBlock::new(8), Some(BadBlock::DATA_ERROR));
    assert_eq!(BadBlock::new(11), Some(BadBlock::DRIVE_ERROR));
}

fn send(it: &mut Controller, connection: Connection, opcode: Opcode, reference: u32) {
    let order = Order::Other(opcode.number());
    let message = Command { reference, unit: 1, modifiers: 0, order }.message();
    assert!(it.send(connection, &[&*message, &[0; 24]].concat()).is_ok());
}

/// Who doesn't wait has no figure, and nobody keeps him back; who waits has one above 0.
#[test]
fn nobody_has_a_figure() {
    let mut it = moved(Controller::new(&LIMITS, &[UNIT], Picker::Oldest).unwrap());
    let nobody = |it: &Controller, connection, reference| {
        assert_eq!(it.figure(connection, reference), None);
        assert!(it.why(connection, reference).is_empty());
    };
    for reference in [0, 1, 9, u32::MAX] {
        nobody(&it, Connection::First, reference);
        nobody(&it, Connection::Second, reference);
    }
    send(&mut it, Connection::First, Opcode::Online, 9);
    send(&mut it, Connection::Second, Opcode::Online, 10);
    let second = Holder { connection: Connection::First, reference: 9, fences: true, is_overdrawn: false };
    // Its one step and the budget; and that, and the step of the command before it.
    assert_eq!(it.figure(Connection::First, 9), Some(21));
    assert_eq!(it.figure(Connection::Second, 10), Some(22));
    assert_eq!(&*it.why(Connection::Second, 10), &[second]);
    for (connection, reference) in [(Connection::First, 10), (Connection::Second, 9), (Connection::First, 0)] {
        nobody(&it, connection, reference);
    }
    assert!(it.step(0).unwrap().is_some());
    nobody(&it, Connection::First, 9);
    assert_eq!((it.untaken(Connection::First), it.waiting(Connection::First)), (1, 0));
    assert_eq!((it.untaken(Connection::Second), it.waiting(Connection::Second)), (0, 1));
    assert_eq!((it.balance(Connection::First), it.balance(Connection::Second)), (5, 3));
    assert!(it.is_online(1) && !it.is_online(0));
    it.reset();
    nobody(&it, Connection::Second, 10);
    assert!(!it.is_online(1));
    let port = Port::new(&LIMITS, &[UNIT], Picker::Oldest, Hardware::RQDX3, 5).unwrap();
    assert!(port.why(Connection::First, 9).is_empty() && port.look().is_empty() && port.begun().is_none());
}
