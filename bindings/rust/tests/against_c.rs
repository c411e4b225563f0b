//! Random calls of the safe types answer as the calls of C do that are made directly, on memory of their own. The safe values
//! move meanwhile.

mod common;

use common::{moved, status_of, InC, Random, Raw};
use mscp::raw::{self, status};
use mscp::{Connection, Controller, Error, Host, Limits, News, Picker, Poll, Sent, Unit};

const LIMITS: Limits = Limits { id: 7, budget: 20, credits: 6, second: 4, longest: 8, timeout: 60 };
const UNITS: [Unit; 2] = [
    Unit { id: 3, number: 1, size: 64, media: 5, serial: 9, track: 4, group: 2, cylinder: 1 },
    Unit { id: 4, number: 6, size: 40, media: 6, serial: 8, track: 5, group: 1, cylinder: 2 },
];
const OPCODES: [u8; 13] = [1, 2, 3, 4, 8, 9, 10, 16, 18, 32, 33, 34, 77];

/// A message of some command, often one that is valid.
fn message(random: &mut Random) -> Vec<u8> {
    let unit = [1, 6, 1, 6, 2][random.below(5)];
    let bytes = [0, 512, 1024, 1500, 4096, 8192][random.below(6)];
    let words = [
        random.below(8) as u32,
        unit,
        OPCODES[random.below(13)].into(),
        if random.below(3) == 0 { random.below(8) as u32 } else { bytes },
        0,
        0,
        0,
        random.below(70) as u32,
    ];
    let mut message = words.map(u32::to_le_bytes).concat();
    if random.below(10) == 0 {
        message.resize(random.below(70), 0);
    }
    message
}

/// Whether C answers that this is done, where the safe call answers something or nothing.
fn same<T>(told: &Option<T>, number: i32) -> bool {
    assert_eq!(number, i32::from(told.is_some()));
    told.is_some()
}

fn send(safe: &mut Controller, c: &mut Raw, random: &mut Random, connection: Connection) {
    let (bytes, mut sent) = (message(random), raw::Sent::ZERO);
    let told = safe.send(connection, &bytes);
    // SAFETY: the handle is that of a controller that was made; all else is there.
    let number = unsafe { raw::mscp_send_at(c.handle(), connection.number(), bytes.as_ptr(), bytes.len(), &mut sent) };
    match told {
        Err(error) => assert_eq!(error.status(), number),
        Ok(Sent::Queued { reference }) => assert_eq!((number, sent.reference), (status::QUEUED, reference)),
        Ok(Sent::Answered { reference, aborted }) => {
            assert_eq!((number, sent.reference), (status::ANSWERED, reference));
            assert_eq!(aborted, Some(sent.aborted).filter(|_| sent.has_aborted == 1));
        }
    }
}

fn take(safe: &mut Controller, c: &mut Raw, connection: Connection) {
    let mut end = raw::Packet::ZERO;
    let told = safe.take(connection);
    // SAFETY: the handle is that of a controller that was made; `end` is there.
    let number = unsafe { raw::mscp_take(c.handle(), connection.number(), &mut end) };
    if same(&told, number) {
        assert_eq!(&*told.unwrap(), &end.bytes[..end.length as usize]);
    }
}

fn serve(safe: &mut Controller, c: &mut Raw, random: &mut Random) {
    let (mut upcoming, mut report) = (raw::Upcoming::ZERO, raw::Report::ZERO);
    let block = [0, 0, 0, 8, 3, 0x0125, 0xFFFF][random.below(7)];
    if random.below(2) == 0 {
        let told = safe.step(block);
        // SAFETY: the handle is that of a controller that was made; `report` is there.
        let number = unsafe { raw::mscp_step(c.handle(), block, &mut report) };
        assert_eq!(status_of(&told, |it| i32::from(it.is_some())), number);
        told.ok().flatten().into_iter().for_each(|it| assert_eq!(it.in_c(), report));
        return;
    }
    let told = safe.begin();
    // SAFETY: the handle is that of a controller that was made; `upcoming` is there.
    let number = unsafe { raw::mscp_begin(c.handle(), &mut upcoming) };
    if !same(&told, number) {
        return;
    }
    let it = told.unwrap();
    assert_eq!(it.in_c(), upcoming);
    let reference = if random.below(6) == 0 { 99 } else { it.reference };
    let told = safe.finish(it.connection, reference, block);
    // SAFETY: the handle is that of a controller that was made; `report` is there.
    let number = unsafe { raw::mscp_finish(c.handle(), it.connection.number(), reference, block, &mut report) };
    assert_eq!(status_of(&told, |_| status::DONE), number);
    told.into_iter().for_each(|it| assert_eq!(it.in_c(), report));
}

/// All that is told of it without a change.
fn looks(safe: &Controller, c: &mut Raw, random: &mut Random, connection: Connection) {
    let (number, reference, unit) = (connection.number(), random.below(8) as u32, random.below(8) as u16);
    let mut list = [raw::Waiting::ZERO; 63];
    let mut holders = [raw::Holder::ZERO; 63];
    let (mut limits, mut units) = (raw::Limits::ZERO, [raw::Unit::ZERO; 16]);
    let c = c.handle();
    // SAFETY: the handle is that of a controller that was made; each list has its room.
    unsafe {
        assert_eq!(safe.look().len() as i32, raw::mscp_look_at(c, list.as_mut_ptr(), 63));
        assert_eq!(
            safe.why(connection, reference).len() as i32,
            raw::mscp_why_at(c, number, reference, holders.as_mut_ptr(), 63)
        );
        let figure = raw::mscp_figure(c, number, reference);
        assert_eq!(safe.figure(connection, reference).map(i64::from), Some(figure).filter(|it| *it > 0));
        assert_eq!(i64::from(safe.waiting(connection)), raw::mscp_waiting(c, number));
        assert_eq!(i64::from(safe.untaken(connection)), raw::mscp_untaken(c, number));
        assert_eq!(i64::from(safe.balance(connection)), raw::mscp_balance(c, number));
        assert_eq!(i32::from(safe.is_online(unit)), raw::mscp_is_online(c, unit));
        assert_eq!(safe.settings().units.len() as i32, raw::mscp_settings_at(c, &mut limits, units.as_mut_ptr(), 16));
    }
    assert!(safe.look().into_iter().zip(list).all(|(it, c_it)| it.in_c() == c_it));
    assert!(safe.why(connection, reference).into_iter().zip(holders).all(|(it, c_it)| it.in_c() == c_it));
    let told = safe.settings();
    assert_eq!((told.limits, &*told.units), (LIMITS, UNITS.as_ref()));
    assert_eq!(
        (told.limits.in_c(), told.units.into_iter().map(InC::in_c).collect::<Vec<_>>()),
        (limits, units[..2].to_vec())
    );
}

fn saved(c: &mut Raw) -> Vec<u8> {
    let (mut bytes, mut length) = (vec![0; mscp::SAVED_MAX], 0);
    // SAFETY: the handle is that of a controller that was made; the bytes are that room.
    assert_eq!(unsafe { raw::mscp_save_at(c.handle(), bytes.as_mut_ptr(), bytes.len(), &mut length) }, status::DONE);
    bytes.truncate(length);
    bytes
}

#[test]
fn controllers_answer_as_c_does() {
    let mut random = Random(1);
    for round in 0..200 {
        let picker = Picker::ALL[round % 2];
        let mut safe = Box::new(Controller::new(&LIMITS, &UNITS, picker).unwrap());
        let (limits, units) = (LIMITS.in_c(), UNITS.map(InC::in_c));
        let mut c = Raw::new(raw::SIZE, raw::ROOM);
        // SAFETY: the handle is that of memory of its own, in which nothing was made; all else is there.
        let number = unsafe { raw::mscp_init_at(c.handle(), &limits, units.as_ptr(), 2, picker.number()) };
        assert_eq!(number, status::DONE);
        for _ in 0..300 {
            let connection = Connection::ALL[random.below(2)];
            match random.below(12) {
                0..=4 => send(&mut safe, &mut c, &mut random, connection),
                5 | 6 => take(&mut safe, &mut c, connection),
                7..=9 => serve(&mut safe, &mut c, &mut random),
                10 => looks(&safe, &mut c, &mut random, connection),
                _ if random.below(20) == 0 => {
                    safe.reset();
                    // SAFETY: the handle is that of a controller that was made.
                    assert_eq!(unsafe { raw::mscp_reset(c.handle()) }, status::DONE);
                }
                _ => {
                    assert_eq!(&*safe.save(), saved(&mut c));
                    safe = moved(if random.below(2) == 0 { *safe } else { Controller::restore(&safe.save()).unwrap() });
                }
            }
        }
        assert_eq!(&*safe.save(), saved(&mut c));
    }
}

/// A host and the controller that it talks with, each beside one of C's.
#[test]
fn hosts_answer_as_c_does() {
    let mut random = Random(2);
    for _ in 0..200 {
        let mut controller = Controller::new(&LIMITS, &UNITS, Picker::Sweep).unwrap();
        let mut safe = Box::new(Host::new(6).unwrap());
        let mut c = Raw::new(raw::HOST_SIZE, raw::HOST_ROOM);
        // SAFETY: the handle is that of memory of its own, in which nothing was made.
        assert_eq!(unsafe { raw::mscp_host_init_at(c.handle(), 6) }, status::DONE);
        for _ in 0..300 {
            match random.below(6) {
                0 | 1 => submit(&mut safe, &mut c, &mut controller, &message(&mut random)),
                2 => poll(&mut safe, &mut c, &mut controller, random.below(4) as u32 + 100),
                3 => drop(controller.step(0)),
                4 => {
                    let mut end = controller.take(Connection::First).map_or_else(Vec::new, |it| it.to_vec());
                    if random.below(10) == 0 {
                        end.iter_mut().for_each(|byte| *byte ^= random.below(8) as u8 / 7);
                    }
                    receive(&mut safe, &mut c, &end);
                }
                _ => {
                    let (mut bytes, mut length) = ([0; mscp::HOST_SAVED_MAX], 0);
                    // SAFETY: the handle is that of a host that was made; the bytes are that room.
                    unsafe {
                        assert_eq!(i64::from(safe.balance()), raw::mscp_host_balance(c.handle()));
                        let status = raw::mscp_host_save_at(c.handle(), bytes.as_mut_ptr(), bytes.len(), &mut length);
                        assert_eq!(status, status::DONE);
                    }
                    assert_eq!(&*safe.save(), &bytes[..length]);
                    safe = moved(if random.below(2) == 0 { *safe } else { Host::restore(&bytes[..length]).unwrap() });
                }
            }
        }
    }
}

fn submit(safe: &mut Host, c: &mut Raw, controller: &mut Controller, message: &[u8]) {
    let told = safe.submit(message);
    // SAFETY: the handle is that of a host that was made; the message has so many bytes.
    let number = unsafe { raw::mscp_host_submit_at(c.handle(), message.as_ptr(), message.len()) };
    assert_eq!(status_of(&told, |_| status::DONE), number);
    if told.is_ok() {
        let _ = controller.send(Connection::First, message);
    }
}

fn poll(safe: &mut Host, c: &mut Raw, controller: &mut Controller, reference: u32) {
    let mut message = raw::Packet::ZERO;
    let told = safe.poll(reference);
    // SAFETY: the handle is that of a host that was made; `message` is there.
    let number = unsafe { raw::mscp_host_poll(c.handle(), reference, &mut message) };
    assert_eq!(status_of(&told, |it| it.in_c()), number);
    if let Ok(Poll::Send(bytes)) = told {
        assert_eq!(&*bytes, &message.bytes[..message.length as usize]);
        let _ = controller.send(Connection::First, &bytes);
    }
}

fn receive(safe: &mut Host, c: &mut Raw, end: &[u8]) {
    let mut news = raw::News::ZERO;
    let told = safe.receive(end);
    // SAFETY: the handle is that of a host that was made; all else is there.
    let number = unsafe { raw::mscp_host_receive_at(c.handle(), end.as_ptr(), end.len(), &mut news) };
    let in_c = |it: &News| match it {
        News::Ended { .. } => status::ENDED,
        News::First(_) => status::FIRST,
        News::Progress(_) => status::PROGRESS,
        News::Late => status::LATE,
        News::NoProgress => status::NO_PROGRESS,
        News::Lost => status::LOST,
    };
    assert_eq!(status_of(&told, in_c), number);
    match told {
        Ok(News::Ended { reference, unit, status, moved, code }) => {
            let raw::News { figure: _, reference: r, moved: m, unit: u, status: s, code: c } = news;
            assert_eq!((reference, unit, status, moved, code), (r, u, s, m, c));
        }
        Ok(News::First(figure) | News::Progress(figure)) => assert_eq!(figure, news.figure),
        _ => {}
    }
}

/// Each is refused for what is wrong, and more units than there may be are too.
#[test]
fn faults_are_those_of_c() {
    let made = |limits: Limits, units: &[Unit]| Controller::new(&limits, units, Picker::Oldest).err();
    assert_eq!(made(LIMITS, &UNITS), None);
    assert_eq!(made(LIMITS, &[]), Some(Error::NoUnits));
    assert_eq!(made(LIMITS, &[UNITS[1], UNITS[0]]), Some(Error::UnitsFall));
    assert_eq!(made(LIMITS, &[Unit { track: 0, ..UNITS[0] }]), Some(Error::ZeroTrack));
    assert_eq!(made(Limits { credits: 1, ..LIMITS }, &UNITS), Some(Error::BadCredits));
    for count in [16, 17, 18, 40] {
        let units: Vec<_> = (0..count).map(|number| Unit { number, ..UNITS[0] }).collect();
        assert_eq!(made(LIMITS, &units), Some(Error::ManyUnits).filter(|_| count > 16));
    }
    assert_eq!(Host::new(1).err(), Some(Error::BadCredits));
    assert_eq!(Controller::restore(b"nothing").err(), Some(Error::SavedLength));
}

/// What is made in a place answers there, and from another thread.
#[test]
fn places_and_threads_serve() {
    let mut place = std::mem::MaybeUninit::uninit();
    let controller = Controller::new_in(&mut place, &LIMITS, &UNITS, Picker::Sweep).unwrap();
    let sent = std::thread::scope(|it| it.spawn(|| controller.send(Connection::First, &[0; 12])).join().unwrap());
    assert_eq!(sent, Ok(Sent::Answered { reference: 0, aborted: None }));
    assert_eq!(controller.untaken(Connection::First), 1);
    let mut place = std::mem::MaybeUninit::uninit();
    assert_eq!(Host::new_in(&mut place, 3).unwrap().balance(), 3);
    assert_eq!(Host::new_in(&mut place, 1).err(), Some(Error::BadCredits));
}
