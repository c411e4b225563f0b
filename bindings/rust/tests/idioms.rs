//! What people expect of any type: it prints itself, its errors go where errors go, and lists give what is in them.

use std::error;
use std::mem::MaybeUninit;

use mscp::{raw, Command, Connection, Controller, Driver, Error, Hardware, Host, Limits};
use mscp::{Opcode, Order, Picker, Port, Stage, Unit, Waiting};

const LIMITS: Limits = Limits { id: 7, budget: 20, credits: 6, second: 4, longest: 8, timeout: 60 };
const UNIT: Unit = Unit { id: 3, number: 1, size: 64, media: 5, serial: 9, track: 4, group: 2, cylinder: 1 };

/// An ONLINE of unit 1 by reference number 9, as a message of the shortest length.
const ONLINE: [u8; 12] = [9, 0, 0, 0, 1, 0, 0, 0, 9, 0, 0, 0];

fn controller() -> Controller {
    let mut it = Controller::new(&LIMITS, &[UNIT], Picker::Oldest).unwrap();
    let _ = it.send(Connection::First, &[&ONLINE[..], &[0; 24]].concat()).unwrap();
    it
}

#[test]
fn handles_print_what_they_hold() {
    let waiting = Waiting { connection: Connection::First, reference: 9, figure: 21 }; // its step, and the budget
    assert_eq!(format!("{:?}", controller()), format!("Controller {{ waiting: [{waiting:?}], untaken: [0, 0], .. }}"));
    assert_eq!(format!("{:?}", Host::new(5).unwrap()), "Host { balance: 5, .. }");
    assert_eq!(format!("{:?}", Driver::new(5).unwrap()), "Driver { credits: 1, .. }");
    let port = Port::new(&LIMITS, &[UNIT], Picker::Oldest, Hardware::UDA50, 4).unwrap();
    let state = port.state();
    assert_eq!(state.stage, Stage::First);
    assert_eq!(format!("{port:?}"), format!("Port {{ bus: Uni, state: {state:?}, waiting: [], .. }}"));
}

/// A struct with a handle in it derives what is derived of it.
#[test]
fn handles_are_in_structs_that_print_themselves() {
    #[derive(Debug)]
    struct Machine {
        host: Host,
    }
    let machine = Machine { host: Host::new(2).unwrap() };
    assert_eq!(format!("{machine:?}"), format!("Machine {{ host: {:?} }}", machine.host));
}

/// `?` takes an error into whatever holds any.
#[test]
fn errors_go_where_errors_go() {
    fn balance(credits: u32) -> Result<u32, Box<dyn error::Error>> {
        Ok(Host::new(credits)?.balance())
    }
    assert_eq!(balance(5).unwrap(), 5);
    let told = balance(1).unwrap_err();
    assert_eq!(told.to_string(), Error::BadCredits.text());
    assert_eq!(told.downcast_ref::<Error>(), Some(&Error::BadCredits));
}

#[test]
fn lists_give_what_is_in_them() {
    let look = controller().look();
    assert_eq!(look.into_iter().map(|it: Waiting| it.reference).collect::<Vec<_>>(), [9]);
    let mut controller = controller();
    let _ = controller.step(0).unwrap();
    let end = controller.take(Connection::First).unwrap();
    let bytes: Vec<u8> = end.into_iter().collect();
    assert_eq!((bytes.len(), bytes[8]), (44, 0x80 | Opcode::Online.number()));
    assert_eq!(bytes, &*end);
    assert_eq!(((&end).into_iter().count(), end.as_ref().len(), end.len()), (44, 44, 44));
    assert_eq!(format!("{end:?}"), format!("{bytes:?}"));
    let packet = |order| Command { reference: 9, unit: 1, modifiers: 0, order }.message();
    let (bare, other) = (packet(Order::Online), packet(Order::Available));
    assert!(bare == packet(Order::Online) && bare != other && bare != packet(Order::Abort(0)));
}

/// Whatever stood in a place behind what the library takes of it stands there still: nothing of its size is moved there.
#[test]
fn places_are_not_written_as_a_whole() {
    fn behind<T>(place: &MaybeUninit<T>, from: usize, to: usize) -> Vec<u8> {
        let at = place.as_ptr().cast::<u8>();
        // SAFETY: all of the place was written as bytes, and the library writes bytes.
        (from..to).map(|i| unsafe { at.add(i).read() }).collect()
    }
    fn painted<T>() -> Box<MaybeUninit<T>> {
        let mut it = Box::new(MaybeUninit::<T>::uninit());
        // SAFETY: the place is ours.
        unsafe { it.as_mut_ptr().cast::<u8>().write_bytes(0xA5, std::mem::size_of::<T>()) };
        it
    }
    // SAFETY: they read nothing.
    let (size, host_size, port_size) = unsafe { (raw::mscp_size(), raw::mscp_host_size(), raw::mscp_port_size()) };
    let head = std::mem::size_of::<raw::Handle>();
    let mut place = painted();
    let _ = Controller::new_in(&mut place, &LIMITS, &[UNIT], Picker::Oldest).unwrap();
    assert!(behind(&place, head + size, head + raw::SIZE).iter().all(|it| *it == 0xA5));
    let mut place = painted();
    let _ = Host::new_in(&mut place, 5).unwrap();
    assert!(behind(&place, head + host_size, head + raw::HOST_SIZE).iter().all(|it| *it == 0xA5));
    let mut place = painted();
    let _ = Port::new_in(&mut place, &LIMITS, &[UNIT], Picker::Oldest, Hardware::RQDX3, 4).unwrap();
    assert!(behind(&place, head + port_size, head + raw::PORT_SIZE).iter().all(|it| *it == 0xA5));
}
