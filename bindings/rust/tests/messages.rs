//! Commands and ends by their fields, whose places are those of the manual; and a driver's account as bytes.

use mscp::{Body, Command, Driver, End, Error, Opcode, Order, Transfer};

/// Bytes that are 0 but for these, of which each row stands from a place on.
fn bytes(length: usize, rows: &[(usize, &[u8])]) -> Vec<u8> {
    let mut it = vec![0; length];
    for (at, row) in rows {
        it[*at..*at + row.len()].copy_from_slice(row);
    }
    it
}

fn message(order: Order) -> Vec<u8> {
    Command { reference: 0x0403_0201, unit: 0x0605, modifiers: 0x0B0A, order }.message().to_vec()
}

/// With what every command has.
fn of_a_command(length: usize, opcode: u8, rows: &[(usize, &[u8])]) -> Vec<u8> {
    bytes(length, &[&[(0, &[1, 2, 3, 4, 5, 6][..]), (8, &[opcode]), (10, &[10, 11])], rows].concat())
}

#[test]
fn commands_are_written() {
    let it = Transfer { bytes: 0x1312_1110, lbn: 0x1F1E_1D1C, buffer: 0x1716_1514 };
    let rows: [(usize, &[u8]); 3] = [(12, &[16, 17, 18, 19]), (16, &[20, 21, 22, 23]), (28, &[28, 29, 30, 31])];
    let transfers =
        [Order::Access(it), Order::Erase(it), Order::CompareHostData(it), Order::Read(it), Order::Write(it)];
    for (order, opcode) in transfers.into_iter().zip([16, 18, 32, 33, 34]) {
        assert_eq!(message(order), of_a_command(32, opcode, &rows));
    }
    assert_eq!(message(Order::Abort(0x1312_1110)), of_a_command(16, 1, &[(12, &[16, 17, 18, 19])]));
    assert_eq!(message(Order::GetCommandStatus(7)), of_a_command(16, 2, &[(12, &[7])]));
    let order = Order::SetControllerCharacteristics { version: 0x1110, flags: 0x1312, timeout: 0x1514 };
    assert_eq!(message(order), of_a_command(18, 4, &[(12, &[16, 17, 18, 19, 20, 21])]));
    let bare = [Order::GetUnitStatus, Order::Available, Order::Online, Order::SetUnitCharacteristics, Order::Other(19)];
    for (order, opcode) in bare.into_iter().zip([3, 8, 9, 10, 19]) {
        assert_eq!(message(order), of_a_command(12, opcode, &[]));
    }
}

/// An end of this endcode, of command 9 and unit 3, with status 0x0102.
fn end(length: usize, code: u8, rows: &[(usize, &[u8])]) -> Vec<u8> {
    bytes(length, &[&[(0, &[9][..]), (4, &[3]), (8, &[code]), (10, &[2, 1])], rows].concat())
}

#[test]
fn ends_are_read() {
    let is = |bytes: Vec<u8>, body: Body| {
        let code = bytes[8];
        assert_eq!(End::read(&bytes), Ok(End { reference: 9, unit: 3, code, status: 0x0102, body }));
        assert_eq!(End::read(&bytes[..bytes.len() - 1]), Err(Error::Unreadable));
    };
    let id: (usize, &[u8]) = (20, &[1, 2, 3, 4, 5, 6, 7, 8]);
    let (number, media): (u64, (usize, &[u8])) = (0x0807_0605_0403_0201, (28, &[5, 6]));
    is(end(12, 0x80, &[]), Body::Bare);
    is(end(12, 0x88, &[]), Body::Bare);
    is(end(16, 0x81, &[(12, &[4, 5])]), Body::Abort(0x0504));
    is(end(20, 0x82, &[(12, &[4]), (16, &[5])]), Body::CommandStatus { other: 4, figure: 5 });
    let shape: (usize, &[u8]) = (36, &[7, 0, 8, 0, 9, 0]);
    let status = Body::UnitStatus { id: number, media: 0x0605, track: 7, group: 8, cylinder: 9 };
    is(end(48, 0x83, &[id, media, shape]), status);
    is(end(28, 0x84, &[(16, &[60]), id]), Body::Controller { timeout: 60, id: number });
    let online = Body::Online { id: number, media: 0x0605, size: 7, serial: 8 };
    is(end(44, 0x89, &[id, media, (36, &[7, 0, 0, 0, 8])]), online);
    is(end(44, 0x8A, &[id, media, (36, &[7, 0, 0, 0, 8])]), online);
    for code in [0x90, 0x92, 0xA0, 0xA1, 0xA2] {
        is(end(32, code, &[(12, &[4, 5])]), Body::Moved(0x0504));
    }
    for code in [0, 0x21, 0x40, 0x85] {
        assert_eq!(End::read(&end(48, code, &[])), Err(Error::Unreadable));
    }
    assert_eq!(End::read(&[0x80; 65]), Err(Error::Unreadable));
    assert_eq!(End::read(&[]), Err(Error::Unreadable));
}

#[test]
fn ends_are_shown() {
    let shown = |code: u8, status: u16| {
        let it = End { reference: 5, unit: 1, code, status, body: Body::Bare };
        it.to_string()
    };
    assert_eq!(shown(0xA1, 0), "READ 5 of unit 1: Success");
    assert_eq!(shown(0xA2, 0x0029), "WRITE 5 of unit 1: Host Buffer Access Error: odd transfer address");
    assert_eq!(shown(0x93, 0x0002), "FLUSH 5 of unit 1: Command Aborted");
    assert_eq!(shown(0x80, 0x0801), "command of an unknown opcode 5 of unit 1: Invalid Command: opcode");
    assert_eq!(shown(0x89, 0x0100), "ONLINE 5 of unit 1: Success: already online");
    assert_eq!(shown(0xAF, 0x0FFF), "FORMAT 5 of unit 1: unknown status");
    assert_eq!(Opcode::DetermineAccessPaths.to_string(), "DETERMINE ACCESS PATHS");
}

/// SET CONTROLLER CHARACTERISTICS takes the one credit. With it the account is saved, and goes on.
#[test]
fn drivers_go_on() {
    let mut driver = Driver::new(5).unwrap();
    let order = Order::SetControllerCharacteristics { version: 0, flags: 0x80, timeout: 0 };
    driver.submit(&Command { reference: 7, unit: 0, modifiers: 0, order }.message()).unwrap();
    let saved = driver.save();
    let other = Driver::restore(&saved, 5).unwrap();
    assert_eq!((other.credits(), other.outstanding().len()), (0, 1));
    assert_eq!(other.outstanding()[0].reference, 7);
    assert_eq!(*other.save(), *saved);
    assert_eq!(Driver::restore(&saved[1..], 5).unwrap_err(), Error::SavedLength);
}
