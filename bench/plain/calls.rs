//! The calls of `mscp.h` that `bench/rounds.c` makes, over the plain queue, as a static library.
//!
//!     bench/plain/build .

mod drive;
mod end;
mod picker;
mod queue;
mod slot;

use drive::Unit;
use queue::{Limits, Queue, Refused, Sent};
use slot::{Body, Command};

const NOTHING: i32 = 0;
const DONE: i32 = 1;
const QUEUED: i32 = 2;
const ANSWERED: i32 = 3;
const SHORT: i32 = -1;
const LONG: i32 = -2;

#[repr(C)]
pub struct Handle {
    queue: *mut Queue,
    rest: [u64; 3],
}

#[repr(C)]
pub struct CLimits {
    id: u64,
    budget: u64,
    credits: u32,
    second: u32,
    longest: u32,
    timeout: u16,
}

#[repr(C)]
pub struct CUnit {
    id: u64,
    size: u32,
    media: u32,
    serial: u32,
    number: u16,
    track: u16,
    group: u16,
    cylinder: u16,
}

#[repr(C)]
pub struct CSent {
    reference: u32,
    aborted: u32,
    has_aborted: u8,
}

#[repr(C)]
pub struct CReport {
    reference: u32,
    lbn: u32,
    seek: u32,
    unit: u16,
    status: u16,
    touched: u8,
    started: u8,
    ended: u8,
    connection: u8,
}

#[repr(C)]
pub struct CPacket {
    length: u32,
    bytes: [u8; 64],
}

/// That of the header.
#[no_mangle]
pub extern "C" fn mscp_version() -> u32 {
    0x0001_0000
}

/// # Safety
/// As `mscp.h` says.
#[no_mangle]
pub unsafe extern "C" fn mscp_init_at(
    handle: *mut Handle,
    limits: &CLimits,
    units: *const CUnit,
    count: usize,
    picker: u32,
) -> i32 {
    let units: Vec<Unit> = std::slice::from_raw_parts(units, count).iter().map(unit).collect();
    let limits = Limits {
        id: limits.id,
        budget: limits.budget as u32,
        credits: limits.credits,
        longest: limits.longest,
        timeout: limits.timeout,
    };
    (*handle).queue = Box::into_raw(Box::new(Queue::new(limits, &units, picker == 1)));
    DONE
}

fn unit(it: &CUnit) -> Unit {
    let (id, number, track, group, cylinder) = (it.id, it.number, it.track, it.group, it.cylinder);
    Unit { id, number, track, group, cylinder, size: it.size, media: it.media, serial: it.serial }
}

/// The command of a message, whose bytes past the end count as zero.
#[inline]
fn command(bytes: &[u8]) -> Command {
    if let Some(whole) = bytes.first_chunk::<32>() {
        return whole_command(whole);
    }
    let mut whole = [0; 32];
    whole[..bytes.len()].copy_from_slice(bytes);
    whole_command(&whole)
}

#[inline]
fn whole_command(bytes: &[u8; 32]) -> Command {
    let four = |at: usize| u32::from_le_bytes([bytes[at], bytes[at + 1], bytes[at + 2], bytes[at + 3]]);
    Command { reference: four(0), parameter: four(12), block: four(28), unit: four(4) as u16, opcode: bytes[8] }
}

/// # Safety
/// As `mscp.h` says.
#[no_mangle]
pub unsafe extern "C" fn mscp_send_at(
    handle: *mut Handle,
    _via: u32,
    bytes: *const u8,
    length: usize,
    out: &mut CSent,
) -> i32 {
    if !(12..=64).contains(&length) {
        return if length < 12 { SHORT } else { LONG };
    }
    let command = command(std::slice::from_raw_parts(bytes, length));
    let sent = (*(*handle).queue).send(command);
    (out.reference, out.aborted, out.has_aborted) = (command.reference, 0, 0);
    match sent {
        Ok(Sent::Queued(_)) => QUEUED,
        Ok(Sent::Answered) => ANSWERED,
        Ok(Sent::Aborted(other)) => {
            (out.aborted, out.has_aborted) = (other, 1);
            ANSWERED
        }
        Err(Refused::NoCredit) => -3,
        Err(Refused::LastCredit) => -4,
        Err(Refused::Doubled) => -5,
    }
}

/// # Safety
/// As `mscp.h` says.
#[no_mangle]
pub unsafe extern "C" fn mscp_step(handle: *mut Handle, block: u32, out: &mut CReport) -> i32 {
    let bad = if block == 0 { None } else { Some(block as u16) };
    let queue = &mut *(*handle).queue;
    let Some(it) = queue.step(bad) else {
        return NOTHING;
    };
    *out = CReport {
        reference: queue.slots[it.slot].command.reference,
        lbn: it.block.unwrap_or(0),
        seek: it.seek,
        unit: queue.drives[it.place].unit.number,
        status: it.ended.unwrap_or(0),
        touched: it.block.is_some().into(),
        started: it.has_started.into(),
        ended: it.ended.is_some().into(),
        connection: 0,
    };
    DONE
}

/// # Safety
/// As `mscp.h` says.
#[no_mangle]
pub unsafe extern "C" fn mscp_take(handle: *mut Handle, _via: u32, out: &mut CPacket) -> i32 {
    let queue = &mut *(*handle).queue;
    let Some(slot) = queue.take() else {
        return NOTHING;
    };
    let it = &queue.slots[slot];
    out.length = end::length(it.body) as u32;
    out.bytes[..16].copy_from_slice(&end::head(it));
    if it.body == Body::Moved {
        out.bytes[16..32].fill(0);
    } else {
        out.bytes[16..48].copy_from_slice(&end::tail(it, queue));
    }
    DONE
}
