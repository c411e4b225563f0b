//! The calls of `mscp.h` as they are, for what the safe types don't have: scripts, and memory that is moved by others.
//!
//! `mscp.h` says what each means, and what you owe. The structs are those of C, field by field, and so are the numbers.
//! If C has an inline form that takes NULL for no bytes, this is the form with `_at`, which doesn't.
#![allow(missing_docs)]

use core::ffi::c_void;

/// What is aligned to 8 bytes on every machine.
#[repr(C, align(8))]
#[derive(Clone, Copy, Debug)]
pub struct Aligned<T>(pub T);

/// `struct mscp`, `struct mscp_host`, `struct mscp_port` and `struct mscp_driver`: where the memory is, and by `mark` what is in it.
#[repr(C)]
#[derive(Clone, Copy, Debug)]
pub struct Handle {
    pub at: Aligned<*mut c_void>,
    pub address: Aligned<u64>,
    pub length: u64,
    pub mark: u64,
}

pub const ROOM: u64 = 0x4D53_4350_524F_4F4D;
pub const HOST_ROOM: u64 = 0x484F_5354_524F_4F4D;
pub const PORT_ROOM: u64 = 0x504F_5254_524F_4F4D;
pub const DRIVER_ROOM: u64 = 0x4452_5652_524F_4F4D;
pub const SIZE: usize = 17920;
pub const HOST_SIZE: usize = 1536;
pub const PORT_SIZE: usize = 20480;
pub const DRIVER_SIZE: usize = 3072;

/// The statuses that are no faults.
pub mod status {
    pub const NOTHING: i32 = 0;
    pub const DONE: i32 = 1;
    pub const QUEUED: i32 = 2;
    pub const ANSWERED: i32 = 3;
    pub const BUSY: i32 = 4;
    pub const ENDED: i32 = 5;
    pub const FIRST: i32 = 6;
    pub const PROGRESS: i32 = 7;
    pub const LATE: i32 = 8;
    pub const NO_PROGRESS: i32 = 9;
    pub const LOST: i32 = 10;
    pub const MOVED_TOO_MUCH: i32 = 11;
    pub const REFUSED: i32 = 12;
    pub const NOW_AVAILABLE: i32 = 13;
    pub const ATTENTION: i32 = 14;
    pub const LOGGED: i32 = 15;
    pub const CREDITS: i32 = 16;
    pub const POLL: i32 = 17;
    pub const SILENT: i32 = 18;
}

macro_rules! structs {
    ($($(#[$meta:meta])* $name:ident { $($field:ident: $type:ty,)* })*) => {$(
        $(#[$meta])*
        #[repr(C)]
        #[derive(Clone, Copy, Debug, PartialEq, Eq)]
        pub struct $name { $(pub $field: $type,)* }

        impl $name {
            /// All fields are 0.
            pub const ZERO: Self = Self { $($field: <$type as Zero>::ZERO,)* };
        }
    )*};
}

/// A number, or a row of numbers.
pub trait Zero {
    const ZERO: Self;
}
impl Zero for u8 {
    const ZERO: Self = 0;
}
impl Zero for u16 {
    const ZERO: Self = 0;
}
impl Zero for u32 {
    const ZERO: Self = 0;
}
impl Zero for u64 {
    const ZERO: Self = 0;
}
impl<const N: usize> Zero for [u8; N] {
    const ZERO: Self = [0; N];
}

structs! {
    Unit { id: u64, size: u32, media: u32, serial: u32, number: u16, track: u16, group: u16, cylinder: u16, }
    Limits { id: u64, budget: u64, credits: u32, second: u32, longest: u32, timeout: u16, }
    Hardware { bus: u8, model: u8, software: u8, version: u8, }
    Medium { size: u32, media: u32, is_protected: u8, is_removable: u8, }
    Sent { reference: u32, aborted: u32, has_aborted: u8, }
    Packet { length: u32, bytes: [u8; 48], }
    Upcoming {
        serial: u64, reference: u32, bytes: u32, lbn: u32, done: u32, weight: u32, unit: u16, opcode: u8, touches: u8,
        connection: u8,
    }
    Report {
        reference: u32, lbn: u32, seek: u32, unit: u16, status: u16, touched: u8, started: u8, ended: u8, connection: u8,
    }
    Waiting { reference: u32, figure: u32, connection: u8, }
    Holder { reference: u32, connection: u8, fences: u8, overdrawn: u8, }
    News { figure: u32, reference: u32, moved: u32, unit: u16, status: u16, code: u8, }
    Heard {
        figure: u32, reference: u32, moved: u32, asked: u32, unit: u16, status: u16, code: u8, opcode: u8, credits: u8,
    }
    Asked { reference: u32, unit: u16, opcode: u8, bytes: u32, }
    Watch { timeout: u32, waited: u32, silent: u32, }
    Command {
        reference: u32, other: u32, bytes: u32, lbn: u32, buffer: u32, unit: u16, modifiers: u16, version: u16, flags: u16,
        timeout: u16, opcode: u8,
    }
    End {
        id: u64, reference: u32, other: u32, figure: u32, moved: u32, media: u32, size: u32, serial: u32, unit: u16,
        status: u16, track: u16, group: u16, cylinder: u16, timeout: u16, code: u8,
    }
    Action {
        serial: u64, address: u32, count: u32, block: u32, unit: u16, vector: u16, kind: u8, opcode: u8, bytes: [u8; 64],
    }
    State { word: u16, stage: u8, is_held_back: u8, }
    Volume {
        size: u32, media: u32, is_there: u8, is_protected: u8, is_protected_by_host: u8, is_online: u8, is_removable: u8,
    }
}

extern "C" {
    pub fn mscp_version() -> u32;
    pub fn mscp_size() -> usize;
    pub fn mscp_align() -> usize;
    pub fn mscp_host_size() -> usize;
    pub fn mscp_host_align() -> usize;
    pub fn mscp_port_size() -> usize;
    pub fn mscp_port_align() -> usize;
    pub fn mscp_driver_size() -> usize;
    pub fn mscp_driver_align() -> usize;

    pub fn mscp_init_at(m: *mut Handle, limits: *const Limits, units: *const Unit, count: usize, picker: u32) -> i32;
    pub fn mscp_reset(m: *mut Handle) -> i32;
    pub fn mscp_send_at(m: *mut Handle, connection: u32, message: *const u8, length: usize, sent: *mut Sent) -> i32;
    pub fn mscp_take(m: *mut Handle, connection: u32, end: *mut Packet) -> i32;
    pub fn mscp_begin(m: *mut Handle, upcoming: *mut Upcoming) -> i32;
    pub fn mscp_finish(m: *mut Handle, connection: u32, reference: u32, status: u16, report: *mut Report) -> i32;
    pub fn mscp_step(m: *mut Handle, status: u16, report: *mut Report) -> i32;
    pub fn mscp_look_at(m: *const Handle, list: *mut Waiting, room: usize) -> i32;
    pub fn mscp_why_at(m: *const Handle, connection: u32, reference: u32, list: *mut Holder, room: usize) -> i32;
    pub fn mscp_figure(m: *const Handle, connection: u32, reference: u32) -> i64;
    pub fn mscp_waiting(m: *const Handle, connection: u32) -> i64;
    pub fn mscp_untaken(m: *const Handle, connection: u32) -> i64;
    pub fn mscp_balance(m: *const Handle, connection: u32) -> i64;
    pub fn mscp_is_online(m: *const Handle, unit: u16) -> i32;
    pub fn mscp_settings_at(m: *const Handle, limits: *mut Limits, units: *mut Unit, room: usize) -> i32;
    pub fn mscp_save_size() -> usize;
    pub fn mscp_save_at(m: *const Handle, bytes: *mut u8, room: usize, length: *mut usize) -> i32;
    pub fn mscp_restore_at(m: *mut Handle, bytes: *const u8, length: usize) -> i32;

    pub fn mscp_host_init_at(h: *mut Handle, credits: u32) -> i32;
    pub fn mscp_host_balance(h: *const Handle) -> i64;
    pub fn mscp_host_submit_at(h: *mut Handle, message: *const u8, length: usize) -> i32;
    pub fn mscp_host_poll(h: *mut Handle, reference: u32, message: *mut Packet) -> i32;
    pub fn mscp_host_receive_at(h: *mut Handle, bytes: *const u8, length: usize, news: *mut News) -> i32;
    pub fn mscp_host_save_size() -> usize;
    pub fn mscp_host_save_at(h: *const Handle, bytes: *mut u8, room: usize, length: *mut usize) -> i32;
    pub fn mscp_host_restore_at(h: *mut Handle, bytes: *const u8, length: usize) -> i32;

    pub fn mscp_driver_init_at(d: *mut Handle) -> i32;
    pub fn mscp_driver_credits(d: *const Handle) -> i64;
    pub fn mscp_driver_submit_at(d: *mut Handle, message: *const u8, length: usize) -> i32;
    pub fn mscp_driver_poll(d: *mut Handle, reference: u32, message: *mut Packet) -> i32;
    pub fn mscp_driver_hear_at(
        d: *mut Handle,
        watch: *mut Watch,
        bytes: *const u8,
        length: usize,
        heard: *mut Heard,
    ) -> i32;
    pub fn mscp_driver_tick(d: *const Handle, watch: *mut Watch) -> i32;
    pub fn mscp_driver_outstanding_at(d: *const Handle, list: *mut Asked, room: usize) -> i32;
    pub fn mscp_driver_save_size() -> usize;
    pub fn mscp_driver_save_at(d: *const Handle, bytes: *mut u8, room: usize, length: *mut usize) -> i32;
    pub fn mscp_driver_restore_at(d: *mut Handle, bytes: *const u8, length: usize) -> i32;

    pub fn mscp_write_command(command: *const Command, message: *mut Packet) -> i32;
    pub fn mscp_read_end_at(bytes: *const u8, length: usize, end: *mut End) -> i32;

    pub fn mscp_port_init_at(
        p: *mut Handle,
        limits: *const Limits,
        units: *const Unit,
        count: usize,
        picker: u32,
        hardware: *const Hardware,
        credits: u32,
    ) -> i32;
    pub fn mscp_port_read_ip(p: *mut Handle) -> i32;
    pub fn mscp_port_write_ip(p: *mut Handle) -> i32;
    pub fn mscp_port_read_sa(p: *const Handle) -> i32;
    pub fn mscp_port_write_sa(p: *mut Handle, word: u16) -> i32;
    pub fn mscp_port_next(p: *mut Handle, action: *mut Action) -> i32;
    pub fn mscp_port_next_message(p: *mut Handle, action: *mut Action) -> i32;
    pub fn mscp_port_was_read_at(p: *mut Handle, bytes: *const u8, length: usize) -> i32;
    pub fn mscp_port_went(p: *mut Handle, outcome: u32, status: u16) -> i32;
    pub fn mscp_port_went_by(p: *mut Handle, serial: u64, outcome: u32, status: u16) -> i32;
    pub fn mscp_port_look_again(p: *mut Handle) -> i32;
    pub fn mscp_port_tick(p: *mut Handle) -> i32;
    pub fn mscp_port_volume_came(p: *mut Handle, unit: u16, medium: *const Medium) -> i32;
    pub fn mscp_port_volume_went(p: *mut Handle, unit: u16) -> i32;
    pub fn mscp_port_protect(p: *mut Handle, unit: u16, is_protected: u32) -> i32;
    pub fn mscp_port_hardware(p: *const Handle, hardware: *mut Hardware) -> i32;
    pub fn mscp_port_state(p: *const Handle, state: *mut State) -> i32;
    pub fn mscp_port_volume(p: *const Handle, unit: u16, volume: *mut Volume) -> i32;
    pub fn mscp_port_begun(p: *const Handle, upcoming: *mut Upcoming) -> i32;
    pub fn mscp_port_settings_at(p: *const Handle, limits: *mut Limits, units: *mut Unit, room: usize) -> i32;
    pub fn mscp_port_look_at(p: *const Handle, list: *mut Waiting, room: usize) -> i32;
    pub fn mscp_port_why_at(p: *const Handle, connection: u32, reference: u32, list: *mut Holder, room: usize) -> i32;
    pub fn mscp_port_save_size() -> usize;
    pub fn mscp_port_save_at(p: *const Handle, bytes: *mut u8, room: usize, length: *mut usize) -> i32;
    pub fn mscp_port_restore_at(p: *mut Handle, bytes: *const u8, length: usize) -> i32;

    pub fn mscp_run_script_at(
        script: *const u8,
        length: usize,
        bytes: *mut u8,
        room: usize,
        count: *mut usize,
        line: *mut u32,
    ) -> i32;
    pub fn mscp_show_packet_at(word: *const u8, length: usize, bytes: *mut u8, room: usize, count: *mut usize) -> i32;
}
