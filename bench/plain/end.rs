//! End messages.

use crate::queue::{Queue, INVALID_OPCODE};
use crate::slot::{Body, Slot};

/// The first sixteen bytes of an end.
#[inline]
pub fn head(it: &Slot) -> [u8; 16] {
    let is_unknown = it.body == Body::Bare && it.status == INVALID_OPCODE;
    let code = if is_unknown { 0x80 } else { it.command.opcode | 0x80 };
    let value = match it.body {
        Body::Abort | Body::Status | Body::Moved => it.command.parameter,
        _ => 0,
    };
    let low = u64::from(it.command.reference) | u64::from(it.command.unit) << 32;
    let high = u64::from(code) | u64::from(it.status) << 16 | u64::from(value) << 32;
    (u128::from(low) | u128::from(high) << 64).to_le_bytes()
}

/// How many bytes an end has.
#[inline]
pub fn length(body: Body) -> usize {
    match body {
        Body::Bare => 12,
        Body::Abort => 16,
        Body::Status => 20,
        Body::Controller => 28,
        Body::Moved => 32,
        Body::Online => 44,
        Body::Unit => 48,
    }
}

/// Its bytes from 16 on.
#[inline]
pub fn tail(it: &Slot, queue: &Queue) -> [u8; 32] {
    let mut b = [0; 32];
    match it.body {
        Body::Bare | Body::Abort | Body::Moved => {}
        Body::Status => b[..4].copy_from_slice(&it.figure.to_le_bytes()),
        Body::Controller => {
            b[..2].copy_from_slice(&queue.limits.timeout.to_le_bytes());
            b[4..12].copy_from_slice(&queue.limits.id.to_le_bytes());
        }
        Body::Unit => {
            let unit = queue.unit(it);
            b[4..12].copy_from_slice(&unit.id.to_le_bytes());
            b[12..16].copy_from_slice(&unit.media.to_le_bytes());
            b[20..22].copy_from_slice(&unit.track.to_le_bytes());
            b[22..24].copy_from_slice(&unit.group.to_le_bytes());
            b[24..26].copy_from_slice(&unit.cylinder.to_le_bytes());
        }
        Body::Online => {
            let unit = queue.unit(it);
            b[4..12].copy_from_slice(&unit.id.to_le_bytes());
            b[12..16].copy_from_slice(&unit.media.to_le_bytes());
            b[20..24].copy_from_slice(&unit.size.to_le_bytes());
            b[24..28].copy_from_slice(&unit.serial.to_le_bytes());
        }
    }
    b
}
