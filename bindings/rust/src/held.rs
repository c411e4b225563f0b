//! What a controller, a host or a port lies in.

use core::cell::UnsafeCell;
use core::mem::MaybeUninit;
use core::ptr::addr_of_mut;

use crate::raw::{Aligned, Handle};

/// Memory of so many words, with its handle: it moves as any value does.
///
/// A handle has the address of its memory, which a move changes. So each call gets a handle with the address that holds
/// while it runs. `mscp.h` asks just this of whoever moves memory: what is in it has no pointer into itself.
#[repr(C)]
pub(crate) struct Held<const WORDS: usize> {
    handle: Handle, // its pointer keeps this from being Sync and, but for the line below, Send
    memory: UnsafeCell<[MaybeUninit<u64>; WORDS]>,
}

// SAFETY: `mscp.h` lets a handle go from one thread to another as long as one call at a time is made on it. All calls want a
// borrow of this, which isn't Sync, so no two threads make one at once. The pointer in the handle is written before each
// call, and leads into this value alone.
unsafe impl<const WORDS: usize> Send for Held<WORDS> {}

impl<const WORDS: usize> Held<WORDS> {
    /// Memory in which nothing was made, by the mark of such memory.
    pub(crate) fn room(mark: u64) -> Self {
        Self { handle: Self::fresh(mark), memory: UnsafeCell::new([MaybeUninit::uninit(); WORDS]) }
    }

    /// Makes that where it is to stay: its handle is written, and none of its memory.
    ///
    /// # Safety
    /// The pointer is good for writes of all of it.
    pub(crate) unsafe fn room_at(place: *mut Self, mark: u64) {
        // SAFETY: the field lies in what the pointer is good for.
        unsafe { addr_of_mut!((*place).handle).write(Self::fresh(mark)) }
    }

    /// A handle on memory in which nothing was made. It has no mark if the library doesn't fit: then every init refuses it.
    fn fresh(mark: u64) -> Handle {
        let mark = if crate::fits(crate::version()) { mark } else { 0 };
        let length = (WORDS * core::mem::size_of::<u64>()) as u64;
        Handle { at: Aligned(core::ptr::null_mut()), address: Aligned(0), length, mark }
    }

    /// The handle, with the memory where it lies now: for one call, which may write both.
    ///
    /// The pointer is good for reads and writes as long as the borrow of `self` that the caller has, and so is the one
    /// inside it. They lead to two fields, so they don't overlap.
    pub(crate) fn handle(&mut self) -> *mut Handle {
        let at = self.memory.get();
        self.handle.at = Aligned(at.cast());
        self.handle.address = Aligned(at as usize as u64);
        addr_of_mut!(self.handle)
    }

    /// The same for a call that takes a `const` handle: what it answers of the memory is the same before and after it. It gets a
    /// copy of the handle, and nobody uses the first one meanwhile, since `self` is borrowed and isn't `Sync`. The pointer to
    /// the memory is that of a cell, so that it is good for whatever the call does there.
    pub(crate) fn fixed(&self) -> Handle {
        let at = self.memory.get();
        let mut handle = self.handle;
        handle.at = Aligned(at.cast());
        handle.address = Aligned(at as usize as u64);
        handle
    }
}
