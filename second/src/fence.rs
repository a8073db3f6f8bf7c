//! Buffers that end where a page begins which may not be touched: a byte too far is a fault, and not a lucky read. In front of the
//! buffer stands a margin of known bytes, to be looked at afterwards.

use std::{io, ptr, slice};

/// Whole pages on every machine, since no page is longer.
const PAGES: usize = 65_536;
const MARGIN: usize = 256;

// Linux's numbers
const PROT_NONE: i32 = 0;
const PROT_READ_AND_WRITE: i32 = 1 + 2;
const MAP_PRIVATE_AND_ANONYMOUS: i32 = 2 + 32;

extern "C" {
    fn mmap(address: *mut u8, length: usize, protection: i32, flags: i32, file: i32, offset: i64) -> *mut u8;
    fn mprotect(address: *mut u8, length: usize, protection: i32) -> i32;
    fn munmap(address: *mut u8, length: usize) -> i32;
}

/// Room for a buffer, and the fence behind it.
pub struct Fence {
    start: *mut u8,
    room: usize,
    /// where the buffer stands in the room
    from: usize,
    to: usize,
}

impl Fence {
    /// With room for so many bytes.
    pub fn new(most: usize) -> io::Result<Fence> {
        let room = (MARGIN + most).next_multiple_of(PAGES);
        // a new mapping, at no address that anything else uses
        let start = unsafe { mmap(ptr::null_mut(), room + PAGES, PROT_READ_AND_WRITE, MAP_PRIVATE_AND_ANONYMOUS, -1, 0) };
        if start.addr() == usize::MAX {
            return Err(io::Error::last_os_error());
        }
        let fence = Fence { start, room, from: room, to: room };
        // the last pages of that mapping, which no slice reaches
        match unsafe { mprotect(start.wrapping_add(room), PAGES, PROT_NONE) } {
            0 => Ok(fence),
            _ => Err(io::Error::last_os_error()),
        }
    }

    /// Lay these bytes into the buffer, which ends so many bytes before the fence; 0 is right at it.
    pub fn lay(&mut self, bytes: &[u8], gap: usize) {
        (self.from, self.to) = (self.room - gap - bytes.len(), self.room - gap);
        let (from, to) = (self.from, self.to);
        let all = self.all_mut();
        all[from..to].copy_from_slice(bytes);
        for at in (from - MARGIN..from).chain(to..all.len()) {
            all[at] = known(at);
        }
    }

    pub fn bytes(&self) -> &[u8] {
        &self.all()[self.from..self.to]
    }

    pub fn bytes_mut(&mut self) -> &mut [u8] {
        let (from, to) = (self.from, self.to);
        &mut self.all_mut()[from..to]
    }

    /// Whether the bytes around the buffer are those that were laid there.
    pub fn is_whole(&self) -> bool {
        (self.from - MARGIN..self.from).chain(self.to..self.room).all(|at| self.all()[at] == known(at))
    }

    fn all(&self) -> &[u8] {
        // the mapping is ours for as long as the fence stands, and begins as zeros
        unsafe { slice::from_raw_parts(self.start, self.room) }
    }

    fn all_mut(&mut self) -> &mut [u8] {
        // as above
        unsafe { slice::from_raw_parts_mut(self.start, self.room) }
    }
}

impl Drop for Fence {
    fn drop(&mut self) {
        // nothing borrows from a fence that is dropped
        unsafe { munmap(self.start, self.room + PAGES) };
    }
}

/// The byte that stands at a place around the buffer.
fn known(at: usize) -> u8 {
    (at as u8).wrapping_mul(29) ^ 0x5A
}

#[cfg(test)]
mod tests {
    use super::*;

    #[test]
    fn lays() {
        let mut fence = Fence::new(200_000).expect("a mapping");
        for (length, gap) in [(0, 0), (1, 0), (5, 3), (200_000, 0), (7, 1)] {
            let bytes: Vec<u8> = (0..length).map(|at| at as u8).collect();
            fence.lay(&bytes, gap);
            assert_eq!(fence.bytes(), bytes);
            assert_eq!(fence.bytes_mut(), bytes);
            assert_eq!((fence.bytes().as_ptr().addr() + length + gap) % 4_096, 0);
            assert!(fence.is_whole());
        }
    }

    /// A byte before the buffer, and one in the gap behind it.
    #[test]
    fn sees_changes() {
        let mut fence = Fence::new(100).expect("a mapping");
        for place in [-1, -256, 10, 12] {
            fence.lay(&[0; 10], 3);
            let at = fence.from.checked_add_signed(place).expect("a place in the room");
            fence.all_mut()[at] ^= 1;
            assert!(!fence.is_whole());
        }
    }
}
