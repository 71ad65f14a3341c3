//! Buffers between two inaccessible pages: a call that reads or writes past an end of one is stopped by the system.

use std::ffi::c_void;
use std::ops::{Deref, DerefMut};

const PAGE: usize = 4096;
const CANARY: u8 = 0xc5;

const PROT_NONE: i32 = 0;
const PROT_READ_AND_WRITE: i32 = 1 | 2;
const MAP_PRIVATE_AND_ANONYMOUS: i32 = 2 | 0x20;

extern "C" {
    fn mmap(
        address: *mut c_void,
        length: usize,
        protection: i32,
        flags: i32,
        file: i32,
        offset: i64,
    ) -> *mut c_void;
    fn mprotect(address: *mut c_void, length: usize, protection: i32) -> i32;
    fn munmap(address: *mut c_void, length: usize) -> i32;
}

/// The inaccessible page that a buffer touches.
#[derive(Clone, Copy, Debug)]
pub enum Touching {
    Before,
    After,
}

/// Entries that touch the page before or after them; canaries fill what is left of their pages.
pub struct Guarded<T> {
    /// The first byte between the two inaccessible pages.
    inside: *mut u8,
    room: usize,
    /// The first entry, in bytes from `inside`.
    offset: usize,
    length: usize,
    entry: std::marker::PhantomData<T>,
}

/// `room` bytes between two inaccessible pages.
fn map(room: usize) -> *mut u8 {
    let length = room + 2 * PAGE;
    // Nothing else is mapped where the system makes new pages, and only these are changed.
    unsafe {
        let start = mmap(
            std::ptr::null_mut(),
            length,
            PROT_READ_AND_WRITE,
            MAP_PRIVATE_AND_ANONYMOUS,
            -1,
            0,
        );
        assert!(start as isize != -1, "mmap of {length} bytes");
        let start = start.cast::<u8>();
        let last = start.add(PAGE + room);
        assert_eq!(mprotect(start.cast(), PAGE, PROT_NONE), 0);
        assert_eq!(mprotect(last.cast(), PAGE, PROT_NONE), 0);
        start.add(PAGE)
    }
}

impl<T: Copy> Guarded<T> {
    pub fn new(entries: &[T], touching: Touching) -> Self {
        let bytes = std::mem::size_of_val(entries);
        let room = bytes.div_ceil(PAGE) * PAGE;
        let inside = map(room);
        let offset = match touching {
            Touching::Before => 0,
            Touching::After => room - bytes,
        };
        // All room is accessible, and the entries lie inside of it, aligned as their size divides a page.
        unsafe {
            std::ptr::write_bytes(inside, CANARY, room);
            let first = inside.add(offset).cast::<T>();
            std::ptr::copy_nonoverlapping(entries.as_ptr(), first, entries.len());
        }
        Guarded {
            inside,
            room,
            offset,
            length: entries.len(),
            entry: std::marker::PhantomData,
        }
    }

    /// Whether the bytes beside the entries are as they were.
    pub fn canaries_stand(&self) -> bool {
        // All room is accessible.
        let room = unsafe { std::slice::from_raw_parts(self.inside, self.room) };
        let past = self.offset + self.length * std::mem::size_of::<T>();
        let mut beside = room[..self.offset].iter().chain(&room[past..]);
        beside.all(|&byte| byte == CANARY)
    }
}

impl<T> Deref for Guarded<T> {
    type Target = [T];

    fn deref(&self) -> &[T] {
        // The entries were copied to this place.
        unsafe { std::slice::from_raw_parts(self.inside.add(self.offset).cast(), self.length) }
    }
}

impl<T> DerefMut for Guarded<T> {
    fn deref_mut(&mut self) -> &mut [T] {
        // The entries were copied to this place, and they are lent to one holder at a time.
        unsafe { std::slice::from_raw_parts_mut(self.inside.add(self.offset).cast(), self.length) }
    }
}

impl<T> Drop for Guarded<T> {
    fn drop(&mut self) {
        // The pages of `map`; no entry is lent any more.
        unsafe { munmap(self.inside.sub(PAGE).cast(), self.room + 2 * PAGE) };
    }
}
