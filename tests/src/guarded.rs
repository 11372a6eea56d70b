//! The memory that is lent to the library: a slice in it ends exactly where a page begins that may
//! not be touched, or begins right after such a page. What is lent for reading is a second view of
//! the memory that cannot be written through.

use std::ffi::{c_char, c_int, c_uint, c_void};
use std::fs::File;
use std::os::fd::{AsRawFd, FromRawFd};
use std::{ptr, slice};

extern "C" {
    fn mmap(
        address: *mut c_void,
        length: usize,
        protection: c_int,
        flags: c_int,
        file: c_int,
        offset: i64,
    ) -> *mut c_void;
    fn mprotect(address: *mut c_void, length: usize, protection: c_int) -> c_int;
    fn munmap(address: *mut c_void, length: usize) -> c_int;
    fn memfd_create(name: *const c_char, flags: c_uint) -> c_int;
}

// Linux on x86-64.
const PAGE: usize = 4096;
const PROT_NONE: c_int = 0;
const PROT_READ: c_int = 1;
const PROT_WRITE: c_int = 2;
const MAP_SHARED: c_int = 0x01;
const MAP_PRIVATE: c_int = 0x02;
const MAP_FIXED: c_int = 0x10;
const MAP_ANONYMOUS: c_int = 0x20;

/// Which end of a lent slice touches a forbidden page.
#[derive(Clone, Copy, Debug, PartialEq, Eq)]
pub enum Edge {
    Start,
    End,
}

pub const EDGES: [Edge; 2] = [Edge::End, Edge::Start];

/// Whole pages between two pages that may not be touched.
struct Fenced {
    before: *mut u8,
    room: usize,
}

impl Fenced {
    /// At first the pages between may not be touched either.
    fn with_room(bytes: usize) -> Self {
        let room = bytes.max(1).next_multiple_of(PAGE);
        let before = map(ptr::null_mut(), room + 2 * PAGE, PROT_NONE, None);
        Fenced { before, room }
    }

    fn inside(&self) -> *mut u8 {
        // SAFETY: a page and `room` bytes after it were mapped.
        unsafe { self.before.add(PAGE) }
    }

    /// How far inside `count` values begin.
    fn place<T>(&self, count: usize, edge: Edge) -> usize {
        let length = count.checked_mul(size_of::<T>()).expect("a length");
        let at = match edge {
            Edge::Start => 0,
            Edge::End => self.room.checked_sub(length).expect("room enough"),
        };
        assert!(length <= self.room && at.is_multiple_of(align_of::<T>()));
        at
    }
}

impl Drop for Fenced {
    fn drop(&mut self) {
        unmap(self.before, self.room + 2 * PAGE);
    }
}

/// Memory that the library may write.
pub struct Writable {
    fenced: Fenced,
}

impl Writable {
    pub fn with_room(bytes: usize) -> Self {
        let fenced = Fenced::with_room(bytes);
        // SAFETY: these pages are ours and nothing refers to them yet.
        let done = unsafe { mprotect(fenced.inside().cast(), fenced.room, PROT_READ | PROT_WRITE) };
        assert_eq!(done, 0, "mprotect");
        Writable { fenced }
    }

    /// The values, copied to the edge.
    pub fn lend<T: Copy>(&mut self, values: &[T], edge: Edge) -> &mut [T] {
        let at = self.fenced.place::<T>(values.len(), edge);
        // SAFETY: the place is inside, aligned and ours alone while `self` is borrowed.
        unsafe {
            let lent = self.fenced.inside().add(at).cast::<T>();
            ptr::copy_nonoverlapping(values.as_ptr(), lent, values.len());
            slice::from_raw_parts_mut(lent, values.len())
        }
    }
}

/// Memory that the library may not touch at all, however much there is of it. It takes none.
pub struct Untouchable {
    fenced: Fenced,
}

impl Untouchable {
    pub fn with_room(bytes: usize) -> Self {
        Untouchable {
            fenced: Fenced::with_room(bytes),
        }
    }

    pub fn lend<T>(&self, count: usize, edge: Edge) -> *mut T {
        let at = self.fenced.place::<T>(count, edge);
        // SAFETY: the place is inside.
        unsafe { self.fenced.inside().add(at).cast() }
    }
}

/// Memory that the library may only read.
pub struct ReadOnly {
    fenced: Fenced,
    /// The view through which the memory is filled.
    own: *mut u8,
}

impl ReadOnly {
    pub fn with_room(bytes: usize) -> Self {
        let fenced = Fenced::with_room(bytes);
        // SAFETY: the name ends in a zero byte; the file is owned by nobody else.
        let file = unsafe { memfd_create(c"lent".as_ptr(), 0) };
        assert!(file >= 0, "memfd_create");
        let file = unsafe { File::from_raw_fd(file) };
        file.set_len(fenced.room as u64).expect("the file's length");
        let own = map(
            ptr::null_mut(),
            fenced.room,
            PROT_READ | PROT_WRITE,
            Some(&file),
        );
        let lent = map(fenced.inside(), fenced.room, PROT_READ, Some(&file));
        assert_eq!(lent, fenced.inside());
        ReadOnly { fenced, own }
    }

    /// The values, copied to the edge.
    pub fn lend<T: Copy>(&mut self, values: &[T], edge: Edge) -> &[T] {
        self.lend_longer(values, values.len(), edge)
    }

    /// A slice of `count` values that begins with the ones given. The others are whatever stands
    /// there, and as long as nobody reads them they take no memory.
    pub fn lend_longer<T: Copy>(&mut self, values: &[T], count: usize, edge: Edge) -> &[T] {
        assert!(
            values.len() == count || size_of::<T>() == 1,
            "any byte is a value"
        );
        assert!(values.len() <= count);
        let at = self.fenced.place::<T>(count, edge);
        // SAFETY: the place is inside both views and aligned; the own view is written only here,
        // while nothing lent is alive, as `self` is borrowed for as long as that is.
        unsafe {
            let own = self.own.add(at).cast::<T>();
            ptr::copy_nonoverlapping(values.as_ptr(), own, values.len());
            slice::from_raw_parts(self.fenced.inside().add(at).cast::<T>(), count)
        }
    }
}

impl Drop for ReadOnly {
    fn drop(&mut self) {
        unmap(self.own, self.fenced.room);
    }
}

/// Maps the file's bytes, or without a file bytes of nobody; at the address if it is not null.
fn map(address: *mut u8, length: usize, protection: c_int, file: Option<&File>) -> *mut u8 {
    let (kind, file) = match file {
        Some(file) => (MAP_SHARED, file.as_raw_fd()),
        None => (MAP_PRIVATE | MAP_ANONYMOUS, -1),
    };
    let fixed = if address.is_null() { 0 } else { MAP_FIXED };
    // SAFETY: a given address is one inside pages that this module has mapped and not lent.
    let mapped = unsafe { mmap(address.cast(), length, protection, kind | fixed, file, 0) };
    assert_ne!(mapped as isize, -1, "mmap of {length} bytes");
    mapped.cast()
}

fn unmap(address: *mut u8, length: usize) {
    // SAFETY: the pages were mapped by this module, and their owner is being dropped.
    let done = unsafe { munmap(address.cast(), length) };
    assert_eq!(done, 0, "munmap");
}
