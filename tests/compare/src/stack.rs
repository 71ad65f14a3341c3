//! The stack that a call takes: it is run on a stack filled with one byte, and the lowest byte that differs afterwards tells its depth.

use std::alloc::{alloc, dealloc, Layout};
use std::ffi::c_void;

const ROOM: usize = 4 << 20;
const PAGE: usize = 4096;
const PAINT: u8 = 0xa7;

/// Larger than the system's own thread attributes.
#[repr(C, align(16))]
struct Attributes([u8; 128]);

extern "C" {
    fn pthread_attr_init(attributes: *mut Attributes) -> i32;
    fn pthread_attr_setstack(attributes: *mut Attributes, lowest: *mut c_void, size: usize) -> i32;
    fn pthread_create(
        thread: *mut usize,
        attributes: *const Attributes,
        start: extern "C" fn(*mut c_void) -> *mut c_void,
        argument: *mut c_void,
    ) -> i32;
    fn pthread_join(thread: usize, result: *mut *mut c_void) -> i32;
}

struct Measured<'a> {
    call: &'a mut dyn FnMut(),
    lowest: *const u8,
    bytes: usize,
}

/// The first place from `lowest` on that was written to.
#[inline(never)]
fn first_changed(lowest: *const u8) -> *const u8 {
    let mut place = lowest;
    // The place of this function's own frame is reached at the latest.
    unsafe {
        while place.read_volatile() == PAINT {
            place = place.add(1);
        }
    }
    place
}

extern "C" fn run(argument: *mut c_void) -> *mut c_void {
    // What `depth` lends until this thread has ended.
    let measured = unsafe { &mut *argument.cast::<Measured>() };
    let here: *const u8 = std::ptr::addr_of!(measured).cast();
    (measured.call)();
    measured.bytes = here as usize - first_changed(measured.lowest) as usize;
    std::ptr::null_mut()
}

/// How many bytes below its caller's frame the call writes to.
pub fn depth(call: &mut dyn FnMut()) -> usize {
    let layout = Layout::from_size_align(ROOM, PAGE).expect("a whole count of pages");
    // The stack is of `ROOM` bytes, lives until the thread has ended, and nothing else uses it.
    unsafe {
        let lowest = alloc(layout);
        assert!(!lowest.is_null());
        std::ptr::write_bytes(lowest, PAINT, ROOM);
        let mut measured = Measured {
            call,
            lowest,
            bytes: 0,
        };
        let mut attributes = Attributes([0; 128]);
        let mut thread = 0;
        let argument: *mut Measured = &mut measured;
        assert_eq!(pthread_attr_init(&mut attributes), 0);
        assert_eq!(
            pthread_attr_setstack(&mut attributes, lowest.cast(), ROOM),
            0
        );
        assert_eq!(
            pthread_create(&mut thread, &attributes, run, argument.cast()),
            0
        );
        assert_eq!(pthread_join(thread, std::ptr::null_mut()), 0);
        dealloc(lowest, layout);
        measured.bytes
    }
}
