//! How much stack a call takes: it is run on a stack of known bytes, and those that changed are counted.

use std::ffi::{c_int, c_void};
use std::ptr::null_mut;

const SIZE: usize = 1 << 20;
const MARK: u8 = 0xA5;

#[repr(C, align(16))]
struct Attributes([u8; 128]);

unsafe extern "C" {
    fn pthread_attr_init(attributes: *mut Attributes) -> c_int;
    fn pthread_attr_setstack(attributes: *mut Attributes, stack: *mut c_void, size: usize) -> c_int;
    fn pthread_create(
        thread: *mut usize,
        attributes: *const Attributes,
        start: extern "C" fn(*mut c_void) -> *mut c_void,
        argument: *mut c_void,
    ) -> c_int;
    fn pthread_join(thread: usize, result: *mut *mut c_void) -> c_int;
}

extern "C" fn enter(argument: *mut c_void) -> *mut c_void {
    // SAFETY: `used` hands over a pointer to its closure, which outlives the thread.
    let call = unsafe { &mut *argument.cast::<&mut dyn FnMut()>() };
    call();
    null_mut()
}

/// The bytes of stack that a thread uses to run a call.
fn used(call: &mut dyn FnMut()) -> usize {
    let mut memory = vec![MARK; SIZE + 4096];
    let start = memory.as_ptr().align_offset(4096);
    let mut call: &mut dyn FnMut() = call;
    let mut attributes = Attributes([0; 128]);
    let mut thread = 0;
    // SAFETY: the memory is ours, is as large as is said, and stays until the thread is joined.
    unsafe {
        assert_eq!(pthread_attr_init(&mut attributes), 0);
        assert_eq!(pthread_attr_setstack(&mut attributes, memory[start..].as_mut_ptr().cast(), SIZE), 0);
        let argument = (&raw mut call).cast();
        assert_eq!(pthread_create(&mut thread, &attributes, enter, argument), 0);
        assert_eq!(pthread_join(thread, null_mut()), 0);
    }
    let stack = &memory[start..start + SIZE];
    SIZE - stack.iter().position(|&b| b != MARK).unwrap_or(SIZE)
}

/// What a call takes beyond a thread that does nothing.
pub fn of(call: &mut dyn FnMut()) -> usize {
    let idle = used(&mut || {});
    used(call).saturating_sub(idle)
}
