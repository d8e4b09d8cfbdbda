//! A region of memory that a function runs on as its stack, with memory below it that no one may
//! touch.

use std::arch::asm;
use std::ffi::c_void;

unsafe extern "C" {
    fn mmap(
        address: *mut c_void,
        length: usize,
        protection: i32,
        flags: i32,
        file: i32,
        offset: isize,
    ) -> *mut c_void;
    fn mprotect(address: *mut c_void, length: usize, protection: i32) -> i32;
    fn munmap(address: *mut c_void, length: usize) -> i32;
}

const READ_AND_WRITE: i32 = 1 | 2;
const NO_ACCESS: i32 = 0;
const PRIVATE_AND_ANONYMOUS: i32 = 0x02 | 0x20;

/// Below the stack, as much as no frame skips.
const GUARD: usize = 1 << 20;
const PAGE: usize = 4096;
/// What the stack holds where nothing was written.
const PAINT: u8 = 0xB7;

pub struct Region {
    start: *mut u8,
    length: usize,
    /// The bytes of the stack, which are the last of the region but for less than a page.
    stack: usize,
}

impl Region {
    /// A painted stack of so many bytes. The memory right below it is protected.
    pub fn new(stack: usize) -> Region {
        let length = GUARD + stack.next_multiple_of(PAGE);
        // SAFETY: a new mapping, at an address that the system chooses; its first part is protected.
        let start = unsafe {
            let start = mmap(
                std::ptr::null_mut(),
                length,
                READ_AND_WRITE,
                PRIVATE_AND_ANONYMOUS,
                -1,
                0,
            );
            assert_ne!(start as isize, -1, "no memory");
            assert_eq!(mprotect(start, GUARD, NO_ACCESS), 0, "not protected");
            start.cast::<u8>()
        };
        // SAFETY: the part behind the guard may be written.
        unsafe { start.add(GUARD).write_bytes(PAINT, length - GUARD) };
        Region {
            start,
            length,
            stack,
        }
    }

    /// Calls a function on this stack. It may use all of it, its return address included.
    pub fn call(&self, function: &mut dyn FnMut()) {
        extern "C" fn enter(function: *mut &mut dyn FnMut()) {
            // SAFETY: `call` lends it for as long as this runs.
            unsafe { (*function)() }
        }
        let mut function = function;
        let entry: extern "C" fn(*mut &mut dyn FnMut()) = enter;
        assert_eq!(self.stack % 16, 0, "the stack's end is aligned");
        // SAFETY: the stack lies behind the guard in memory of the region. `enter` keeps r12, so
        // that the old stack comes back. No panic passes through, since what is called has none.
        unsafe {
            let end = self.start.add(GUARD + self.stack);
            asm!(
                "xchg rsp, r12",
                "call {entry}",
                "mov rsp, r12",
                entry = in(reg) entry,
                inout("r12") end => _,
                in("rdi") &raw mut function,
                clobber_abi("C"),
            );
        }
    }

    /// How many bytes of the stack were written, from its end down to the lowest one. They are
    /// painted again.
    pub fn used_and_painted(&mut self) -> usize {
        // SAFETY: the stack may be read and written, and no one else does so now.
        let bytes = unsafe { std::slice::from_raw_parts_mut(self.start.add(GUARD), self.stack) };
        let lowest = bytes.iter().position(|&byte| byte != PAINT);
        let lowest = lowest.unwrap_or(self.stack);
        bytes[lowest..].fill(PAINT);
        self.stack - lowest
    }
}

impl Drop for Region {
    fn drop(&mut self) {
        // SAFETY: nothing of the mapping is borrowed any more.
        unsafe { munmap(self.start.cast(), self.length) };
    }
}
