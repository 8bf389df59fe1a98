//! How much memory is held: the linker leads each call of `malloc`, `realloc` and `free` here.

use crate::side::MARK;
use std::ffi::c_void;
use std::sync::atomic::{AtomicIsize, Ordering::Relaxed};

static HELD: AtomicIsize = AtomicIsize::new(0);

/// What was held when the block of `MARK` bytes was asked for; `isize::MIN` before.
static MARKED: AtomicIsize = AtomicIsize::new(isize::MIN);

/// Returns how many bytes more than before `run` were held when it asked for a block of `MARK` bytes.
pub fn while_standing(run: impl Fn() -> u64) -> usize {
    let before = HELD.load(Relaxed);
    MARKED.store(isize::MIN, Relaxed);
    std::hint::black_box(run());
    let marked = MARKED.load(Relaxed);
    assert_ne!(marked, isize::MIN, "no block of MARK bytes was asked for");
    let held = marked - before;
    usize::try_from(held).expect("a container holds no less than nothing")
}

extern "C" {
    fn __real_malloc(size: usize) -> *mut c_void;
    fn __real_realloc(block: *mut c_void, size: usize) -> *mut c_void;
    fn __real_free(block: *mut c_void);
    fn malloc_usable_size(block: *mut c_void) -> usize;
}

fn note(block: *mut c_void, sign: isize) {
    if !block.is_null() {
        // SAFETY: the block is one of the C library's, and is not freed yet.
        let size = unsafe { malloc_usable_size(block) };
        HELD.fetch_add(sign * size as isize, Relaxed);
    }
}

#[no_mangle]
unsafe extern "C" fn __wrap_malloc(size: usize) -> *mut c_void {
    if size == MARK {
        MARKED.store(HELD.load(Relaxed), Relaxed);
    }
    let block = __real_malloc(size);
    note(block, 1);
    block
}

#[no_mangle]
unsafe extern "C" fn __wrap_realloc(block: *mut c_void, size: usize) -> *mut c_void {
    note(block, -1);
    let moved = __real_realloc(block, size);
    note(if moved.is_null() { block } else { moved }, 1);
    moved
}

#[no_mangle]
unsafe extern "C" fn __wrap_free(block: *mut c_void) {
    note(block, -1);
    __real_free(block);
}
