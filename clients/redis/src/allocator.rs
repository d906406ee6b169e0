//! Allocates the memory of the module and of the core from Redis's allocator, so that `used_memory` and `maxmemory` include it.
use crate::api::Api;
use std::alloc::{GlobalAlloc, Layout};
use std::ffi::c_void;
use std::mem::transmute;
use std::ptr::{copy_nonoverlapping, null_mut};
use std::sync::atomic::{AtomicPtr, Ordering};

/// The alignment of Redis's blocks.
const ALIGNMENT: usize = 16;

static TRY_ALLOC: AtomicPtr<c_void> = AtomicPtr::new(null_mut());
static FREE: AtomicPtr<c_void> = AtomicPtr::new(null_mut());

/// Starts to allocate from Redis. Nothing may have been allocated before.
pub fn begin(api: &Api) {
    TRY_ALLOC.store(api.try_alloc as *mut c_void, Ordering::Relaxed);
    FREE.store(api.free as *mut c_void, Ordering::Relaxed);
}

/// Returns a block of this many bytes, or null. Redis's allocator may return null for size 0, so a block has at least one byte.
fn take(size: usize) -> *mut u8 {
    let function = TRY_ALLOC.load(Ordering::Relaxed);
    if function.is_null() {
        return null_mut();
    }
    // SAFETY: only `begin` writes the pointer, and Redis's function keeps its address.
    unsafe {
        let try_alloc: unsafe extern "C" fn(usize) -> *mut c_void = transmute(function);
        try_alloc(size.max(1)).cast()
    }
}

/// Frees a block.
///
/// # Safety
/// The block must come from `take` and be unused.
unsafe fn give_back(block: *mut u8) {
    let function = FREE.load(Ordering::Relaxed);
    if !function.is_null() {
        let free: unsafe extern "C" fn(*mut c_void) = transmute(function);
        free(block.cast());
    }
}

/// Redis's allocator as Rust's. To grow a block it copies it, because Redis's own realloc ends the server when memory runs out.
struct FromRedis;

unsafe impl GlobalAlloc for FromRedis {
    unsafe fn alloc(&self, layout: Layout) -> *mut u8 {
        if layout.align() > ALIGNMENT {
            return null_mut();
        }
        take(layout.size())
    }

    unsafe fn dealloc(&self, block: *mut u8, _layout: Layout) {
        give_back(block);
    }
}

#[global_allocator]
static GLOBAL: FromRedis = FromRedis;

// Only the core calls these three. They are hidden, so the module doesn't export them.
std::arch::global_asm!(".hidden rattle_alloc", ".hidden rattle_realloc", ".hidden rattle_dealloc");

/// The reply to the core: whether there is a block, and the block.
#[repr(C)]
pub struct Tried {
    ok: bool,
    block: *mut u8,
}

impl Tried {
    fn of(block: *mut u8, alignment: usize) -> Tried {
        // The core needs an aligned pointer that isn't null in either case.
        Tried {
            ok: !block.is_null(),
            block: if block.is_null() { alignment as *mut u8 } else { block },
        }
    }
}

/// Allocates a block of `size` bytes for the core.
#[no_mangle]
pub extern "C" fn rattle_alloc(size: usize, alignment: usize) -> Tried {
    Tried::of(if alignment > ALIGNMENT { null_mut() } else { take(size) }, alignment)
}

/// Resizes a block to `size` bytes and keeps its first `kept` bytes. If memory runs out, the block is unchanged.
///
/// # Safety
/// The block must come from `rattle_alloc` or this function and have `kept` bytes; `kept` is at most `size`.
#[no_mangle]
pub unsafe extern "C" fn rattle_realloc(
    block: *mut u8,
    kept: usize,
    size: usize,
    alignment: usize,
) -> Tried {
    let moved = if alignment > ALIGNMENT { null_mut() } else { take(size) };
    if !moved.is_null() {
        copy_nonoverlapping(block, moved, kept.min(size));
        give_back(block);
    }
    Tried::of(moved, alignment)
}

/// Frees a block.
///
/// # Safety
/// The block must come from `rattle_alloc` or `rattle_realloc` and be unused.
#[no_mangle]
pub unsafe extern "C" fn rattle_dealloc(block: *mut u8) {
    give_back(block);
}
