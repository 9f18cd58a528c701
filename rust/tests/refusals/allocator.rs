//! The system's allocator, which fails at the request that a test chooses, or at each above a size,
//! and counts bytes.
use std::alloc::{GlobalAlloc, Layout, System};
use std::cell::Cell;
use std::ptr::null_mut;

struct Failing;

thread_local! {
    /// How many requests of this thread are left up to the one that fails, or 0.
    static LEFT: Cell<u64> = const { Cell::new(0) };
    /// The bytes above which a request of this thread fails.
    static MOST: Cell<usize> = const { Cell::new(usize::MAX) };
    /// Whether one failed since this was set, and how many bytes were granted before.
    static HAS_FAILED: Cell<bool> = const { Cell::new(false) };
    static GRANTED: Cell<usize> = const { Cell::new(0) };
    /// The bytes of the last request that failed.
    static REFUSED: Cell<usize> = const { Cell::new(0) };
    static REQUESTS: Cell<u64> = const { Cell::new(0) };
    static BYTES: Cell<isize> = const { Cell::new(0) };
}

fn fails(size: usize) -> bool {
    REQUESTS.set(REQUESTS.get() + 1);
    let left = LEFT.get();
    LEFT.set(left.saturating_sub(1));
    let is_failing = left == 1 || size > MOST.get();
    HAS_FAILED.set(HAS_FAILED.get() || is_failing);
    REFUSED.set(if is_failing { size } else { REFUSED.get() });
    is_failing
}

/// Counts the bytes of a block that is there in place of one of `before` bytes.
fn counted(block: *mut u8, before: usize, after: usize) -> *mut u8 {
    if !block.is_null() {
        BYTES.set(BYTES.get() + after as isize - before as isize);
        if !HAS_FAILED.get() {
            GRANTED.set(GRANTED.get() + after);
        }
    }
    block
}

// SAFETY: each request goes to the system's allocator as it is, or returns null, which says that it
// failed.
unsafe impl GlobalAlloc for Failing {
    unsafe fn alloc(&self, layout: Layout) -> *mut u8 {
        if fails(layout.size()) {
            return null_mut();
        }
        counted(unsafe { System.alloc(layout) }, 0, layout.size())
    }

    unsafe fn dealloc(&self, block: *mut u8, layout: Layout) {
        counted(block, layout.size(), 0);
        unsafe { System.dealloc(block, layout) }
    }

    unsafe fn realloc(&self, block: *mut u8, layout: Layout, size: usize) -> *mut u8 {
        if fails(size) {
            return null_mut();
        }
        counted(unsafe { System.realloc(block, layout, size) }, layout.size(), size)
    }
}

#[global_allocator]
static FAILING: Failing = Failing;

/// Makes the call with its `number`-th request failing, or none at 0. Returns also whether there
/// was such a request.
pub fn failing_at<T>(number: u64, call: impl FnOnce() -> T) -> (T, bool) {
    LEFT.set(number);
    let returned = call();
    (returned, LEFT.replace(0) == 0 && number > 0)
}

/// Makes the call with each request for more than `most` bytes failing. Returns also how many bytes
/// it was granted before the first of these, or in all if there was none.
pub fn failing_above<T>(most: usize, call: impl FnOnce() -> T) -> (T, usize) {
    HAS_FAILED.set(false);
    GRANTED.set(0);
    MOST.set(most);
    let returned = call();
    MOST.set(usize::MAX);
    (returned, GRANTED.get())
}

/// Makes the call with each request for more than `most` bytes failing. Returns also the bytes of
/// the last of these, or 0.
pub fn refused_above<T>(most: usize, call: impl FnOnce() -> T) -> (T, usize) {
    REFUSED.set(0);
    (failing_above(most, call).0, REFUSED.get())
}

/// Lets each request for more than `most` bytes fail from now on, until a call of [`failing_above`]
/// ends.
pub fn fail_above(most: usize) {
    MOST.set(most);
}

/// Returns how many requests the call makes.
pub fn requests(call: impl FnOnce()) -> u64 {
    let before = REQUESTS.get();
    call();
    REQUESTS.get() - before
}

/// Returns how many bytes this thread has requested and not given back.
pub fn bytes() -> isize {
    BYTES.get()
}
