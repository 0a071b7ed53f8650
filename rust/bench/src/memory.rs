//! What one call takes beside the buffers that it is lent: stack, new pages, and heap.

use std::alloc::{GlobalAlloc, Layout, System};
use std::cell::Cell;
use std::ffi::c_void;
use std::sync::atomic::{AtomicIsize, Ordering::Relaxed};
use std::sync::{Mutex, PoisonError};

/// What a call took.
pub struct Taken {
    /// Bytes of stack.
    pub stack: usize,
    /// Pages of memory that were touched for the first time, the stack's left out.
    pub pages: i64,
    /// The most bytes of heap held at once.
    pub heap: isize,
}

/// Runs a call on a stack of its own, one at a time, and tells what it took.
pub fn taken(mut call: &mut dyn FnMut()) -> Taken {
    static ONE: Mutex<()> = Mutex::new(());
    let _one = ONE.lock().unwrap_or_else(PoisonError::into_inner);
    // What is there without any call.
    let mut nothing: &mut dyn FnMut() = &mut || ();
    let (empty, _) = on_filled_stack(&mut nothing);
    HELD.store(0, Relaxed);
    MOST.store(0, Relaxed);
    let (stack, pages) = on_filled_stack(&mut call);
    Taken {
        stack: stack.saturating_sub(empty),
        pages,
        heap: MOST.load(Relaxed),
    }
}

/// As measure.c has it.
#[repr(C)]
struct Call {
    run: extern "C" fn(*mut c_void),
    with: *mut c_void,
    begin: *mut u8,
    pages: i64,
}

extern "C" {
    fn bench_c_stack(call: &mut Call) -> usize;
}

fn on_filled_stack(call: &mut &mut dyn FnMut()) -> (usize, i64) {
    let mut call = Call {
        run,
        with: (call as *mut &mut dyn FnMut()).cast(),
        begin: std::ptr::null_mut(),
        pages: 0,
    };
    // SAFETY: the call is run by one other thread, which has ended when the function returns.
    let stack = unsafe { bench_c_stack(&mut call) };
    assert!(stack > 0, "the call is run on a stack of its own");
    (stack, call.pages)
}

extern "C" fn run(with: *mut c_void) {
    // SAFETY: this is the pointer that `on_filled_stack` made of such a reference.
    let call = unsafe { &mut *with.cast::<&mut dyn FnMut()>() };
    COUNTING.set(true);
    call();
    COUNTING.set(false);
}

thread_local! {
    static COUNTING: Cell<bool> = const { Cell::new(false) };
}
static HELD: AtomicIsize = AtomicIsize::new(0);
static MOST: AtomicIsize = AtomicIsize::new(0);

/// Counts what the thread of a call holds; the timed rounds run without.
fn count(bytes: isize) {
    if COUNTING.get() {
        let held = HELD.fetch_add(bytes, Relaxed) + bytes;
        MOST.fetch_max(held, Relaxed);
    }
}

/// The system's allocator, counted.
pub struct Counted;

// SAFETY: every call is handed on to the system's allocator as it came.
unsafe impl GlobalAlloc for Counted {
    unsafe fn alloc(&self, layout: Layout) -> *mut u8 {
        count(layout.size() as isize);
        System.alloc(layout)
    }

    unsafe fn alloc_zeroed(&self, layout: Layout) -> *mut u8 {
        count(layout.size() as isize);
        System.alloc_zeroed(layout)
    }

    unsafe fn dealloc(&self, at: *mut u8, layout: Layout) {
        count(-(layout.size() as isize));
        System.dealloc(at, layout)
    }

    unsafe fn realloc(&self, at: *mut u8, layout: Layout, size: usize) -> *mut u8 {
        count(size as isize - layout.size() as isize);
        System.realloc(at, layout, size)
    }
}

#[cfg(test)]
mod tests {
    use std::hint::black_box;

    use super::taken;

    #[test]
    fn what_is_taken_is_noticed() {
        let nothing = taken(&mut || ());
        assert_eq!((nothing.stack, nothing.pages, nothing.heap), (0, 0, 0));
        let stack = taken(&mut || {
            black_box([1_u8; 50_000]);
        });
        assert!((50_000..60_000).contains(&stack.stack), "{}", stack.stack);
        let heap = taken(&mut || {
            black_box(vec![1_u8; 50_000_000]);
        });
        assert!(heap.heap >= 50_000_000, "{}", heap.heap);
        assert!(heap.pages > 20, "{}", heap.pages);
    }
}
