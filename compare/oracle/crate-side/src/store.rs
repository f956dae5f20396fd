//! The Rust's row store is its own; the program's allocator remembers its bytes when it is given back.

use std::alloc::{GlobalAlloc, Layout, System};
use std::cell::{Cell, UnsafeCell};

/// The longest row store: 65,535 pixels.
const LONGEST: usize = 4 * 65_535;

struct Watch {
    /// The length looked for; 0 when nothing is.
    length: Cell<usize>,
    at: Cell<*mut u8>,
    kept: UnsafeCell<[u8; LONGEST]>,
    found: Cell<bool>,
}

thread_local! {
    static WATCH: Watch = const {
        Watch {
            length: Cell::new(0),
            at: Cell::new(std::ptr::null_mut()),
            kept: UnsafeCell::new([0; LONGEST]),
            found: Cell::new(false),
        }
    };
}

struct Remembering;

#[global_allocator]
static ALLOCATOR: Remembering = Remembering;

unsafe impl GlobalAlloc for Remembering {
    unsafe fn alloc(&self, layout: Layout) -> *mut u8 {
        System.alloc(layout)
    }

    unsafe fn alloc_zeroed(&self, layout: Layout) -> *mut u8 {
        let place = System.alloc_zeroed(layout);
        let _ = WATCH.try_with(|w| {
            if w.length.get() == layout.size() && layout.align() == 1 {
                w.at.set(place);
            }
        });
        place
    }

    unsafe fn dealloc(&self, place: *mut u8, layout: Layout) {
        let _ = WATCH.try_with(|w| {
            if w.at.get() == place {
                let kept = w.kept.get() as *mut u8;
                std::ptr::copy_nonoverlapping(place, kept, layout.size());
                w.at.set(std::ptr::null_mut());
                w.found.set(true);
            }
        });
        System.dealloc(place, layout)
    }
}

/// Looks from now on for a zeroed store of this length.
pub fn watch(length: usize) {
    WATCH.with(|w| {
        w.at.set(std::ptr::null_mut());
        w.found.set(false);
        w.length.set(if length <= LONGEST { length } else { 0 });
    })
}

/// The bytes of the store that was given back since; none if there was none. Stops looking.
pub fn given_back() -> Option<Vec<u8>> {
    WATCH.with(|w| {
        let length = w.length.replace(0);
        w.at.set(std::ptr::null_mut());
        w.found.replace(false).then(|| unsafe { (&(*w.kept.get()))[..length].to_vec() })
    })
}
