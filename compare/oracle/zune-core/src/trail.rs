//! What the reader did, kept beside it, since the Rust shows neither its position nor its reads.

use std::cell::{Cell, RefCell};

#[derive(Default)]
pub struct Trail {
    /// Bytes taken so far.
    pub taken: Cell<usize>,
    /// Every position that was asked for: where each part of the header began and ended.
    pub asked: RefCell<Vec<usize>>,
    /// Reads past the last byte that were answered with 0.
    pub made_up: Cell<usize>,
    /// Reads past the last byte that were answered with an error.
    pub refused: Cell<usize>,
    /// Rewinds after a read that took nothing.
    pub rewound_nothing: Cell<usize>,
    /// The choice: such a rewind goes back over an earlier byte.
    pub rewind_always_moves: Cell<bool>,
}

thread_local! {
    static TRAIL: Trail = Trail::default();
}

/// Lets the caller look at this thread's trail.
pub fn with<R>(look: impl FnOnce(&Trail) -> R) -> R {
    TRAIL.with(look)
}

/// Forgets what was done; the choice stays.
pub fn begin() {
    with(|trail| {
        trail.taken.set(0);
        trail.asked.borrow_mut().clear();
        trail.made_up.set(0);
        trail.refused.set(0);
        trail.rewound_nothing.set(0);
    })
}
