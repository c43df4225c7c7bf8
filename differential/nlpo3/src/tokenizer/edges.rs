//! What the generated copy of newmm.rs tells on its way: each edge it records, and which of its branches ends each token.
use std::cell::{Cell, RefCell};

thread_local! {
    static COUNT: Cell<usize> = const { Cell::new(0) };
    static REASONS: RefCell<Vec<usize>> = const { RefCell::new(Vec::new()) };
}

pub fn record() {
    COUNT.with(|count| count.set(count.get() + 1));
}

pub fn why(reason: usize) {
    REASONS.with(|reasons| reasons.borrow_mut().push(reason));
}

/// The number of edges recorded since the last call.
pub fn take() -> usize {
    COUNT.with(|count| count.replace(0))
}

/// The reasons of all tokens since the last call, those of samples before those of parts.
pub fn take_reasons() -> Vec<usize> {
    REASONS.with(RefCell::take)
}
