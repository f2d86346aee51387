//! Stand-in for the crate `log`: only the macro `debug!`, which formats nothing.
//! Two lines that `pick_next` logs once in each round are counted: its first
//! one (the round begins, and has changed nothing) and "peek_queue" (all five
//! delays are reckoned). The original has no number of rounds of its own.

use std::cell::Cell;

thread_local! {
    /// Rounds begun since the harness set this to 0.
    pub static BEGUN: Cell<u64> = const { Cell::new(0) };
    /// Rounds whose five delays were reckoned since the harness set this to 0.
    pub static ROUNDS: Cell<u64> = const { Cell::new(0) };
    /// The round that panics with `Stop` as it begins; 0 for none.
    pub static STOP_AT: Cell<u64> = const { Cell::new(0) };
}

/// What the harness catches where it stops a choice between two rounds.
pub struct Stop;

/// Whether the text starts with the prefix, at compile time.
pub const fn starts(text: &str, prefix: &str) -> bool {
    let (text, prefix) = (text.as_bytes(), prefix.as_bytes());
    if text.len() < prefix.len() {
        return false;
    }
    let mut i = 0;
    while i < prefix.len() {
        if text[i] != prefix[i] {
            return false;
        }
        i += 1;
    }
    true
}

pub fn begin_round() {
    BEGUN.set(BEGUN.get() + 1);
    if STOP_AT.get() == BEGUN.get() {
        std::panic::panic_any(Stop);
    }
}

pub fn count_round() {
    ROUNDS.set(ROUNDS.get() + 1);
}

#[macro_export]
macro_rules! debug {
    ($text:literal $($rest:tt)*) => {{
        if const { $crate::starts($text, "\tpick_next(): peek_scheduled_action = ") } {
            $crate::begin_round();
        }
        if const { $crate::starts($text, "\tpick_next(): peek_queue = ") } {
            $crate::count_round();
        }
        if false {
            // the arguments are type-checked as in the original, and never run
            let _ = ::core::format_args!($text $($rest)*);
        }
    }};
}
