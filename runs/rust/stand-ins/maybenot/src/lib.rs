//! Stand-in for the crate `maybenot`. Its event.rs and action.rs are the
//! originals, copied here by runs/build; the rest is what they and the simulator
//! name. No machine is run: actions and timers are set by the call list.

pub mod action;
pub mod event;

pub use action::{Timer, TriggerAction};
pub use event::TriggerEvent;

/// Named by action.rs, for sampling, which nothing here reaches.
pub mod constants {
    pub const EVENT_NUM: usize = 13;
    pub const STATE_LIMIT_MAX: u64 = u64::MAX;
    pub const MAX_SAMPLED_TIMEOUT: f64 = 0.0;
    pub const MAX_SAMPLED_TIMER_DURATION: f64 = 0.0;
    pub const MAX_SAMPLED_BLOCK_DURATION: f64 = 0.0;
}

/// Named by action.rs, for sampling, which nothing here reaches.
pub mod dist {
    #[derive(PartialEq, Debug, Clone, Copy)]
    pub struct Dist;

    impl Dist {
        pub fn sample<R: rand_core::RngCore>(self, _: &mut R) -> f64 {
            0.0
        }

        pub fn validate(&self) -> Result<(), crate::Error> {
            Ok(())
        }
    }
}

pub mod time {
    pub trait Instant {
        type Duration;
    }

    impl Instant for std::time::Instant {
        type Duration = std::time::Duration;
    }
}

#[derive(Debug)]
pub struct Error;

#[derive(Debug, Hash, PartialEq, Eq, Clone, Copy)]
pub struct MachineId(usize);

impl MachineId {
    pub fn from_raw(raw: usize) -> Self {
        Self(raw)
    }

    pub fn into_raw(self) -> usize {
        self.0
    }
}

#[derive(Debug, Clone)]
pub struct Machine;

/// A framework that never asks for an action.
#[derive(Debug)]
pub struct Framework<M, R>(#[allow(dead_code)] M, #[allow(dead_code)] R);

impl<M, R> Framework<M, R> {
    pub fn new(m: M, _: f64, _: f64, _: std::time::Instant, r: R) -> Result<Self, Error> {
        Ok(Self(m, r))
    }

    pub fn trigger_events(
        &mut self,
        _: &[TriggerEvent],
        _: std::time::Instant,
    ) -> std::slice::Iter<'_, TriggerAction> {
        [].iter()
    }
}
