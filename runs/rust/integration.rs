//! Takes the place of the simulator's integration.rs: the same three methods,
//! each answering a fixed `Duration` in whole nanoseconds. The original draws a
//! whole number of microseconds anew at each use.

use std::time::Duration;

#[derive(Clone, Debug)]
pub struct Integration {
    pub action_delay: Duration,
    pub reporting_delay: Duration,
    pub trigger_delay: Duration,
}

impl Integration {
    pub fn action_delay(&self) -> Duration {
        self.action_delay
    }

    pub fn reporting_delay(&self) -> Duration {
        self.reporting_delay
    }

    pub fn trigger_delay(&self) -> Duration {
        self.trigger_delay
    }
}
