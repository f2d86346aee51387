//! What a state is opened with.

/// The settings of a line. They stay as they are until the state is opened anew.
///
/// A value outside its limits makes opening refuse with number 4.
///
/// ```
/// use maybenot_core::{Opening, SideOpening};
///
/// let o = Opening {
///     network_delay: 10_000_000,
///     network_rate: Some(1_000),
///     client: SideOpening { machines: 2, ..SideOpening::default() },
///     ..Opening::default()
/// };
/// assert_eq!(o.window, 1_000_000_000);
/// ```
#[derive(Clone, Copy, Debug, PartialEq, Eq, Hash)]
pub struct Opening {
    /// How long a packet is under way between the sides, in nanoseconds, at most 10^12.
    pub network_delay: u64,
    /// The most packets a window and side that the network takes without extra delay, 1 to 4,294,967,295.
    pub network_rate: Option<u64>,
    /// The same, where there is no network rate: the most that the packet list itself has.
    pub queue_rate: Option<u64>,
    /// The window in which packets are counted, in nanoseconds, at most 10^12.
    pub window: u64,
    /// The client's part.
    pub client: SideOpening,
    /// The server's part.
    pub server: SideOpening,
}

impl Default for Opening {
    /// No delay, no rate, no machines, and a window of one second, as the simulator's driver has it.
    fn default() -> Opening {
        Opening {
            network_delay: 0,
            network_rate: None,
            queue_rate: None,
            window: 1_000_000_000,
            client: SideOpening::default(),
            server: SideOpening::default(),
        }
    }
}

/// What a side is opened with.
#[derive(Clone, Copy, Debug, Default, PartialEq, Eq, Hash)]
pub struct SideOpening {
    /// How long the integration takes to act, in nanoseconds, at most 10^12.
    pub action_delay: u64,
    /// How long the integration takes to report, in nanoseconds, at most 10^12.
    pub reporting_delay: u64,
    /// How many machines the side has, 0 to 16: each has one action and one timer.
    pub machines: u64,
}
