//! What a network step answers.

/// The words of a step's answer as they cross.
pub(crate) const STEP_WORDS: usize = 3;

/// What a network step answers.
///
/// ```
/// use maybenot_core::{Core, Kind, Opening, Side, SimEvent};
///
/// // packets are counted in a window of 10 ns
/// let mut core = Core::with_records(8, &Opening { window: 10, ..Opening::default() })?;
/// let mut sent = |time| core.sim_network_stack(time, &SimEvent::new(Kind::TUNNEL_SENT, Side::Client, time));
///
/// let step = sent(100)?;
/// assert!(step.active);
/// assert_eq!(step.falls, Some(111));
/// assert_eq!(sent(110)?.falls, Some(111)); // that of 100 is 10 ns old, and still counts
/// assert_eq!(sent(111)?.falls, Some(121)); // it is gone, and the oldest is that of 110
/// # Ok::<(), maybenot_core::Refusal>(())
/// ```
#[must_use]
#[derive(Clone, Copy, Debug, PartialEq, Eq, Hash)]
pub struct Step {
    /// Whether there was network activity: a packet that enters or leaves the tunnel.
    pub active: bool,
    /// When the packet count of the side falls, in nanoseconds: how long the rate limit still bites.
    ///
    /// A packet that enters the tunnel leaves a stamp on its side, the time of its step. This is the first moment at
    /// which the oldest stamp kept, by arrival, would be too old: that stamp plus the window plus 1. From then on the
    /// next packet of the side would find that stamp gone; others may be too old by then as well.
    ///
    /// `None` for every kind but [`Kind::TUNNEL_SENT`](crate::Kind::TUNNEL_SENT), and where the moment would pass
    /// [`MAX_MOMENT`](crate::MAX_MOMENT).
    pub falls: Option<u64>,
}

/// The step that these words are the answer of, where it was not refused.
pub(crate) fn step_of(out: &[u64; STEP_WORDS]) -> Step {
    let [active, has_fall, falls] = *out;
    Step {
        active: active != 0,
        falls: (has_fall != 0).then_some(falls),
    }
}
