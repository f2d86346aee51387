//! What a choice answers.

use crate::event::{Kind, Side, SimEvent};

/// The words of a choice's answer as they cross.
pub(crate) const CHOICE_WORDS: usize = 10;

/// What a choice answers.
#[derive(Clone, Copy, Debug, PartialEq, Eq, Hash)]
pub enum Choice {
    /// The next event, taken out of the state.
    Event {
        /// The event.
        event: SimEvent,
        /// The rounds that the choice made.
        rounds: u64,
    },
    /// Nothing is left.
    Nothing {
        /// The rounds that the choice made.
        rounds: u64,
    },
}

impl Choice {
    /// The event, where there is one.
    ///
    /// ```
    /// use maybenot_core::{Core, Opening};
    /// let mut core = Core::with_records(1, &Opening::default())?;
    /// assert_eq!(core.pick_next(100)?.event(), None);
    /// # Ok::<(), maybenot_core::Refusal>(())
    /// ```
    pub fn event(&self) -> Option<SimEvent> {
        match *self {
            Choice::Event { event, .. } => Some(event),
            Choice::Nothing { .. } => None,
        }
    }

    /// The rounds that the choice made.
    ///
    /// ```
    /// use maybenot_core::{Core, Opening};
    /// let mut core = Core::with_records(1, &Opening::default())?;
    /// assert_eq!(core.pick_next(100)?.rounds(), 1);
    /// # Ok::<(), maybenot_core::Refusal>(())
    /// ```
    pub fn rounds(&self) -> u64 {
        match *self {
            Choice::Event { rounds, .. } | Choice::Nothing { rounds } => rounds,
        }
    }
}

/// The choice that these words are the answer of, where it was not refused; its rounds where it was.
pub(crate) fn choice_of(out: &[u64; CHOICE_WORDS]) -> Choice {
    let [chosen, rounds, kind, moment, delay, side, padding, bypass, replace, machine] = *out;
    if chosen == 0 {
        return Choice::Nothing { rounds };
    }
    let event = SimEvent {
        kind: Kind(kind),
        moment,
        delay,
        side: Side::crossed(side),
        padding: padding != 0,
        bypass: bypass != 0,
        replace: replace != 0,
        machine,
    };
    Choice::Event { event, rounds }
}
