//! The calls of a list, and the rows of words in which they cross.

use crate::event::{Action, Kind, Side, SimEvent};
use std::ops::BitOr;

/// The words of a row.
pub const ROW_WORDS: usize = 12;

/// The codes of a row, its first word.
pub(crate) const PUSH_SIM: u64 = 0;
pub(crate) const SET_ACTION: u64 = 1;
pub(crate) const CLEAR_ACTION: u64 = 2;
pub(crate) const SET_TIMER: u64 = 3;
pub(crate) const CLEAR_TIMER: u64 = 4;
pub(crate) const PICK_NEXT: u64 = 5;
pub(crate) const SIM_NETWORK_STACK: u64 = 6;
pub(crate) const TURN: u64 = 7;

/// A call of a list. Each is the call of that name on its own, but for [`Call::Turn`].
///
/// ```
/// use maybenot_core::{Call, Row, Side};
///
/// let row = Row::from(Call::SetTimer { side: Side::Client, machine: 2, moment: 40 });
/// assert_eq!(row.0[..4], [3, 1, 2, 40]);
/// ```
#[derive(Clone, Copy, Debug, PartialEq, Eq, Hash)]
pub enum Call {
    /// [`Core::push_sim`](crate::Core::push_sim).
    PushSim(SimEvent),
    /// [`Core::set_action`](crate::Core::set_action).
    SetAction {
        /// The machine's side.
        side: Side,
        /// The machine.
        machine: u64,
        /// Its action.
        action: Action,
    },
    /// [`Core::clear_action`](crate::Core::clear_action).
    ClearAction {
        /// The machine's side.
        side: Side,
        /// The machine.
        machine: u64,
    },
    /// [`Core::set_timer`](crate::Core::set_timer).
    SetTimer {
        /// The machine's side.
        side: Side,
        /// The machine.
        machine: u64,
        /// When its timer ends, in nanoseconds.
        moment: u64,
    },
    /// [`Core::clear_timer`](crate::Core::clear_timer).
    ClearTimer {
        /// The machine's side.
        side: Side,
        /// The machine.
        machine: u64,
    },
    /// [`Core::pick_next`](crate::Core::pick_next).
    PickNext {
        /// The present moment, in nanoseconds.
        now: u64,
    },
    /// [`Core::sim_network_stack`](crate::Core::sim_network_stack).
    SimNetworkStack {
        /// The present moment, in nanoseconds.
        time: u64,
        /// The event to step on.
        event: SimEvent,
    },
    /// A choice and, where it chose an event, that event's network step at the event's own moment. The list ends after
    /// a turn that is refused, that finds nothing left, or whose event is in `stop`.
    Turn {
        /// The choice is made at the later of this moment and that of the last event that a choice or a turn of the
        /// same list chose.
        now: u64,
        /// The events after which the list ends.
        stop: Stop,
    },
}

/// A call as the words in which it crosses: a code, the arguments, and words that are ignored.
///
/// Any words may be held. A row whose code is no call ends the list before it; [`Row::NONE`] is such a one.
#[derive(Clone, Copy, Debug, PartialEq, Eq, Hash)]
#[repr(transparent)]
pub struct Row(pub [u64; ROW_WORDS]);

impl Row {
    /// A row that is no call.
    ///
    /// ```
    /// use maybenot_core::{AnswerRow, Core, Opening, Row};
    ///
    /// let mut core = Core::with_records(4, &Opening::default())?;
    /// assert_eq!(core.calls(&[Row::NONE], &mut [AnswerRow::default()]).len(), 0);
    /// # Ok::<(), maybenot_core::Refusal>(())
    /// ```
    pub const NONE: Row = Row([u64::MAX; ROW_WORDS]);

    fn new(code: u64, arguments: &[u64]) -> Row {
        let mut words = [0; ROW_WORDS];
        words[0] = code;
        words[1..=arguments.len()].copy_from_slice(arguments);
        Row(words)
    }
}

impl Default for Row {
    /// [`Row::NONE`].
    fn default() -> Row {
        Row::NONE
    }
}

/// The eight words of an event.
fn event_words(e: &SimEvent) -> [u64; 8] {
    [
        e.kind.0,
        e.moment,
        e.delay,
        e.side.crossing(),
        u64::from(e.padding),
        u64::from(e.bypass),
        u64::from(e.replace),
        e.machine,
    ]
}

/// The row of an action.
fn action_row(side: Side, machine: u64, action: &Action) -> Row {
    let words = [
        side.crossing(),
        machine,
        action.kind.0,
        action.moment,
        action.duration,
        u64::from(action.bypass),
        u64::from(action.replace),
    ];
    Row::new(SET_ACTION, &words)
}

/// The row of a step.
fn step_row(time: u64, event: &SimEvent) -> Row {
    let mut words = [time; 9];
    words[1..].copy_from_slice(&event_words(event));
    Row::new(SIM_NETWORK_STACK, &words)
}

impl From<Call> for Row {
    fn from(call: Call) -> Row {
        match call {
            Call::PushSim(event) => Row::new(PUSH_SIM, &event_words(&event)),
            Call::SetAction {
                side,
                machine,
                action,
            } => action_row(side, machine, &action),
            Call::ClearAction { side, machine } => {
                Row::new(CLEAR_ACTION, &[side.crossing(), machine])
            }
            Call::SetTimer {
                side,
                machine,
                moment,
            } => Row::new(SET_TIMER, &[side.crossing(), machine, moment]),
            Call::ClearTimer { side, machine } => {
                Row::new(CLEAR_TIMER, &[side.crossing(), machine])
            }
            Call::PickNext { now } => Row::new(PICK_NEXT, &[now]),
            Call::SimNetworkStack { time, event } => step_row(time, &event),
            Call::Turn { now, stop } => Row::new(TURN, &[now, stop.0]),
        }
    }
}

/// A set of sides and kinds: the events after which a list of turns ends.
///
/// ```
/// use maybenot_core::{Kind, Side, Stop};
///
/// let sent = Stop::at(Side::Client, Kind::TUNNEL_SENT) | Stop::at(Side::Server, Kind::TUNNEL_SENT);
/// assert!(sent.contains(Side::Server, Kind::TUNNEL_SENT));
/// assert!(!sent.contains(Side::Server, Kind::TUNNEL_RECV));
/// let collected: Stop = Side::BOTH.into_iter().map(|side| (side, Kind::TUNNEL_SENT)).collect();
/// assert_eq!(sent, collected);
/// ```
#[derive(Clone, Copy, Debug, Default, PartialEq, Eq, Hash)]
pub struct Stop(u64);

impl Stop {
    /// No event: a list of turns ends where nothing is left or a turn is refused.
    pub const NEVER: Stop = Stop(0);

    /// The events of this kind on this side. There are none of a kind above 9.
    pub fn at(side: Side, kind: Kind) -> Stop {
        if kind.0 > Kind::TIMER_END.0 {
            return Stop::NEVER;
        }
        Stop(1 << (kind.0 + 16 * side.place() as u64))
    }

    /// Whether events of this kind on this side are in the set.
    pub fn contains(self, side: Side, kind: Kind) -> bool {
        self.0 & Stop::at(side, kind).0 != 0
    }
}

impl BitOr for Stop {
    type Output = Stop;

    fn bitor(self, other: Stop) -> Stop {
        Stop(self.0 | other.0)
    }
}

impl FromIterator<(Side, Kind)> for Stop {
    fn from_iter<T: IntoIterator<Item = (Side, Kind)>>(events: T) -> Stop {
        let sets = events.into_iter().map(|(side, kind)| Stop::at(side, kind));
        sets.fold(Stop::NEVER, Stop::bitor)
    }
}
