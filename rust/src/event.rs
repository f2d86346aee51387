//! Events and actions.

use std::fmt;

/// A side of the line.
#[derive(Clone, Copy, Debug, PartialEq, Eq, Hash, PartialOrd, Ord)]
pub enum Side {
    /// The client.
    Client,
    /// The server.
    Server,
}

impl Side {
    /// Both sides, the client first.
    ///
    /// ```
    /// use maybenot_core::Side;
    /// assert_eq!(Side::BOTH, [Side::Client, Side::Server]);
    /// ```
    pub const BOTH: [Side; 2] = [Side::Client, Side::Server];

    /// The other side.
    ///
    /// ```
    /// use maybenot_core::Side;
    /// assert_eq!(Side::Client.other(), Side::Server);
    /// ```
    pub fn other(self) -> Side {
        match self {
            Side::Client => Side::Server,
            Side::Server => Side::Client,
        }
    }

    /// The number that crosses: 1 for the client, 0 for the server.
    pub(crate) fn crossing(self) -> u64 {
        u64::from(self == Side::Client)
    }

    /// The side that a number stands for: 0 is the server.
    pub(crate) fn crossed(number: u64) -> Side {
        if number == 0 {
            Side::Server
        } else {
            Side::Client
        }
    }

    /// Its place in the words of the header: 0 for the client, 1 for the server.
    pub(crate) fn place(self) -> usize {
        usize::from(self == Side::Server)
    }
}

impl fmt::Display for Side {
    fn fmt(&self, f: &mut fmt::Formatter<'_>) -> fmt::Result {
        f.pad(match self {
            Side::Client => "client",
            Side::Server => "server",
        })
    }
}

/// The kind of an event: its rank among equal moments, 0 to 9.
///
/// Any number may be held, so that any may be handed in: a call refuses a kind above 9 with number 6.
///
/// ```
/// use maybenot_core::Kind;
/// assert_eq!(Kind::BLOCKING_END.0, 7);
/// assert_eq!(Kind(7).to_string(), "BlockingEnd");
/// assert_eq!(Kind(12).name(), None);
/// ```
#[derive(Clone, Copy, Debug, PartialEq, Eq, Hash, PartialOrd, Ord)]
pub struct Kind(pub u64);

impl Kind {
    /// A packet enters the tunnel.
    pub const TUNNEL_SENT: Kind = Kind(0);
    /// A packet of the user is handed in to be sent.
    pub const NORMAL_SENT: Kind = Kind(1);
    /// A machine's padding packet is handed in to be sent. Has a machine.
    pub const PADDING_SENT: Kind = Kind(2);
    /// A packet leaves the tunnel.
    pub const TUNNEL_RECV: Kind = Kind(3);
    /// A packet of the user was received.
    pub const NORMAL_RECV: Kind = Kind(4);
    /// A padding packet was received.
    pub const PADDING_RECV: Kind = Kind(5);
    /// A machine's block of outgoing packets begins. Has a machine.
    pub const BLOCKING_BEGIN: Kind = Kind(6);
    /// A block ends.
    pub const BLOCKING_END: Kind = Kind(7);
    /// A machine's timer begins. Has a machine.
    pub const TIMER_BEGIN: Kind = Kind(8);
    /// A machine's timer ends. Has a machine.
    pub const TIMER_END: Kind = Kind(9);

    /// The name of the kind, `None` for a number above 9.
    ///
    /// ```
    /// assert_eq!(maybenot_core::Kind(0).name(), Some("TunnelSent"));
    /// ```
    pub fn name(self) -> Option<&'static str> {
        Some(match self {
            Kind::TUNNEL_SENT => "TunnelSent",
            Kind::NORMAL_SENT => "NormalSent",
            Kind::PADDING_SENT => "PaddingSent",
            Kind::TUNNEL_RECV => "TunnelRecv",
            Kind::NORMAL_RECV => "NormalRecv",
            Kind::PADDING_RECV => "PaddingRecv",
            Kind::BLOCKING_BEGIN => "BlockingBegin",
            Kind::BLOCKING_END => "BlockingEnd",
            Kind::TIMER_BEGIN => "TimerBegin",
            Kind::TIMER_END => "TimerEnd",
            _ => return None,
        })
    }
}

impl fmt::Display for Kind {
    fn fmt(&self, f: &mut fmt::Formatter<'_>) -> fmt::Result {
        match self.name() {
            Some(name) => f.pad(name),
            None => f.pad(&format!("kind {}", self.0)),
        }
    }
}

/// An event of the line.
///
/// ```
/// use maybenot_core::{Kind, Side, SimEvent};
///
/// let padding = SimEvent { padding: true, ..SimEvent::new(Kind::TUNNEL_SENT, Side::Server, 5) };
/// assert_eq!(padding.delay, 0);
/// ```
#[derive(Clone, Copy, Debug, PartialEq, Eq, Hash)]
pub struct SimEvent {
    /// What happens.
    pub kind: Kind,
    /// When, in nanoseconds. At most [`MAX_MOMENT`](crate::MAX_MOMENT).
    pub moment: u64,
    /// The integration delay that the moment holds (or, of padding, lacks), in nanoseconds. At most
    /// [`MAX_EVENT_DELAY`](crate::MAX_EVENT_DELAY).
    pub delay: u64,
    /// On which side.
    pub side: Side,
    /// Whether the packet is padding.
    pub padding: bool,
    /// Whether the packet may pass a bypassable block.
    pub bypass: bool,
    /// Whether the padding may be replaced by a waiting packet.
    pub replace: bool,
    /// The machine, of kinds 2, 6, 8 and 9; the core ignores that of others and keeps 0.
    pub machine: u64,
}

impl SimEvent {
    /// An event with delay 0, machine 0 and no flag.
    ///
    /// ```
    /// use maybenot_core::{Kind, Side, SimEvent};
    /// assert_eq!(SimEvent::new(Kind::NORMAL_SENT, Side::Client, 100).moment, 100);
    /// ```
    pub fn new(kind: Kind, side: Side, moment: u64) -> SimEvent {
        SimEvent {
            kind,
            moment,
            delay: 0,
            side,
            padding: false,
            bypass: false,
            replace: false,
            machine: 0,
        }
    }
}

/// The kind of an action, counted as in the framework's `TriggerAction`.
///
/// Any number may be held; only `SEND_PADDING` and `BLOCK_OUTGOING` can be set, others are refused with number 6.
///
/// ```
/// use maybenot_core::ActionKind;
/// assert_eq!(ActionKind::BLOCK_OUTGOING, ActionKind(2));
/// ```
#[derive(Clone, Copy, Debug, PartialEq, Eq, Hash)]
pub struct ActionKind(pub u64);

impl ActionKind {
    /// Clears a timer; refused by the core, which has calls of their own for that.
    pub const CANCEL: ActionKind = ActionKind(0);
    /// Sends a padding packet.
    pub const SEND_PADDING: ActionKind = ActionKind(1);
    /// Blocks outgoing packets for a duration.
    pub const BLOCK_OUTGOING: ActionKind = ActionKind(2);
    /// Sets a timer; refused by the core, which has calls of their own for that.
    pub const UPDATE_TIMER: ActionKind = ActionKind(3);
}

/// What a machine is about to do, and when.
#[derive(Clone, Copy, Debug, PartialEq, Eq, Hash)]
pub struct Action {
    /// What is done.
    pub kind: ActionKind,
    /// When, in nanoseconds. At most [`MAX_MOMENT`](crate::MAX_MOMENT).
    pub moment: u64,
    /// How long a block lasts, in nanoseconds, at most [`MAX_LENGTH`](crate::MAX_LENGTH). That of padding is ignored.
    pub duration: u64,
    /// Padding: whether it may pass a bypassable block. Block: whether it is bypassable.
    pub bypass: bool,
    /// Padding: whether a waiting packet may stand in for it. Block: whether it replaces one that ends later.
    pub replace: bool,
}

impl Action {
    /// Padding, without flags.
    ///
    /// ```
    /// use maybenot_core::{Action, ActionKind};
    /// let a = Action { bypass: true, ..Action::send_padding(50) };
    /// assert_eq!(a.kind, ActionKind::SEND_PADDING);
    /// ```
    pub fn send_padding(moment: u64) -> Action {
        Action {
            kind: ActionKind::SEND_PADDING,
            moment,
            duration: 0,
            bypass: false,
            replace: false,
        }
    }

    /// A block, without flags.
    ///
    /// ```
    /// use maybenot_core::Action;
    /// assert_eq!(Action::block_outgoing(50, 100).duration, 100);
    /// ```
    pub fn block_outgoing(moment: u64, duration: u64) -> Action {
        Action {
            kind: ActionKind::BLOCK_OUTGOING,
            moment,
            duration,
            bypass: false,
            replace: false,
        }
    }
}
