//! The Maybenot event core, proved in Rattle, for Rust.
//!
//! The core follows the event core of the [Maybenot](https://github.com/maybenot-io/maybenot) simulator: it queues the
//! events of a line between a client and a server, chooses the next one, and makes the network step on it. Every call
//! is proved to follow the written rules on any words and any numbers: it returns, it refuses by a table, and a
//! refused call leaves the words as they were (number 10 sets the ended mark). This crate adds no rule. It turns Rust's
//! types into the numbers that cross and the answers back.
//!
//! All state lives in a block of 256 + 4R words of 64 bits, for R records, R from 1 to 65,535. A record holds one
//! event, one pending aggregate delay or one stamp. [`Core`] works on a block that you lend ([`Core::open_in`],
//! [`Core::resume`]) or owns one ([`Core::with_records`]). Times are whole nanoseconds from an origin of your choice.
//!
//! Every call tests the whole block first, so its time grows with R. A list of calls tests it once: [`Core::batch`] and
//! [`Core::calls`] make any calls as one list, [`Core::run_until`] and [`Core::turns`] make choices and steps by turns.
//!
//! The step of a packet that enters the tunnel tells when the packet count of its side falls ([`Step::falls`]): how long
//! the rate limit still bites.
//!
//! [`Core::pack`] writes the packed form of a state, in which equal forecasts have equal words; [`same_forecast`] tells
//! by it whether two blocks hold the same forecast.
//!
//! ```
//! use maybenot_core::{Choice, Core, Kind, Opening, Side, SimEvent};
//!
//! // a line with a network delay of 20 ns, room for 16 records
//! let mut core = Core::with_records(16, &Opening { network_delay: 20, ..Opening::default() })?;
//!
//! // the client sends a packet at 100
//! core.push_sim(&SimEvent::new(Kind::NORMAL_SENT, Side::Client, 100))?;
//!
//! // choose and step until nothing is left
//! let mut now = 0;
//! let mut seen = Vec::new();
//! while let Choice::Event { event, .. } = core.pick_next(now)? {
//!     now = event.moment;
//!     let step = core.sim_network_stack(now, &event)?;
//!     seen.push((event.kind, event.side, event.moment, step.active));
//! }
//! assert_eq!(
//!     seen,
//!     [
//!         (Kind::NORMAL_SENT, Side::Client, 100, false),
//!         (Kind::TUNNEL_SENT, Side::Client, 100, true),
//!         (Kind::TUNNEL_RECV, Side::Server, 120, true),
//!         (Kind::NORMAL_RECV, Side::Server, 120, false),
//!     ]
//! );
//! # Ok::<(), maybenot_core::Refusal>(())
//! ```
//!
//! The same as lists, the packets of a trace in one and the run in another:
//!
//! ```
//! use maybenot_core::{Call, Core, Kind, Opening, Side, SimEvent, Stop};
//!
//! let mut core = Core::with_records(64, &Opening { network_delay: 20, ..Opening::default() })?;
//! let trace = [(0, Side::Client), (100, Side::Server), (110, Side::Server)];
//! let packets = trace.map(|(moment, side)| SimEvent::new(Kind::NORMAL_SENT, side, moment));
//! assert!(core.batch(packets.map(Call::PushSim)).iter().all(|answer| answer.refusal().is_none()));
//!
//! let mut received = Vec::new();
//! core.run_until(0, Stop::NEVER, |turn| {
//!     received.extend(turn.event().filter(|e| e.kind == Kind::NORMAL_RECV).map(|e| (e.side, e.moment)));
//! })?;
//! assert_eq!(received, [(Side::Server, 20), (Side::Client, 120), (Side::Client, 130)]);
//! # Ok::<(), maybenot_core::Refusal>(())
//! ```
//!
//! # Linking
//!
//! The archive `libmaybenot_core.a` is made by `tools/build maybenot_core` in the repository. The build looks for it in
//! `MAYBENOT_CORE_LIB` (the archive or its directory), else in `../target/staticlib`.

#![deny(missing_docs)]
#![deny(unsafe_op_in_unsafe_fn)]
#![warn(clippy::undocumented_unsafe_blocks)]

mod answers;
mod block;
mod calls;
mod choice;
mod event;
mod list;
mod opening;
mod packed;
mod refusal;
mod row;
mod step;
pub mod sys;

pub use answers::{Answer, AnswerRow, Answers, Turn, Turns, ANSWER_WORDS};
pub use block::{accepted, Core};
pub use choice::Choice;
pub use event::{Action, ActionKind, Kind, Side, SimEvent};
pub use opening::{Opening, SideOpening};
pub use packed::{pack, same_forecast};
pub use refusal::Refusal;
pub use row::{Call, Row, Stop, ROW_WORDS};
pub use step::Step;

/// The largest number of records that a block may have.
pub const MAX_RECORDS: usize = 65_535;

/// The largest moment, sum or round total: 2^62 − 1.
pub const MAX_MOMENT: u64 = (1 << 62) - 1;

/// The largest network, action or reporting delay, window or duration: 10^12 ns, a thousand seconds.
pub const MAX_LENGTH: u64 = 1_000_000_000_000;

/// The largest delay of an event: 2 · 10^12 ns.
pub const MAX_EVENT_DELAY: u64 = 2_000_000_000_000;

/// The largest number of machines of a side.
pub const MAX_MACHINES: u64 = 16;

/// The words of a block with so many records: 256 + 4R.
///
/// `None` where the product would pass `usize`.
///
/// ```
/// assert_eq!(maybenot_core::words_for(16), Some(320));
/// assert_eq!(maybenot_core::words_for(usize::MAX), None);
/// ```
pub fn words_for(records: usize) -> Option<usize> {
    records.checked_mul(4)?.checked_add(256)
}
