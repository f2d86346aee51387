//! The calls that are timed, on the bare functions of the archive.

use crate::block::{Plan, START};
use maybenot_core::sys;

/// An event as the functions take it: kind, moment, delay, side, padding, bypass, replace, machine.
pub type Event = [u64; 8];

pub fn accepted(w: &[u64]) -> bool {
    // SAFETY: pointer and length are those of one slice.
    unsafe { sys::maybenot_core_accepted(w.as_ptr(), w.len()) }
}

pub fn push(w: &mut [u64], e: &Event) -> u64 {
    let [kind, moment, delay, side, padding, bypass, replace, machine] = *e;
    // SAFETY: pointer and length are those of one slice.
    unsafe {
        sys::maybenot_core_push_sim(
            w.as_mut_ptr(),
            w.len(),
            kind,
            moment,
            delay,
            side,
            padding,
            bypass,
            replace,
            machine,
        )
    }
}

pub fn pick(w: &mut [u64], time: u64, out: &mut [u64; 10]) -> u64 {
    // SAFETY: pointers and lengths are those of two slices that do not overlap.
    unsafe { sys::maybenot_core_pick_next(w.as_mut_ptr(), w.len(), time, out.as_mut_ptr(), 10) }
}

pub fn step(w: &mut [u64], time: u64, e: &Event, out: &mut [u64; 3]) -> u64 {
    let [kind, moment, delay, side, padding, bypass, replace, machine] = *e;
    // SAFETY: pointers and lengths are those of two slices that do not overlap.
    unsafe {
        sys::maybenot_core_sim_network_stack(
            w.as_mut_ptr(),
            w.len(),
            time,
            kind,
            moment,
            delay,
            side,
            padding,
            bypass,
            replace,
            machine,
            out.as_mut_ptr(),
            3,
        )
    }
}

pub fn pack(w: &[u64], second: &mut [u64]) -> u64 {
    // SAFETY: pointers and lengths are those of two slices that do not overlap.
    unsafe { sys::maybenot_core_pack(w.as_ptr(), w.len(), second.as_mut_ptr(), second.len()) }
}

/// The number and the words of an answer, added up.
fn added_up(number: u64, out: &[u64]) -> u64 {
    out.iter().fold(number, |a, b| a.wrapping_add(*b))
}

/// What is timed beside the walk.
#[derive(Clone, Copy, PartialEq)]
pub enum Call {
    Accepted,
    /// to the end of a chain, which is looked through for it
    Push,
    /// one round: the head of the queues, which no block holds up
    PickOne,
    /// one round: the head is a packet that a block holds up, so both sides are asked
    PickHeld,
    /// an aggregate, a timer, and the event of that
    PickThree,
    /// a block's end, where the packets that waited are looked through
    PickEnd,
    /// a packet above the limit: its stamp and its arrival, and the test for aggregates
    Step,
    /// every word of a second block
    Pack,
}

pub const ALL: [Call; 8] = [
    Call::Accepted,
    Call::Push,
    Call::PickOne,
    Call::PickHeld,
    Call::PickThree,
    Call::PickEnd,
    Call::Step,
    Call::Pack,
];

impl Call {
    pub fn name(self) -> &'static str {
        match self {
            Call::Accepted => "accepted",
            Call::Push => "push",
            Call::PickOne => "pick 1",
            Call::PickHeld => "pick held",
            Call::PickThree => "pick 3",
            Call::PickEnd => "pick end",
            Call::Step => "step",
            Call::Pack => "pack",
        }
    }

    /// How many walks it may take on so many records, R from 256 on. None is asked of packing below 1,984.
    pub fn goal(self, records: usize) -> f64 {
        let large = records >= 1984;
        match self {
            Call::Accepted => 1.5,
            Call::Pack if large => 2.5,
            Call::Pack => f64::INFINITY,
            Call::PickThree | Call::PickEnd if large => 1.7,
            Call::PickThree | Call::PickEnd => 2.0,
            _ if large => 1.3,
            _ => 1.7,
        }
    }

    /// Whether it leaves the block as it was.
    pub fn reads(self) -> bool {
        matches!(self, Call::Accepted | Call::Pack)
    }

    /// The rounds that a choice makes.
    pub fn rounds(self) -> u64 {
        match self {
            Call::PickOne | Call::PickHeld => 1,
            Call::PickThree => 3,
            Call::PickEnd => 2,
            _ => 0,
        }
    }

    /// The plan of the block that it is made on.
    pub fn plan(self, plan: &Plan) -> Plan {
        let due = self == Call::PickThree;
        let expires = self == Call::PickEnd;
        let first = if self == Call::PickHeld { 2 } else { 4 };
        Plan {
            due,
            expires,
            first,
            ..*plan
        }
    }

    /// Makes the call; the answer's words are added up. Packing writes into the second block.
    #[inline(always)]
    pub fn make(self, w: &mut [u64], second: &mut [u64], e: &Event) -> u64 {
        match self {
            Call::Accepted => accepted(w) as u64,
            Call::Push => push(w, e),
            Call::Pack => pack(w, second),
            Call::Step => {
                let mut out = [0; 3];
                let n = step(w, START + 500, e, &mut out);
                added_up(n, &out)
            }
            _ => {
                let mut out = [0; 10];
                let n = pick(w, START, &mut out);
                added_up(n, &out)
            }
        }
    }

    /// The event that is handed in: for a push the last of its chain.
    pub fn event(self, plan: &Plan) -> Event {
        if self == Call::Step {
            return [0, START + 400, 300, 1, 0, 0, 0, 0];
        }
        let late = START + 900_000_000_000;
        match plan.one_chain {
            Some(2) => [0, late, 50, 1, 0, 0, 0, 0],
            Some(4) => [5, late, 50, 1, 1, 0, 0, 0],
            _ => [1, late, 50, 1, 0, 0, 0, 0],
        }
    }
}
