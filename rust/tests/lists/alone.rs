//! The calls of a list made one by one, and what a list call must leave of the words.

use maybenot_core::{Answer, Call, Choice, Core, Turn};

/// Makes a call on its own; it is no turn.
pub fn made_alone(core: &mut Core, call: &Call) -> Answer {
    match *call {
        Call::PushSim(event) => Answer::Done(core.push_sim(&event)),
        Call::SetAction {
            side,
            machine,
            action,
        } => Answer::Done(core.set_action(side, machine, &action)),
        Call::ClearAction { side, machine } => Answer::Done(core.clear_action(side, machine)),
        Call::SetTimer {
            side,
            machine,
            moment,
        } => Answer::Done(core.set_timer(side, machine, moment)),
        Call::ClearTimer { side, machine } => Answer::Done(core.clear_timer(side, machine)),
        Call::PickNext { now } => Answer::Choice(core.pick_next(now)),
        Call::SimNetworkStack { time, event } => Answer::Step(core.sim_network_stack(time, &event)),
        Call::Turn { now, .. } => Answer::Turn(turn_alone(core, now)),
    }
}

/// A choice at a moment, and the step of its event.
fn turn_alone(core: &mut Core, now: u64) -> Turn {
    let choice = core.pick_next(now);
    let event = choice.ok().and_then(|chosen: Choice| chosen.event());
    Turn {
        choice,
        step: event.map(|event| core.sim_network_stack(event.moment, &event)),
    }
}

/// Holds the words that a list left to those that the calls left one by one: all are equal, but for what free records
/// hold beside their links.
pub fn hold_words(listed: &[u64], alone: &[u64]) {
    let header = listed.len().min(256);
    let other = (0..header).find(|&at| listed[at] != alone[at]);
    assert_eq!(other, None, "a word of the header is another");
    for (at, (a, b)) in listed[header..]
        .chunks(4)
        .zip(alone[header..].chunks(4))
        .enumerate()
    {
        let both_free = a.len() == 4 && a[0] == b[0] && a[3] % 16 == 0 && b[3] % 16 == 0;
        assert!(both_free || a == b, "record {} is another", at + 1);
    }
}
