//! The calls of a list as rows of the list call, and how the original makes them.

use super::*;

/// A row and its answer, as `maybenot_core_calls` takes and gives them.
pub type Row = [u64; 12];
pub type AnswerRow = [u64; 16];

pub const PUSH: u64 = 0;
pub const SET_ACTION: u64 = 1;
pub const CLEAR_ACTION: u64 = 2;
pub const SET_TIMER: u64 = 3;
pub const CLEAR_TIMER: u64 = 4;
pub const PICK: u64 = 5;
pub const STEP: u64 = 6;
pub const TURN: u64 = 7;

/// The row of a call.
pub fn row(code: u64, arguments: &[u64]) -> Row {
    let mut row = [0; 12];
    row[0] = code;
    row[1..=arguments.len()].copy_from_slice(arguments);
    row
}

/// The settings, in the order of `maybenot_core_open`.
pub type Opening = [u64; 12];

/// The original, opened.
pub fn opened(o: &Opening) -> Core {
    let rate = |has: u64, rate: u64| {
        if has == 0 {
            "-".to_string()
        } else {
            rate.to_string()
        }
    };
    let rest: Vec<String> = o[5..].iter().map(u64::to_string).collect();
    let (network, queue) = (rate(o[1], o[2]), rate(o[3], o[4]));
    again(&[format!(
        "open {} {network} {queue} {}",
        o[0],
        rest.join(" ")
    )])
    .expect("settings inside their limits")
}

/// A call with its moments, lengths and events as the original has them.
pub enum Theirs {
    Push(SimEvent),
    Action(bool, usize, Option<ScheduledAction>),
    Timer(bool, usize, Option<Instant>),
    Pick(Instant),
    Step(Instant, SimEvent),
    Turn(Instant),
}

/// The event of eight words.
fn event_of(e: &[u64]) -> SimEvent {
    SimEvent {
        event: trigger_event(e[0], e[7]).expect("a kind up to 9"),
        time: moment(e[1]),
        integration_delay: Duration::from_nanos(e[2]),
        client: e[3] != 0,
        contains_padding: e[4] != 0,
        bypass: e[5] != 0,
        replace: e[6] != 0,
        debug_note: None,
    }
}

/// The action of a row's last five arguments.
fn action_of(a: &[u64], machine: u64) -> ScheduledAction {
    let (bypass, replace) = (a[3] != 0, a[4] != 0);
    let (timeout, machine) = (Duration::ZERO, MachineId::from_raw(machine as usize));
    let action = match a[0] {
        1 => TriggerAction::SendPadding {
            timeout,
            bypass,
            replace,
            machine,
        },
        _ => TriggerAction::BlockOutgoing {
            timeout,
            duration: Duration::from_nanos(a[2]),
            bypass,
            replace,
            machine,
        },
    };
    ScheduledAction {
        action,
        time: moment(a[1]),
    }
}

impl Theirs {
    pub fn of(r: &Row) -> Theirs {
        let (client, machine) = (r[1] != 0, r[2] as usize);
        match r[0] {
            PUSH => Theirs::Push(event_of(&r[1..])),
            SET_ACTION => Theirs::Action(client, machine, Some(action_of(&r[3..], r[2]))),
            CLEAR_ACTION => Theirs::Action(client, machine, None),
            SET_TIMER => Theirs::Timer(client, machine, Some(moment(r[3]))),
            CLEAR_TIMER => Theirs::Timer(client, machine, None),
            PICK => Theirs::Pick(moment(r[1])),
            STEP => Theirs::Step(moment(r[1]), event_of(&r[2..])),
            _ => Theirs::Turn(moment(r[1])),
        }
    }

    /// Makes the call: the event chosen, and whether there was network activity.
    #[inline(always)]
    pub fn make(self, c: &mut Core) -> (Option<SimEvent>, bool) {
        match self {
            Theirs::Push(e) => c.sq.push_sim(e),
            Theirs::Action(client, machine, action) => {
                c.state(client).scheduled_action[machine] = action
            }
            Theirs::Timer(client, machine, at) => {
                c.state(client).scheduled_internal_timer[machine] = at
            }
            Theirs::Pick(now) => return (pick(c, now), false),
            Theirs::Step(time, e) => return (None, step_on(c, time, &e)),
            Theirs::Turn(now) => {
                let chosen = pick(c, now);
                let yes = chosen.as_ref().is_some_and(|e| step_on(c, e.time, e));
                return (chosen, yes);
            }
        }
        (None, false)
    }
}

fn pick(c: &mut Core, now: Instant) -> Option<SimEvent> {
    pick_next(&mut c.sq, &mut c.client, &mut c.server, &mut c.network, now)
}

fn step_on(c: &mut Core, time: Instant, e: &SimEvent) -> bool {
    let (state, recipient) = if e.client {
        (&c.client, &mut c.server)
    } else {
        (&c.server, &mut c.client)
    };
    sim_network_stack(e, &mut c.sq, state, recipient, &mut c.network, &time)
}

/// The eight words of an event.
fn words_of(e: &SimEvent) -> [u64; 8] {
    let machine = match e.event {
        TriggerEvent::PaddingSent { machine }
        | TriggerEvent::BlockingBegin { machine }
        | TriggerEvent::TimerBegin { machine }
        | TriggerEvent::TimerEnd { machine } => machine.into_raw() as u64,
        _ => 0,
    };
    let moment = u64::try_from(number(e.time)).expect("a moment from 0 on");
    let flags = [e.client, e.contains_padding, e.bypass, e.replace].map(u64::from);
    let delay = e.integration_delay.as_nanos() as u64;
    [
        event_to_usize(&e.event) as u64,
        moment,
        delay,
        flags[0],
        flags[1],
        flags[2],
        flags[3],
        machine,
    ]
}

/// The words that a step on the event of these eight is answered with, after the original has answered yes or no. When the
/// packet count falls is read off its stamps.
pub fn step_words(c: &Core, e: &[u64], yes: bool) -> [u64; 3] {
    let (sent, client) = (e[0] == 0, e[3] != 0);
    let stamps = if client {
        &c.network.client_window
    } else {
        &c.network.server_window
    };
    let falls = sent.then(|| count_falls(stamps)).flatten();
    let moment = falls.map_or(0, |t| u64::try_from(number(t)).expect("from 0 on"));
    [yes as u64, falls.is_some() as u64, moment]
}

/// The answer that the list call must give to a row, after the original has made it in so many rounds.
pub fn answer(
    c: &Core,
    row: &Row,
    (chosen, yes): (Option<SimEvent>, bool),
    rounds: u64,
) -> AnswerRow {
    let mut answer = [0; 16];
    let code = row[0];
    if code == STEP {
        answer[1..4].copy_from_slice(&step_words(c, &row[2..10], yes));
    }
    if code == PICK || code == TURN {
        answer[1] = chosen.is_some() as u64;
        answer[2] = rounds;
    }
    if let Some(e) = chosen {
        let event = words_of(&e);
        answer[3..11].copy_from_slice(&event);
        if code == TURN {
            answer[11..14].copy_from_slice(&step_words(c, &event, yes));
        }
    }
    answer
}
