//! When the packet count falls: the oldest stamp kept, by arrival, plus the window plus 1.

mod common;

use common::{core, opening, packet};
use maybenot_core::{
    AnswerRow, Call, Core, Kind, Opening, Row, Side, SimEvent, Step, Stop, Turn, ANSWER_WORDS,
    MAX_LENGTH, MAX_MOMENT,
};

/// A core whose packets are counted in a window of so many nanoseconds.
fn windowed(window: u64) -> Core<'static> {
    let mut core = core(16);
    core.open(&Opening {
        window,
        ..opening()
    })
    .expect("inside the limits");
    core
}

/// A packet of the client that is no padding and has no delay, at moment 0: no sum of its step is near the limit.
fn sent() -> SimEvent {
    SimEvent::new(Kind::TUNNEL_SENT, Side::Client, 0)
}

/// What the steps of packets at these times tell.
fn falls_at<const N: usize>(core: &mut Core, times: [u64; N]) -> [Option<u64>; N] {
    times.map(|time| {
        let step = core.sim_network_stack(time, &sent()).expect("not refused");
        assert!(step.active);
        step.falls
    })
}

#[test]
fn a_stamp_of_the_windows_age_stays() {
    let falls = falls_at(&mut windowed(10), [100, 110, 111]);
    assert_eq!(falls, [111, 111, 121].map(Some));
    let falls = falls_at(&mut windowed(0), [0, 0, 1]);
    assert_eq!(falls, [1, 1, 2].map(Some));
}

#[test]
fn the_oldest_is_the_first_to_arrive() {
    // 50 comes after 110: it is the least, but goes only behind it
    let falls = falls_at(&mut windowed(10), [110, 50, 120, 121]);
    assert_eq!(falls, [121, 121, 121, 131].map(Some));
    // where all others went it is the new one
    let falls = falls_at(&mut windowed(10), [100, 101, 1000]);
    assert_eq!(falls, [111, 111, 1011].map(Some));
}

#[test]
fn sides_have_their_own_stamps() {
    let mut core = windowed(10);
    let theirs = SimEvent {
        side: Side::Server,
        padding: true,
        ..sent()
    };
    assert_eq!(falls_at(&mut core, [100]), [Some(111)]);
    let step = core.sim_network_stack(50, &theirs).expect("not refused");
    assert_eq!(step.falls, Some(61));
    assert_eq!(falls_at(&mut core, [105]), [Some(111)]);
}

#[test]
fn other_kinds_tell_no_moment() {
    let mut core = windowed(10);
    falls_at(&mut core, [50]);
    for kind in 1..10 {
        let event = SimEvent {
            kind: Kind(kind),
            ..packet(60)
        };
        let step = core.sim_network_stack(60, &event);
        let active = kind == Kind::TUNNEL_RECV.0;
        let none = Step {
            active,
            falls: None,
        };
        assert_eq!(step, Ok(none), "kind {kind}");
    }
}

#[test]
fn a_moment_past_the_limit_is_none() {
    let falls = falls_at(&mut windowed(10), [MAX_MOMENT - 11]);
    assert_eq!(falls, [Some(MAX_MOMENT)]);
    // one past it, at the limit, and a later packet behind it
    let falls = falls_at(&mut windowed(10), [MAX_MOMENT - 10, MAX_MOMENT, 5]);
    assert_eq!(falls, [None; 3]);
    let falls = falls_at(&mut windowed(MAX_LENGTH), [MAX_MOMENT - MAX_LENGTH, 5]);
    assert_eq!(falls, [None; 2]);
}

/// The words that rows of these calls are answered with.
fn answered<const N: usize>(core: &mut Core, calls: [Call; N]) -> Vec<[u64; ANSWER_WORDS]> {
    let mut room = [AnswerRow([7; ANSWER_WORDS]); N];
    let made = core.calls(&calls.map(Row::from), &mut room).len();
    room[..made].iter().map(|answer| answer.0).collect()
}

#[test]
fn the_row_of_a_step_has_its_three_words() {
    let step = |time, kind, delay| Call::SimNetworkStack {
        time,
        event: SimEvent {
            kind,
            delay,
            ..sent()
        },
    };
    let steps = [
        step(100, Kind::TUNNEL_SENT, 0),
        step(105, Kind::TUNNEL_RECV, 0),
        // refused with 8: its delay is above its moment
        step(105, Kind::TUNNEL_SENT, 1),
    ];
    let mut due = [[0; ANSWER_WORDS]; 3];
    due[0][1..4].copy_from_slice(&[1, 1, 111]);
    due[1][1] = 1;
    due[2][0] = 8;
    assert_eq!(answered(&mut windowed(10), steps), due);
}

/// A core with a window of 10 and packets that wait at 100 and 104.
fn two_wait() -> Core<'static> {
    let mut core = windowed(10);
    for moment in [100, 104] {
        let event = SimEvent { moment, ..sent() };
        core.push_sim(&event).expect("room");
    }
    core
}

#[test]
fn the_row_of_a_turn_has_them_behind_its_choice() {
    let turn = Call::Turn {
        now: 0,
        stop: Stop::NEVER,
    };
    // number; chosen, rounds, the event; activity, when the count falls; zeros
    assert_eq!(
        answered(&mut two_wait(), [turn; 4]),
        [
            [0, 1, 1, 0, 100, 0, 1, 0, 0, 0, 0, 1, 1, 111, 0, 0],
            [0, 1, 1, 3, 100, 0, 0, 0, 0, 0, 0, 1, 0, 0, 0, 0],
            [0, 1, 1, 4, 100, 0, 0, 0, 0, 0, 0, 0, 0, 0, 0, 0],
            [0, 1, 1, 0, 104, 0, 1, 0, 0, 0, 0, 1, 1, 111, 0, 0],
        ]
    );
    let mut falls = Vec::new();
    let seen = |turn: &Turn| falls.extend(turn.step.and_then(|step| step.ok()?.falls));
    assert_eq!(two_wait().run_until(0, Stop::NEVER, seen), Ok(None));
    assert_eq!(falls, [111, 111]);
}
