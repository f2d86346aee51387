//! Turns: choice and step as one row, and runs of them.

mod common;
mod lists;

use common::{core, opening, packet};
use lists::alone::{hold_words, made_alone};
use lists::batches::{made_as_lists, Tally};
use lists::random::Random;
use maybenot_core::{
    Action, Answer, Call, Choice, Core, Kind, Opening, Side, SimEvent, Stop, MAX_MOMENT,
};

const TURN: Call = Call::Turn {
    now: 0,
    stop: Stop::NEVER,
};

#[test]
fn a_refused_turn_of_10_tells_its_rounds() {
    let slow = Opening {
        network_delay: 20,
        ..opening()
    };
    let mut core = Core::with_records(16, &slow).expect("inside the limits");
    let action = Action::block_outgoing(50, 100);
    core.set_action(Side::Client, 0, &action).expect("room");
    core.pick_next(50).expect("BlockingBegin");
    core.push_sim(&SimEvent::new(Kind::TUNNEL_SENT, Side::Client, 100))
        .expect("room");
    core.pick_next(100).expect("BlockingEnd");
    core.pick_next(150).expect("the packet");
    let action = Action::block_outgoing(MAX_MOMENT, 1);
    core.set_action(Side::Client, 0, &action).expect("room");
    let answers = core.batch([TURN, TURN]);
    let [Answer::Turn(turn)] = answers[..] else {
        panic!("one turn: {answers:?}")
    };
    assert_eq!(turn.step, None);
    let refusal = turn.choice.expect_err("a sum passes");
    assert_eq!((refusal.number(), refusal.rounds()), (10, 2));
}

#[test]
fn a_turn_goes_on_at_the_last_event() {
    // a timer at 40 is never taken at a later time
    let late = |answers: &[Answer]| match answers.last() {
        Some(Answer::Turn(turn)) => turn.event().map(|e| e.moment),
        other => panic!("{other:?}"),
    };
    let timer = Call::SetTimer {
        side: Side::Client,
        machine: 0,
        moment: 40,
    };
    let push = Call::PushSim(packet(100));
    for chosen in [Call::PickNext { now: 0 }, TURN] {
        let mut core = core(16);
        let answers = core.batch([push, chosen, timer, TURN]);
        let last = late(&answers);
        let turned = matches!(chosen, Call::Turn { .. });
        assert_eq!(last, turned.then_some(100), "the timer is not taken");
        // another list begins anew
        assert_eq!(late(&core.batch([TURN])), Some(40));
    }
}

#[test]
fn a_turn_whose_step_is_refused_keeps_its_event() {
    // a TunnelSent with a delay above its moment is refused with 8
    let early = SimEvent {
        delay: 6,
        ..SimEvent::new(Kind::TUNNEL_SENT, Side::Client, 5)
    };
    let mut core = core(16);
    let answers = core.batch([Call::PushSim(early), TURN, TURN]);
    let [Answer::Done(Ok(())), Answer::Turn(turn)] = answers[..] else {
        panic!("one turn: {answers:?}")
    };
    assert_eq!(turn.refusal().map(|r| r.number()), Some(8));
    assert_eq!(turn.event(), Some(early));
    assert_eq!(core.run_until(5, Stop::NEVER, |_| ()), Ok(None));
}

#[test]
fn a_list_ends_after_an_event_of_its_set() {
    for side in Side::BOTH {
        let mut core = core(16);
        let sent = SimEvent::new(Kind::NORMAL_SENT, Side::Client, 5);
        let theirs = SimEvent::new(Kind::NORMAL_SENT, Side::Server, 6);
        core.batch([sent, theirs].map(Call::PushSim));
        let stop = Stop::at(side, Kind::NORMAL_SENT);
        let turn = Call::Turn { now: 0, stop };
        let made = core.batch([turn; 9]).len();
        // the client's NormalSent and TunnelSent, what follows of it at 5, then the server's
        assert_eq!(made, if side == Side::Client { 1 } else { 5 });
    }
    assert_eq!(Stop::at(Side::Client, Kind(10)), Stop::NEVER);
    assert!(!Stop::at(Side::Server, Kind(0)).contains(Side::Client, Kind(16)));
}

#[test]
fn run_until_is_choices_and_steps() {
    let slow = Opening {
        network_delay: 20,
        network_rate: Some(3),
        ..opening()
    };
    let mut listed = Core::with_records(2000, &slow).expect("inside the limits");
    let mut alone = Core::with_records(2000, &slow).expect("inside the limits");
    for core in [&mut listed, &mut alone] {
        let pushes = (0..600).map(|i| Call::PushSim(packet(7 * i)));
        assert_eq!(core.batch(pushes).len(), 600);
    }
    let mut events = Vec::new();
    let left = listed.run_until(0, Stop::NEVER, |turn| {
        events.extend(turn.event().map(|e| (e, turn.step)));
    });
    assert_eq!(left, Ok(None));
    let mut now = 0;
    for (event, step) in &events {
        assert_eq!(
            alone.pick_next(now).expect("an event").event(),
            Some(*event)
        );
        now = event.moment;
        assert_eq!(Some(alone.sim_network_stack(now, event)), *step);
    }
    assert!(matches!(alone.pick_next(now), Ok(Choice::Nothing { .. })));
    assert_eq!(events.len(), 4 * 600);
    hold_words(listed.words(), alone.words());
}

/// A driver's calls, drawn: packets and slots, and choices with the steps of their events.
fn driven(random: &mut Random, calls: usize) -> Vec<Call> {
    let mut core = core(64);
    let mut list = Vec::new();
    let mut now = 0;
    while list.len() < calls {
        let side = Side::BOTH[random.below(2) as usize];
        let moment = now + random.below(60);
        let call = match random.below(12) {
            0 | 1 => Call::PushSim(SimEvent::new(Kind::NORMAL_SENT, side, moment)),
            2 => Call::SetAction {
                side,
                machine: 0,
                action: Action {
                    replace: random.below(2) == 0,
                    bypass: random.below(2) == 0,
                    ..[
                        Action::send_padding(moment),
                        Action::block_outgoing(moment, 30),
                    ][random.below(2) as usize]
                },
            },
            3 => Call::SetTimer {
                side,
                machine: 0,
                moment,
            },
            4 => Call::ClearTimer { side, machine: 0 },
            _ => Call::PickNext { now },
        };
        list.push(call);
        if let Answer::Choice(Ok(Choice::Event { event, .. })) = made_alone(&mut core, &call) {
            now = event.moment;
            let step = Call::SimNetworkStack { time: now, event };
            made_alone(&mut core, &step);
            list.push(step);
        }
    }
    list
}

#[test]
fn a_driver_by_lists_is_the_driver_call_by_call() {
    let mut tally = Tally::default();
    for seed in 0..60 {
        let mut random = Random::new(seed, b"driven");
        let calls = driven(&mut random, 400);
        let mut words = core(64).words().to_vec();
        let mut rest = &calls[..];
        while !rest.is_empty() {
            let (batch, later) = rest.split_at(random.length(400).min(rest.len()));
            made_as_lists(&mut words, batch, &mut random, &mut tally);
            rest = later;
        }
    }
    assert!(tally.turns > 2000);
}
