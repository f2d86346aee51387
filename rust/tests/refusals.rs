//! Each number of a refusal through the safe crate, on lengths that are none too.

mod common;

use common::{core, opening, packet};
use maybenot_core::{
    accepted, Action, ActionKind, Choice, Core, Kind, Opening, Refusal, Side, SideOpening,
    SimEvent, MAX_EVENT_DELAY, MAX_LENGTH, MAX_MACHINES, MAX_MOMENT,
};
use std::error::Error;

/// Holds the number, and that the words are as before.
fn refused<T: std::fmt::Debug>(
    core: &mut Core,
    number: u64,
    call: impl FnOnce(&mut Core) -> Result<T, Refusal>,
) {
    let before = core.words().to_vec();
    let refusal = call(core).expect_err("is refused");
    assert_eq!(refusal.number(), number, "{refusal}");
    assert_eq!(refusal.rounds(), 0);
    assert_eq!(core.words(), before);
}

#[test]
fn number_1_the_length() {
    for length in [
        0,
        1,
        255,
        256,
        257,
        258,
        259,
        261,
        262,
        263,
        256 + 4 * 65_536,
    ] {
        let mut words = vec![7; length];
        assert!(!accepted(&words));
        let refusal = Core::open_in(&mut words, &opening()).expect_err("is refused");
        assert_eq!(refusal.number(), 1, "{length} words");
        let mut core = Core::resume(&mut words);
        assert_eq!(core.sum(Side::Server), if length > 11 { 7 } else { 0 });
        assert_eq!(core.block_end(Side::Client), (length > 12).then_some(6));
        refused(&mut core, 1, |c| c.push_sim(&packet(0)));
        refused(&mut core, 1, |c| {
            c.set_action(Side::Client, 0, &Action::send_padding(0))
        });
        refused(&mut core, 1, |c| c.clear_action(Side::Client, 0));
        refused(&mut core, 1, |c| c.set_timer(Side::Client, 0, 0));
        refused(&mut core, 1, |c| c.clear_timer(Side::Client, 0));
        refused(&mut core, 1, |c| c.pick_next(0));
        refused(&mut core, 1, |c| c.sim_network_stack(0, &packet(0)));
        assert!(words.iter().all(|w| *w == 7));
    }
}

#[test]
fn number_2_no_state() {
    for word in [0, 1, u64::MAX] {
        let mut words = [word; 260];
        let mut core = Core::resume(&mut words);
        assert!(!core.accepted());
        refused(&mut core, 2, |c| c.push_sim(&packet(0)));
        refused(&mut core, 2, |c| c.pick_next(0));
        refused(&mut core, 2, |c| c.sim_network_stack(0, &packet(0)));
    }
}

#[test]
fn number_4_an_opening_value() {
    let good = opening();
    let late = MAX_LENGTH + 1;
    let side = SideOpening {
        machines: MAX_MACHINES + 1,
        ..SideOpening::default()
    };
    let bad = [
        Opening {
            network_delay: late,
            ..good
        },
        Opening {
            window: late,
            ..good
        },
        Opening {
            network_rate: Some(0),
            ..good
        },
        Opening {
            queue_rate: Some(1 << 32),
            ..good
        },
        Opening {
            client: side,
            ..good
        },
        Opening {
            server: SideOpening {
                action_delay: late,
                ..good.server
            },
            ..good
        },
        Opening {
            server: SideOpening {
                reporting_delay: late,
                ..good.server
            },
            ..good
        },
    ];
    let mut core = core(1);
    for o in bad {
        refused(&mut core, 4, |c| c.open(&o));
        assert_eq!(
            Core::with_records(1, &o).expect_err("is refused").number(),
            4
        );
    }
}

#[test]
fn numbers_5_to_9() {
    let mut core = core(5);
    let client = Side::Client;
    refused(&mut core, 5, |c| c.set_timer(client, 1, 0));
    refused(&mut core, 5, |c| c.clear_timer(client, u64::MAX));
    refused(&mut core, 5, |c| c.clear_action(Side::Server, 1));
    for kind in [2, 6, 8, 9] {
        let event = SimEvent {
            kind: Kind(kind),
            machine: 1,
            ..packet(0)
        };
        refused(&mut core, 5, |c| c.push_sim(&event));
        refused(&mut core, 5, |c| c.sim_network_stack(0, &event));
    }
    for kind in [
        ActionKind::CANCEL,
        ActionKind::UPDATE_TIMER,
        ActionKind(u64::MAX),
    ] {
        let action = Action {
            kind,
            ..Action::send_padding(0)
        };
        refused(&mut core, 6, |c| c.set_action(client, 0, &action));
    }
    for kind in [10, u64::MAX] {
        let event = SimEvent {
            kind: Kind(kind),
            ..packet(0)
        };
        refused(&mut core, 6, |c| c.push_sim(&event));
        refused(&mut core, 6, |c| c.sim_network_stack(0, &event));
    }
    refused(&mut core, 7, |c| c.push_sim(&packet(MAX_MOMENT + 1)));
    refused(&mut core, 7, |c| {
        c.push_sim(&SimEvent {
            delay: MAX_EVENT_DELAY + 1,
            ..packet(0)
        })
    });
    refused(&mut core, 7, |c| c.pick_next(MAX_MOMENT + 1));
    refused(&mut core, 7, |c| {
        c.sim_network_stack(MAX_MOMENT + 1, &packet(0))
    });
    refused(&mut core, 7, |c| c.set_timer(client, 0, u64::MAX));
    refused(&mut core, 7, |c| {
        c.set_action(client, 0, &Action::block_outgoing(0, MAX_LENGTH + 1))
    });
    let early = SimEvent {
        delay: 6,
        kind: Kind::TUNNEL_SENT,
        ..packet(5)
    };
    refused(&mut core, 8, |c| c.sim_network_stack(5, &early));
    for _ in 0..5 {
        core.push_sim(&packet(0)).expect("there is room");
    }
    refused(&mut core, 9, |c| c.push_sim(&packet(0)));
    refused(&mut core, 9, |c| c.set_timer(client, 0, 0));
    refused(&mut core, 9, |c| {
        c.set_action(client, 0, &Action::send_padding(0))
    });
    refused(&mut core, 9, |c| c.sim_network_stack(0, &packet(0)));
}

#[test]
fn numbers_10_and_3() {
    let mut core = core(8);
    let client = Side::Client;
    core.set_timer(client, 0, MAX_MOMENT)
        .expect("inside the limits");
    core.set_action(Side::Server, 0, &Action::block_outgoing(MAX_MOMENT, 1))
        .expect("inside");
    // the timer's round is finished, then its event is taken
    assert_eq!(core.pick_next(0).expect("the timer").rounds(), 2);
    let refusal = core.pick_next(0).expect_err("2^62 - 1 + 1");
    assert_eq!((refusal.number(), refusal.rounds()), (10, 0));
    assert!(core.accepted());
    refused(&mut core, 3, |c| c.pick_next(0));
    refused(&mut core, 3, |c| c.push_sim(&packet(0)));
    refused(&mut core, 3, |c| c.clear_timer(client, 0));
    refused(&mut core, 3, |c| c.sim_network_stack(0, &packet(0)));
    core.open(&opening()).expect("opening goes on");
    assert_eq!(core.pick_next(0), Ok(Choice::Nothing { rounds: 1 }));
}

#[test]
fn number_10_keeps_finished_rounds() {
    let slow = Opening {
        network_delay: 20,
        ..opening()
    };
    let mut core = Core::with_records(16, &slow).expect("inside the limits");
    // a packet waits for the end of a block, which leaves two aggregate delays of 50 pending
    core.set_action(Side::Client, 0, &Action::block_outgoing(50, 100))
        .expect("inside");
    core.pick_next(50).expect("BlockingBegin");
    core.push_sim(&SimEvent::new(Kind::TUNNEL_SENT, Side::Client, 100))
        .expect("room");
    core.pick_next(100).expect("BlockingEnd");
    core.pick_next(150).expect("the packet");
    assert_eq!(Side::BOTH.map(|side| core.sum(side)), [0, 0]);
    // the next block would end too late: the delays are taken in first
    core.set_action(Side::Client, 0, &Action::block_outgoing(MAX_MOMENT, 1))
        .expect("inside");
    let refusal = core.pick_next(150).expect_err("2^62 - 1 + 1");
    assert_eq!((refusal.number(), refusal.rounds()), (10, 2));
    assert!(refusal.to_string().ends_with("(after 2 finished rounds)"));
    assert_eq!(Side::BOTH.map(|side| core.sum(side)), [50, 50]);
}

#[test]
fn refusals_have_a_meaning() {
    let refusal = Core::resume(&mut []).pick_next(0).expect_err("no words");
    let text = refusal.to_string();
    assert_eq!(
        text,
        "refusal 1: the length is not 256 + 4R words, R from 1 to 65,535, or a second block has another"
    );
    let error: Box<dyn Error + Send + Sync> = refusal.into();
    assert_eq!(error.to_string(), text);
}
