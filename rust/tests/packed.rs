//! Packing: equal forecasts have equal packed words, any difference shows, and packed words go on as the original.

mod common;

use common::{core, opening, packet};
use maybenot_core::{
    accepted, pack, same_forecast, Action, Choice, Core, Kind, Opening, Side, SimEvent,
};

/// The packed words of a core.
fn packed(core: &Core) -> Vec<u64> {
    let mut second = vec![u64::MAX; core.words().len()];
    core.pack(&mut second).expect("an accepted state");
    second
}

/// A core to which these packets were pushed.
fn pushed(packets: &[(u64, Side)]) -> Core<'static> {
    let mut core = core(16);
    for &(moment, side) in packets {
        core.push_sim(&SimEvent::new(Kind::NORMAL_SENT, side, moment))
            .expect("room");
    }
    core
}

const PACKETS: [(u64, Side); 3] = [(100, Side::Client), (50, Side::Server), (70, Side::Client)];

#[test]
fn another_order_packs_alike() {
    let one = pushed(&PACKETS);
    let mut back = PACKETS;
    back.reverse();
    let other = pushed(&back);
    assert_ne!(one.words(), other.words());
    assert_eq!(packed(&one), packed(&other));
    assert_eq!(same_forecast(one.words(), other.words()), Ok(true));
    assert!(accepted(&packed(&one)));
    // the client's two packets by moment, then the server's, then the free records
    assert_eq!(packed(&one)[24..28], [4, 13, 1, 2]);
    assert_eq!(packed(&one)[36..38], [3, 1]);
}

#[test]
fn a_difference_shows() {
    let one = pushed(&PACKETS);
    let changes: [fn(&mut Core); 5] = [
        |core| core.set_timer(Side::Client, 0, 5).expect("room"),
        |core| {
            core.set_action(Side::Server, 0, &Action::send_padding(9))
                .expect("room")
        },
        |core| core.push_sim(&packet(100)).expect("room"),
        |core| {
            core.pick_next(0).expect("not refused");
        },
        |core| {
            core.open(&Opening {
                network_delay: 1,
                ..opening()
            })
            .expect("inside the limits")
        },
    ];
    for change in changes {
        let mut other = pushed(&PACKETS);
        change(&mut other);
        assert_eq!(same_forecast(one.words(), other.words()), Ok(false));
    }
}

#[test]
fn packing_twice_changes_nothing() {
    let once = packed(&pushed(&PACKETS));
    let mut twice = vec![7; once.len()];
    assert_eq!(pack(&once, &mut twice), Ok(()));
    assert_eq!(once, twice);
}

#[test]
fn packed_words_go_on() {
    let mut one = pushed(&PACKETS);
    let mut words = packed(&one);
    let mut other = Core::resume(&mut words);
    let mut now = 0;
    loop {
        let choice = one.pick_next(now);
        assert_eq!(choice, other.pick_next(now));
        let Ok(Choice::Event { event, .. }) = choice else {
            break;
        };
        now = event.moment;
        assert_eq!(
            one.sim_network_stack(now, &event),
            other.sim_network_stack(now, &event)
        );
        assert_eq!(packed(&one), packed(&other));
    }
    assert!(now > 0);
}

#[test]
fn numbers_1_and_2() {
    let one = pushed(&PACKETS);
    for length in [0, 1, 259, 260, 319, 321, 324, 8192] {
        let mut second = vec![7; length];
        assert_eq!(
            one.pack(&mut second).expect_err("is refused").number(),
            1,
            "{length} words"
        );
        assert!(
            second.iter().all(|&word| word == 7),
            "a refusal leaves the second block"
        );
        assert_eq!(
            same_forecast(one.words(), &second)
                .expect_err("is refused")
                .number(),
            1
        );
        assert_eq!(
            same_forecast(&second, one.words())
                .expect_err("is refused")
                .number(),
            1
        );
    }
    let mut broken = one.words().to_vec();
    broken[25] += 1;
    let mut second = vec![7; broken.len()];
    assert_eq!(
        pack(&broken, &mut second).expect_err("is refused").number(),
        2
    );
    assert!(second.iter().all(|&word| word == 7));
    assert_eq!(
        same_forecast(one.words(), &broken)
            .expect_err("is refused")
            .number(),
        2
    );
    assert_eq!(
        same_forecast(&broken, one.words())
            .expect_err("is refused")
            .number(),
        2
    );
    // another length goes before 2
    assert_eq!(
        pack(&broken, &mut second[4..])
            .expect_err("is refused")
            .number(),
        1
    );
}

#[test]
fn an_ended_state_packs() {
    let mut core = core(16);
    let last = maybenot_core::MAX_MOMENT;
    core.set_action(Side::Client, 0, &Action::block_outgoing(last, 1))
        .expect("room");
    assert_eq!(
        core.pick_next(last).expect_err("past the limit").number(),
        10
    );
    let mut words = packed(&core);
    assert_eq!(
        Core::resume(&mut words)
            .pick_next(0)
            .expect_err("ended")
            .number(),
        3
    );
}
