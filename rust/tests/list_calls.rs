//! Lists of calls: where they stop, and what they answer on words that are refused.

mod common;
mod lists;

use common::{core, packet};
use lists::alone::hold_words;
use maybenot_core::{
    sys, Action, Answer, AnswerRow, Call, Core, Row, Side, Stop, ANSWER_WORDS, MAX_MOMENT,
};

/// What no answer holds.
const BEFORE: u64 = 0x0123_4567_89ab_cdef;

const TURN: Call = Call::Turn {
    now: 0,
    stop: Stop::NEVER,
};

/// The first word of each answer.
fn numbers(answers: &[Answer]) -> Vec<u64> {
    let number = |a: &Answer| a.refusal().map_or(0, |r| r.number());
    answers.iter().map(number).collect()
}

/// Three packets, a choice and a turn.
fn some_rows() -> Vec<Row> {
    let packets = [5, 3, 9].map(|moment| Call::PushSim(packet(moment)));
    let rest = [Call::PickNext { now: 0 }, TURN];
    packets.into_iter().chain(rest).map(Row::from).collect()
}

#[test]
fn a_list_stops_before_a_code_that_is_no_call() {
    for code in [8, 9, 255, 1 << 32, u64::MAX] {
        for at in 0..5 {
            let mut rows = some_rows();
            rows[at].0[0] = code;
            let mut core = core(16);
            let mut room = vec![AnswerRow([BEFORE; ANSWER_WORDS]); 5];
            assert_eq!(core.calls(&rows, &mut room).len(), at, "code {code}");
            assert!(room[at..].iter().all(|a| a.0 == [BEFORE; ANSWER_WORDS]));
        }
    }
}

#[test]
fn a_list_stops_where_rows_or_answers_run_out() {
    let rows: Vec<u64> = some_rows().iter().flat_map(|row| row.0).collect();
    for calls in 0..=rows.len() {
        for room in [calls, 0, 15, 16, 33, 79, 80] {
            let mut words = core(16).words().to_vec();
            let mut alone = words.clone();
            let mut answers = vec![BEFORE; room];
            // SAFETY: three slices of their own, each with its length.
            let made = unsafe {
                sys::maybenot_core_calls(
                    words.as_mut_ptr(),
                    words.len(),
                    rows.as_ptr(),
                    calls,
                    answers.as_mut_ptr(),
                    room,
                )
            } as usize;
            assert_eq!(made, (calls / 12).min(room / 16), "{calls}, {room}");
            assert!(answers[16 * made..].iter().all(|w| *w == BEFORE));
            Core::resume(&mut alone)
                .calls(&some_rows()[..made], &mut [AnswerRow::default(); 5])
                .for_each(drop);
            hold_words(&words, &alone);
        }
    }
}

#[test]
fn words_after_the_arguments_are_ignored() {
    let used = [9, 8, 3, 4, 3, 2, 10, 3];
    for (code, used) in used.into_iter().enumerate() {
        let plain = Row(std::array::from_fn(
            |i| if i == 0 { code as u64 } else { 0 },
        ));
        let noisy = Row(std::array::from_fn(|i| match i {
            i if i < used => plain.0[i],
            i => u64::MAX - i as u64,
        }));
        let answers = [plain, noisy].map(|row| {
            let mut core = core(16);
            core.push_sim(&packet(5)).expect("room");
            let mut room = [AnswerRow::default()];
            assert_eq!(core.calls(&[row], &mut room).len(), 1);
            (room, core.words().to_vec())
        });
        assert_eq!(answers[0], answers[1], "code {code}");
    }
}

#[test]
fn refused_words_answer_every_row() {
    let every = [
        Call::PushSim(packet(5)),
        Call::SetAction {
            side: Side::Client,
            machine: 0,
            action: Action::send_padding(5),
        },
        Call::ClearAction {
            side: Side::Client,
            machine: 0,
        },
        Call::SetTimer {
            side: Side::Client,
            machine: 0,
            moment: 5,
        },
        Call::ClearTimer {
            side: Side::Client,
            machine: 0,
        },
        Call::PickNext { now: 0 },
        Call::SimNetworkStack {
            time: 5,
            event: packet(5),
        },
        TURN,
        Call::PickNext { now: 0 },
    ];
    for (length, number) in [
        (0, 1),
        (255, 1),
        (256, 1),
        (259, 1),
        (260, 2),
        (261, 1),
        (320, 2),
    ] {
        let mut words = vec![7; length];
        let answers = Core::resume(&mut words).batch(every);
        // the refused turn is the last one
        assert_eq!(numbers(&answers), [number; 8], "{length} words");
        assert!(words.iter().all(|w| *w == 7));
    }
}

#[test]
fn after_a_10_every_row_gets_3() {
    let end = |side| Call::SetAction {
        side,
        machine: 0,
        action: Action::block_outgoing(MAX_MOMENT, 1),
    };
    let calls = [
        end(Side::Client),
        Call::PickNext { now: 0 },
        Call::PickNext { now: 0 },
        Call::PushSim(packet(0)),
        end(Side::Server),
        TURN,
        Call::PushSim(packet(0)),
    ];
    let mut core = core(16);
    assert_eq!(numbers(&core.batch(calls)), [0, 10, 3, 3, 3, 3]);
    assert!(core.accepted());
    assert_eq!(
        core.run_until(0, Stop::NEVER, |_| ()).unwrap_err().number(),
        3
    );
}
