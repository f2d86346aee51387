//! Owned and lent blocks, and answers that are handed a place of another length.

mod common;

use common::{core, opening, packet};
use maybenot_core::{sys, words_for, Core, Side, MAX_RECORDS};

#[test]
fn number_1_the_records() {
    for records in [0, MAX_RECORDS + 1, 1 << 40, usize::MAX] {
        let refusal = Core::with_records(records, &opening()).expect_err("is refused");
        assert_eq!(refusal.number(), 1, "{records} records");
    }
    for records in [1, 2, 1984, MAX_RECORDS] {
        assert_eq!(Some(core(records).words().len()), words_for(records));
    }
}

#[test]
fn lent_and_owned_blocks_answer_alike() {
    let mut words = vec![u64::MAX; 256 + 4 * 16];
    let mut owned = core(16);
    let mut lent = Core::open_in(&mut words, &opening()).expect("inside the limits");
    for core in [&mut owned, &mut lent] {
        core.push_sim(&packet(100)).expect("room");
        core.set_timer(Side::Server, 0, 40).expect("room");
    }
    assert_eq!(owned.words(), lent.words());
    assert_eq!(owned.pick_next(0), lent.pick_next(0));
    // gone on with elsewhere: a copy of the words is the state
    let mut copy = owned.words().to_vec();
    assert_eq!(Core::resume(&mut copy).pick_next(40), lent.pick_next(40));
    assert_eq!(copy, words);
}

#[test]
fn a_core_moves_to_another_thread() {
    let mut core = core(16);
    core.push_sim(&packet(100)).expect("room");
    let there = std::thread::spawn(move || core.pick_next(0));
    let choice = there.join().expect("no panic").expect("not refused");
    assert_eq!(choice.event(), Some(packet(100)));
}

#[test]
fn an_answer_of_another_length_is_left() {
    for length in [0, 1, 2, 9, 10, 11, 4096] {
        let mut core = core(16);
        core.push_sim(&packet(100)).expect("room");
        let mut words = core.words().to_vec();
        let mut out = vec![7; length];
        // SAFETY: both are vectors of their own, each with its length.
        let number = unsafe {
            sys::maybenot_core_pick_next(
                words.as_mut_ptr(),
                words.len(),
                0,
                out.as_mut_ptr(),
                length,
            )
        };
        assert_eq!(number, 0);
        let answer = [1, 1, 1, 100, 0, 1, 0, 0, 0, 0];
        let left = if length == 10 {
            answer.to_vec()
        } else {
            vec![7; length]
        };
        assert_eq!(out, left, "{length} words");
        // the call was made all the same
        core.pick_next(0).expect("not refused");
        assert_eq!(words, core.words());
    }
}

#[test]
fn the_answer_of_a_step_is_left_too() {
    for length in [0, 1, 2, 3, 4, 10] {
        let mut words = core(16).words().to_vec();
        let mut out = vec![7; length];
        // SAFETY: both are vectors of their own, each with its length.
        let number = unsafe {
            sys::maybenot_core_sim_network_stack(
                words.as_mut_ptr(),
                words.len(),
                5,
                0,
                5,
                0,
                1,
                0,
                0,
                0,
                0,
                out.as_mut_ptr(),
                length,
            )
        };
        assert_eq!(number, 0);
        // the window is a second
        let left = if length == 3 {
            vec![1, 1, 1_000_000_006]
        } else {
            vec![7; length]
        };
        assert_eq!(out, left, "{length} words");
        // of the 16 free records a stamp and a TunnelRecv took two
        assert_eq!(words[25], 14);
    }
}

#[test]
fn a_refused_call_writes_zeros() {
    let mut words = [0; 260];
    let mut out = [7; 10];
    // SAFETY: both are arrays of their own, each with its length.
    let number = unsafe {
        sys::maybenot_core_pick_next(
            words.as_mut_ptr(),
            words.len(),
            0,
            out.as_mut_ptr(),
            out.len(),
        )
    };
    assert_eq!((number, out), (2, [0; 10]));
    let mut out = [7; 3];
    // SAFETY: both are arrays of their own, each with its length.
    let number = unsafe {
        sys::maybenot_core_sim_network_stack(
            words.as_mut_ptr(),
            words.len(),
            0,
            0,
            0,
            0,
            0,
            0,
            0,
            0,
            0,
            out.as_mut_ptr(),
            out.len(),
        )
    };
    assert_eq!((number, out), (2, [0; 3]));
}
