//! Lists of calls through the list call of the library and through the original, in one run: our time / the original's.
//!
//!   lists [ROUNDS [CALLS [R..]]]     the least of ROUNDS (5; short lists more often), CALLS in the steady state (1,000,000)
//!
//! Phases: load, drain and steady of traffic.rs; drain and steady also by turns, a choice and the step of its event as
//! one row. Each is made in batches of 3, 30 and 300 rows and as one list. The block is tested once a batch, so that small
//! batches on large blocks take long: there only the first rows are made, by both, and their number stands beside the
//! ratio. Rows are written before, and not timed, and so are the events that the original is handed.
//!
//! Every answer is held to the original's before anything is timed. Built with the feature `plain` the original has the
//! standard heap, which does not keep the order among equals, and nothing that counts its rounds; its lists are those of
//! the other build, and its own events are not compared.

use super::rows::{AnswerRow, Opening, PICK, Row, STEP, TURN, Theirs, opened, row};
use super::*;
use crate::block::Block;
use maybenot_core::sys;
use std::hint::black_box;
use std::time::Instant as Clock;

#[cfg(not(feature = "plain"))]
use super::traffic::{Phase, load_and_drain, steady};
#[cfg(feature = "plain")]
use compared::network::harness::traffic::{Phase, load_and_drain, steady};

const BATCHES: [usize; 4] = [3, 30, 300, usize::MAX];
/// About how long the tests of all batches may take, and how long one takes for each record, in nanoseconds.
const ALL_TESTS: usize = 400_000_000;
const TEST_OF_RECORD: usize = 3;
/// Packets a window and side.
const RATE: u64 = 900;
/// A list shorter than this is timed more often, up to so many times.
const LONG: usize = 100_000;
const MOST_OFTEN: usize = 40;

/// How many rows of a list are made in batches of so many rows.
fn length(phase: &Phase, batch: usize) -> usize {
    let lists = ALL_TESTS / (TEST_OF_RECORD * phase.records + 300);
    phase.rows.len().min(batch.saturating_mul(lists.max(1)))
}

// ---- ours

/// Makes a list; how many rows were made.
fn list(w: &mut [u64], rows: &[Row], answers: &mut [AnswerRow]) -> u64 {
    // SAFETY: pointers and lengths are those of three slices that do not overlap.
    unsafe {
        sys::maybenot_core_calls(
            w.as_mut_ptr(),
            w.len(),
            rows.as_ptr().cast(),
            12 * rows.len(),
            answers.as_mut_ptr().cast(),
            16 * answers.len(),
        )
    }
}

/// The block before the phase.
fn block_before(phase: &Phase) -> Block {
    let mut block = Block::new(256 + 4 * phase.records);
    let w = block.words_mut();
    let o: &Opening = &phase.opening;
    // SAFETY: pointer and length are those of one slice.
    let number = unsafe {
        sys::maybenot_core_open(
            w.as_mut_ptr(),
            w.len(),
            o[0],
            o[1],
            o[2],
            o[3],
            o[4],
            o[5],
            o[6],
            o[7],
            o[8],
            o[9],
            o[10],
            o[11],
        )
    };
    assert_eq!(number, 0, "opening was refused");
    let mut answers = vec![[0; 16]; phase.before.len()];
    let made = list(w, &phase.before, &mut answers);
    assert_eq!(made as usize, phase.before.len(), "not all was made before");
    assert!(
        answers.iter().all(|a| a[0] == 0),
        "a call was refused before"
    );
    block
}

/// Every row is made and answered as by the original.
fn compare(w: &mut [u64], phase: &Phase, batch: usize, answers: &mut [AnswerRow]) {
    let length = length(phase, batch);
    let due = phase.answers[..length].chunks(batch.min(length));
    for (at, (rows, due)) in phase.rows[..length]
        .chunks(batch.min(length))
        .zip(due)
        .enumerate()
    {
        answers.fill([7; 16]);
        let made = list(w, rows, answers);
        assert_eq!(
            made as usize,
            rows.len(),
            "{}, batch {at} of {batch}: rows made",
            phase.name
        );
        for (i, (a, d)) in answers.iter().zip(due).enumerate() {
            assert_eq!(
                a, d,
                "{}, batch {at} of {batch}, row {i}: {:?}",
                phase.name, rows[i]
            );
        }
    }
}

/// Nanoseconds for the rows.
fn time_ours(w: &mut [u64], rows: &[Row], batch: usize, answers: &mut [AnswerRow]) -> f64 {
    let start = Clock::now();
    for rows in rows.chunks(batch) {
        black_box(list(w, rows, answers));
    }
    start.elapsed().as_nanos() as f64
}

// ---- theirs

/// Nanoseconds for the first rows, for each of these numbers of rows, which rise.
fn time_theirs(core: &mut Core, rows: &[Row], lengths: &[usize]) -> Vec<f64> {
    let mut calls: Vec<Theirs> = rows.iter().map(Theirs::of).collect();
    let mut from = 0;
    let mut sum = 0.0;
    let mut times = Vec::new();
    for &length in lengths {
        let part: Vec<Theirs> = calls.drain(..length - from).collect();
        let start = Clock::now();
        for call in part {
            black_box(call.make(core));
        }
        sum += start.elapsed().as_nanos() as f64;
        from = length;
        times.push(sum);
    }
    times
}

fn their_core_before(phase: &Phase) -> Core {
    let mut core = opened(&phase.opening);
    for row in &phase.before {
        Theirs::of(row).make(&mut core);
    }
    core
}

// ---- a phase

/// The same phase with a turn for each choice that is followed by the step of its event.
fn by_turns(phase: &Phase) -> Phase {
    let (mut rows, mut answers) = (Vec::new(), Vec::new());
    let mut at = 0;
    while at < phase.rows.len() {
        let (r, a) = (phase.rows[at], phase.answers[at]);
        let step = phase
            .rows
            .get(at + 1)
            .filter(|s| s[0] == STEP && s[2..10] == a[3..11] && s[1] == a[4]);
        let turned = r[0] == PICK && (a[1] == 0 || step.is_some());
        rows.push(if turned { row(TURN, &[r[1], 0]) } else { r });
        answers.push(a);
        if turned && a[1] != 0 {
            answers.last_mut().unwrap()[11..14].copy_from_slice(&phase.answers[at + 1][1..4]);
            at += 1;
        }
        at += 1;
    }
    let name = format!("{}, by turns", phase.name);
    Phase {
        name,
        records: phase.records,
        opening: phase.opening,
        before: phase.before.clone(),
        rows,
        answers,
    }
}

/// Compares, then times by turns; prints the row of the table.
fn row_of(phase: &Phase, rounds: usize) {
    let block = block_before(phase);
    let mut work = Block::new(block.words().len());
    let lengths = BATCHES.map(|batch| length(phase, batch));
    let batches = BATCHES.map(|batch| batch.min(phase.rows.len()));
    let mut answers = batches.map(|batch| vec![[0; 16]; batch]);
    for (batch, room) in batches.iter().zip(&mut answers) {
        work.words_mut().copy_from_slice(block.words());
        compare(work.words_mut(), phase, *batch, room);
    }
    let (mut ours, mut theirs) = ([f64::MAX; 4], [f64::MAX; 4]);
    for _ in 0..rounds * (LONG / phase.rows.len()).clamp(1, MOST_OFTEN) {
        for i in 0..BATCHES.len() {
            work.words_mut().copy_from_slice(block.words());
            let time = time_ours(
                work.words_mut(),
                &phase.rows[..lengths[i]],
                batches[i],
                &mut answers[i],
            );
            ours[i] = ours[i].min(time);
        }
        let times = time_theirs(&mut their_core_before(phase), &phase.rows, &lengths);
        for (least, time) in theirs.iter_mut().zip(times) {
            *least = least.min(time);
        }
    }
    print_row(phase, &lengths, &ours, &theirs);
}

fn print_row(phase: &Phase, lengths: &[usize; 4], ours: &[f64; 4], theirs: &[f64; 4]) {
    let all = phase.rows.len();
    print!(
        "{:>6}  {:<26} {all:>9}  {:>7.0} ns",
        phase.records,
        phase.name,
        theirs[3] / all as f64
    );
    for i in 0..BATCHES.len() {
        let ratio = format!("{:.2}", ours[i] / theirs[i]);
        let made = if lengths[i] < all {
            format!(" ({})", lengths[i])
        } else {
            String::new()
        };
        print!("  {ratio:>8}{made:<10}");
    }
    println!();
}

/// The rates of the steady state. Where a block has no room for as many stamps as the first of them, one that is reached.
fn rates(records: usize) -> Vec<Option<u64>> {
    let mut rates = vec![None, Some(RATE)];
    if records < 10 * RATE as usize {
        rates.push(Some(records as u64 / 8));
    }
    rates
}

pub fn main() {
    let mut words = std::env::args()
        .skip(1)
        .map(|w| w.parse::<usize>().expect("lists [ROUNDS [CALLS [R..]]]"));
    let rounds = words.next().unwrap_or(5);
    let calls = words.next().unwrap_or(1_000_000);
    let mut sizes: Vec<usize> = words.collect();
    if sizes.is_empty() {
        sizes = vec![256, 1_984, 16_384, 65_535];
    }
    println!(
        "our time / the original's, the least of {rounds} each, in batches of so many rows; (n): only the first n rows were made"
    );
    println!(
        "{:>6}  {:<26} {:>9}  {:>10}  {:>8}{:10}  {:>8}{:10}  {:>8}{:10}  {:>8}",
        "R", "phase", "rows", "original", "3", "", "30", "", "300", "", "all"
    );
    for records in sizes {
        let [load, drain] = load_and_drain(records);
        row_of(&load, rounds);
        row_of(&drain, rounds);
        row_of(&by_turns(&drain), rounds);
        for rate in rates(records) {
            let steady = steady(records, rate, calls);
            row_of(&steady, rounds);
            row_of(&by_turns(&steady), rounds);
        }
    }
}
