//! Times acceptance, a lone push, a lone choice, a lone network step and a lone
//! packing, each as a ratio to one plain walk of the same chains in the same run.
//!
//!   bench [ROUNDS]
//!
//! Call and walk are timed by turns, ROUNDS times (four times as often from
//! R = 16,384 on), each over some 100 us. What a call changed is written back after
//! it, a few words, and that is counted with the call.
//! Exit status: 0 within the goals at R >= 256 on the spread blocks, else 1.

mod block;
mod calls;

use block::{Block, Plan};
use calls::{ALL, Call, Event};
use std::hint::black_box;
use std::time::Instant;

/// The walk that all is held against: every chain, the free one too, from its
/// head to its end; each of a record's four words is read once and added up.
#[inline(never)]
fn walk(block: &[u64]) -> u64 {
    let (header, records) = block.split_at(256);
    let mut sum: u64 = 0;
    for k in 0..12 {
        let mut at = header[24 + 2 * k];
        while at != 0 {
            let from = 4 * (at as usize - 1);
            let [next, moment, length, tag] = records[from..from + 4] else {
                unreachable!()
            };
            sum = sum.wrapping_add(next ^ moment ^ length ^ tag);
            at = next;
        }
    }
    sum
}

/// A call on a block of its own, and the words that undo it.
struct Case {
    call: Call,
    block: Block,
    second: Block,
    event: Event,
    undo: Vec<(usize, u64)>,
    /// nanoseconds of one call in each round, and of the walk beside it
    times: Vec<(f64, f64)>,
}

impl Case {
    fn new(call: Call, plan: &Plan) -> Case {
        let mut block = block::block(&call.plan(plan));
        assert!(calls::accepted(block.words()), "the block is not accepted");
        let before = block.words().to_vec();
        let event = call.event(plan);
        let mut second = Block::new(before.len());
        call.make(block.words_mut(), second.words_mut(), &event);
        let left = block.words();
        assert_eq!(
            left[17] - before[17],
            call.rounds(),
            "{}: rounds",
            call.name()
        );
        assert!(calls::accepted(left), "the block left is not accepted");
        let changed = (0..left.len()).filter(|&i| left[i] != before[i]);
        let undo: Vec<_> = changed.map(|i| (i, before[i])).collect();
        assert!(undo.is_empty() == call.reads(), "{}: refused", call.name());
        assert!(
            call != Call::Pack || calls::accepted(second.words()),
            "what is packed is not accepted"
        );
        block.words_mut().copy_from_slice(&before);
        Case {
            call,
            block,
            second,
            event,
            undo,
            times: Vec::new(),
        }
    }

    /// So many calls, each undone: nanoseconds for one.
    fn calls(&mut self, times: usize) -> f64 {
        let w = self.block.words_mut();
        let second = self.second.words_mut();
        let start = Instant::now();
        for _ in 0..times {
            black_box(
                self.call
                    .make(black_box(&mut *w), black_box(&mut *second), &self.event),
            );
            for &(i, v) in &self.undo {
                w[i] = v;
            }
        }
        start.elapsed().as_nanos() as f64 / times as f64
    }

    /// So many walks: nanoseconds for one.
    fn walks(&self, times: usize) -> f64 {
        let start = Instant::now();
        for _ in 0..times {
            black_box(walk(black_box(self.block.words())));
        }
        start.elapsed().as_nanos() as f64 / times as f64
    }

    /// The least call over the least walk.
    fn ratio_of_least(&self) -> f64 {
        let least = |f: fn(&(f64, f64)) -> f64| self.times.iter().map(f).fold(f64::MAX, f64::min);
        least(|t| t.0) / least(|t| t.1)
    }

    /// The median of call over walk, round by round.
    fn median_ratio(&self) -> f64 {
        let mut ratios: Vec<f64> = self.times.iter().map(|t| t.0 / t.1).collect();
        ratios.sort_by(f64::total_cmp);
        ratios[ratios.len() / 2]
    }
}

/// All calls on blocks of one plan, alternately with the walk.
fn measure(plan: &Plan, rounds: usize) -> Vec<Case> {
    let mut cases: Vec<Case> = ALL.iter().map(|&call| Case::new(call, plan)).collect();
    let once = cases[0].walks(20);
    let times = (100_000.0 / once).clamp(1.0, 4_000.0) as usize;
    // a large block is more easily put out of the cache by others: more rounds, to find quiet ones
    let rounds = if plan.records > 10_000 {
        4 * rounds
    } else {
        rounds
    };
    for case in &mut cases {
        case.walks(times);
        case.calls(times);
    }
    for _ in 0..rounds {
        for case in &mut cases {
            let before = case.walks(times);
            let call = case.calls(times);
            let after = case.walks(times);
            case.times.push((call, before.min(after)));
        }
    }
    cases
}

/// One line of the table; answers whether every ratio is within its goal.
fn row(plan: &Plan, fill: &str, rounds: usize) -> bool {
    let cases = measure(plan, rounds);
    let order = if plan.shuffled {
        "shuffled"
    } else {
        "in order"
    };
    let least = cases[0].times.iter().map(|t| t.1).fold(f64::MAX, f64::min);
    print!("{:>6}  {order}  {fill:<13} {least:>9.0} ns", plan.records);
    let mut within = true;
    for case in &cases {
        let ratio = case.ratio_of_least();
        let past = ratio > case.call.goal(plan.records);
        within &= !past;
        let mark = if past { "*" } else { " " };
        print!("  {ratio:>5.2}{mark} {:>5.2} ", case.median_ratio());
    }
    println!();
    within
}

fn heading(rounds: usize) {
    println!(
        "ratio to the walk, {rounds} rounds: least call / least walk (* above the goal), then the median of call / walk"
    );
    print!(
        "{:>6}  {:<8}  {:<13} {:>12}",
        "R", "order", "block", "one walk"
    );
    for call in ALL {
        print!("  {:^13}", call.name());
    }
    println!();
}

/// The blocks that the goals are for: records spread over all chains, R from 256 on.
fn spread(rounds: usize) -> bool {
    let mut within = true;
    for records in [16, 256, 1_984, 16_384, 65_535] {
        for shuffled in [false, true] {
            let plan = Plan {
                records,
                spare: 4,
                shuffled,
                one_chain: None,
                due: false,
                first: 4,
                expires: false,
            };
            if records == 16 {
                row(&Plan { spare: 2, ..plan }, "nearly full", rounds);
                continue;
            }
            within &= row(
                &Plan {
                    spare: records / 2,
                    ..plan
                },
                "half full",
                rounds,
            );
            within &= row(&plan, "nearly full", rounds);
        }
    }
    within
}

/// Nearly every record in one chain: what is looked through is then as long as can be.
fn one_chain(rounds: usize) {
    let chains = [
        (1, "base"),
        (2, "blocking"),
        (4, "internal"),
        (5, "stamps"),
        (11, "aggregates"),
    ];
    for records in [256, 1_984, 65_535] {
        for (chain, name) in chains {
            for shuffled in [false, true] {
                let one_chain = Some(chain);
                let plan = Plan {
                    records,
                    spare: 4,
                    shuffled,
                    one_chain,
                    due: false,
                    first: 4,
                    expires: false,
                };
                row(&plan, name, rounds);
            }
        }
    }
}

fn main() {
    let rounds = std::env::args()
        .nth(1)
        .map_or(31, |v| v.parse().expect("ROUNDS"));
    heading(rounds);
    let within = spread(rounds);
    println!("nearly all records in one chain, nearly full:");
    one_chain(rounds);
    let said = if within { "within" } else { "not within" };
    println!(
        "spread blocks, R >= 256: {said} the goals (accepted 1.5; push, step and choices of one round 1.7, from R = 1,984 on 1.3; choices of more rounds 2.0, from R = 1,984 on 1.7; packing 2.5 from R = 1,984 on)"
    );
    std::process::exit(!within as i32);
}
