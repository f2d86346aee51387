//! The same lists of choices and network steps through the original and through
//! the library, on the same states, in one run. A child module of the harness of
//! runs/rust, so that it can load a state and call the private functions.

use super::rows::step_words;
use super::*;
use crate::block::{self, Plan, START};
use crate::calls::{self, Event};
use std::time::Instant as Clock;

/// A call of the list.
enum Made {
    Pick(u64),
    Step(u64, Event),
}

/// What a call answered: the words of `out`.
type Answered = [u64; 10];

// ---- the state as the harness loads it

/// The lines of `show` that put the state of the words into the original.
fn lines(w: &[u64]) -> Vec<String> {
    let rate = |x: u64| {
        if x == 0 {
            "-".to_string()
        } else {
            x.to_string()
        }
    };
    let mut lines = vec![
        format!(
            "load settings {} {} {} {} {} {} {} {} {} {}",
            w[0],
            rate(w[1]),
            rate(w[2]),
            w[3],
            w[4],
            w[5],
            w[6],
            w[7],
            w[8],
            w[9]
        ),
        format!("load sums {} {}", w[10], w[11]),
    ];
    for (side, x) in ["c", "s"].iter().enumerate() {
        let end = w[12 + side];
        let end = if end == 0 {
            "-".to_string()
        } else {
            (end - 1).to_string()
        };
        lines.push(format!("load block {x} {end} {}", w[14 + side]));
        for m in 0..16 {
            let slot = 16 * side + m;
            if w[64 + slot] != 0 {
                lines.push(format!("load timer {x} {m} {}", w[64 + slot] - 1));
            }
            let a = &w[96 + 3 * slot..][..3];
            if a[0] != 0 {
                let (bypass, replace) = (a[0] / 4 % 2, a[0] / 8 % 2);
                lines.push(format!(
                    "load action {x} {m} {} {} {} {bypass} {replace}",
                    a[0] % 4,
                    a[1],
                    a[2]
                ));
            }
        }
    }
    for k in 1..12 {
        chain_lines(w, k, &mut lines);
    }
    lines
}

fn chain_lines(w: &[u64], k: usize, lines: &mut Vec<String>) {
    let x = if k < 6 { "c" } else { "s" };
    let mut at = w[24 + 2 * k];
    while at != 0 {
        let [next, moment, length, t] = w[256 + 4 * (at as usize - 1)..][..4] else {
            unreachable!()
        };
        lines.push(match k {
            11 => format!("load aggregate {} {moment} {length}", if t / 2048 % 2 == 0 { "c" } else { "s" }),
            5 | 10 => format!("load stamp {x} {moment}"),
            _ => {
                let (kind, machine) = (t / 16 % 16, t / 4096 % 16);
                let (padding, bypass, replace) = (t / 256 % 2, t / 512 % 2, t / 1024 % 2);
                format!("load event any {kind} {moment} {length} {x} {padding} {bypass} {replace} {machine}")
            }
        });
        at = next;
    }
}

fn loaded(lines: &[String]) -> Core {
    again(lines).expect("a state that loads")
}

// ---- the list

/// As the driver loop goes: the next event, then its network step, and so on.
fn list(w: &mut [u64], pairs: usize) -> Vec<(Made, Answered)> {
    let mut list = Vec::new();
    let mut now = START;
    for _ in 0..pairs {
        let mut out = [0; 10];
        assert_eq!(calls::pick(w, now, &mut out), 0, "a choice was refused");
        list.push((Made::Pick(now), out));
        if out[0] == 0 {
            break;
        }
        let event: Event = out[2..10].try_into().unwrap();
        now = event[1];
        let mut told = [0; 3];
        assert_eq!(
            calls::step(w, now, &event, &mut told),
            0,
            "a step was refused"
        );
        let mut out = [0; 10];
        out[..3].copy_from_slice(&told);
        list.push((Made::Step(now, event), out));
    }
    list
}

fn event_of(e: &Event) -> SimEvent {
    SimEvent {
        event: trigger_event(e[0], e[7]).unwrap(),
        time: moment(e[1]),
        integration_delay: Duration::from_nanos(e[2]),
        client: e[3] != 0,
        contains_padding: e[4] != 0,
        bypass: e[5] != 0,
        replace: e[6] != 0,
        debug_note: None,
    }
}

fn words_of(e: &SimEvent) -> Event {
    let text = event_text(e);
    let mut words = text.split(' ').map(|w| match w {
        "c" => 1,
        "s" => 0,
        n => n.parse().unwrap(),
    });
    std::array::from_fn(|_| words.next().unwrap())
}

/// A call of the list with its moments and lengths as the original has them.
enum Theirs {
    Pick(Instant),
    Step(Instant, SimEvent),
}

fn theirs(list: &[(Made, Answered)]) -> Vec<Theirs> {
    let one = |made: &Made| match made {
        Made::Pick(now) => Theirs::Pick(moment(*now)),
        Made::Step(time, e) => Theirs::Step(moment(*time), event_of(e)),
    };
    list.iter().map(|(made, _)| one(made)).collect()
}

fn run_theirs(c: &mut Core, call: &Theirs) -> (Option<SimEvent>, bool) {
    match call {
        Theirs::Pick(now) => {
            let (client, server) = (&mut c.client, &mut c.server);
            (
                pick_next(&mut c.sq, client, server, &mut c.network, *now),
                false,
            )
        }
        Theirs::Step(time, e) => {
            let (state, recipient) = if e.client {
                (&c.client, &mut c.server)
            } else {
                (&c.server, &mut c.client)
            };
            (
                None,
                sim_network_stack(e, &mut c.sq, state, recipient, &mut c.network, time),
            )
        }
    }
}

/// The original gives the same events and answers.
fn compare(core: &mut Core, list: &[(Made, Answered)]) {
    for (call, (made, answered)) in theirs(list).iter().zip(list) {
        log::ROUNDS.set(0);
        let (event, yes) = run_theirs(core, call);
        match made {
            Made::Step(_, e) => {
                assert_eq!(step_words(core, e, yes), answered[..3], "a step");
            }
            Made::Pick(_) => {
                assert_eq!(event.is_some() as u64, answered[0], "a choice");
                assert_eq!(log::ROUNDS.get(), answered[1], "rounds");
                if let Some(e) = event {
                    assert_eq!(words_of(&e), answered[2..10], "an event");
                }
            }
        }
    }
}

fn time_ours(w: &mut [u64], list: &[(Made, Answered)]) -> f64 {
    let start = Clock::now();
    for (made, _) in list {
        match made {
            Made::Pick(now) => {
                let mut out = [0; 10];
                std::hint::black_box(calls::pick(w, *now, &mut out));
            }
            Made::Step(time, e) => {
                let mut out = [0; 3];
                std::hint::black_box(calls::step(w, *time, e, &mut out));
            }
        }
    }
    start.elapsed().as_nanos() as f64 / list.len() as f64
}

fn time_theirs(core: &mut Core, calls: &[Theirs]) -> f64 {
    let start = Clock::now();
    for call in calls {
        std::hint::black_box(run_theirs(core, call));
    }
    start.elapsed().as_nanos() as f64 / calls.len() as f64
}

fn row(plan: &Plan, rounds: usize) {
    let mut block = block::block(plan);
    let before = block.words().to_vec();
    let lines = lines(&before);
    // lists short enough that some run without being interrupted
    let pairs = (plan.records / 8).min(600_000 / plan.records).min(200);
    let list = list(block.words_mut(), pairs);
    compare(&mut loaded(&lines), &list);
    let theirs = theirs(&list);
    let (mut ours_least, mut theirs_least) = (f64::MAX, f64::MAX);
    for _ in 0..rounds {
        block.words_mut().copy_from_slice(&before);
        ours_least = ours_least.min(time_ours(block.words_mut(), &list));
        let mut core = loaded(&lines);
        theirs_least = theirs_least.min(time_theirs(&mut core, &theirs));
    }
    let order = if plan.shuffled {
        "shuffled"
    } else {
        "in order"
    };
    println!(
        "{:>6}  {order}  {:>5} calls   ours {ours_least:>9.0} ns   original {theirs_least:>7.0} ns   ratio {:>8.1}",
        plan.records,
        list.len(),
        ours_least / theirs_least
    );
}

pub fn main() {
    let rounds = std::env::args()
        .nth(1)
        .map_or(15, |v| v.parse().expect("ROUNDS"));
    println!("one call of a list of choices and steps by turns, the least of {rounds} rounds");
    for records in [16, 256, 1_984, 16_384, 65_535] {
        for shuffled in [false, true] {
            let spare = if records > 16 { records / 2 } else { 4 };
            row(
                &Plan {
                    records,
                    spare,
                    shuffled,
                    one_chain: None,
                    due: true,
                    first: 4,
                    expires: false,
                },
                rounds,
            );
        }
    }
}
