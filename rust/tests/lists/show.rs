//! What `show` lists, read from the words by docs/LAYOUT.md.

use maybenot_core::{Core, Kind, Side, SimEvent};

/// The places of the header, and of the first record.
const BYPASSABLE: usize = 14;
const ENDED: usize = 16;
const ROUNDS: usize = 17;
const CHAINS: usize = 24;
const TIMERS: usize = 64;
const ACTIONS: usize = 96;
const RECORDS: usize = 256;

/// The first chain of each side: base, blocking, bypassable, internal, stamps; then the aggregates.
const FIRST_CHAINS: [(Side, usize); 2] = [(Side::Client, 1), (Side::Server, 6)];
const NAMES: [&str; 4] = ["base", "blocking", "bypassable", "internal"];
const STAMPS: usize = 4;
const AGGREGATES: usize = 11;

fn letter(side: Side) -> char {
    match side {
        Side::Client => 'c',
        Side::Server => 's',
    }
}

/// The event's eight words.
pub fn event_words(e: &SimEvent) -> String {
    format!(
        "{} {} {} {} {} {} {} {}",
        e.kind.0,
        e.moment,
        e.delay,
        letter(e.side),
        u8::from(e.padding),
        u8::from(e.bypass),
        u8::from(e.replace),
        e.machine
    )
}

/// A number, or `-` for none.
pub fn or_dash(n: Option<u64>) -> String {
    n.map_or("-".to_string(), |n| n.to_string())
}

/// The records of a chain, from its head: moment, length and tag of each.
fn chain(words: &[u64], k: usize) -> Vec<(u64, u64, u64)> {
    let mut held = Vec::new();
    let mut r = words[CHAINS + 2 * k];
    while r != 0 {
        let at = RECORDS + 4 * (r as usize - 1);
        held.push((words[at + 1], words[at + 2], words[at + 3]));
        r = words[at];
    }
    assert_eq!(held.len() as u64, words[CHAINS + 2 * k + 1]);
    held
}

/// The event of a record.
fn event_of(side: Side, (moment, delay, tag): (u64, u64, u64)) -> SimEvent {
    SimEvent {
        kind: Kind(tag / 16 % 16),
        moment,
        delay,
        side,
        padding: tag / 256 % 2 == 1,
        bypass: tag / 512 % 2 == 1,
        replace: tag / 1024 % 2 == 1,
        machine: tag / 4096 % 16,
    }
}

/// The lines of `show`.
pub fn show(core: &mut Core, lines: &mut Vec<String>) {
    if !core.accepted() {
        lines.extend(["not accepted".to_string(), "end".to_string()]);
        return;
    }
    header(core, lines);
    slots(core.words(), lines);
    chains(core.words(), lines);
    lines.push("end".to_string());
}

fn header(core: &Core, lines: &mut Vec<String>) {
    let words = core.words();
    let rest: Vec<String> = words[3..10].iter().map(u64::to_string).collect();
    let rate = |word: u64| or_dash((word != 0).then_some(word));
    lines.push(format!(
        "settings {} {} {} {}",
        words[0],
        rate(words[1]),
        rate(words[2]),
        rest.join(" ")
    ));
    lines.push(format!(
        "sums {} {}",
        core.sum(Side::Client),
        core.sum(Side::Server)
    ));
    for (at, side) in Side::BOTH.into_iter().enumerate() {
        let end = or_dash(core.block_end(side));
        lines.push(format!(
            "block {} {end} {}",
            letter(side),
            words[BYPASSABLE + at]
        ));
    }
    lines.push(format!("ended {}", words[ENDED]));
    lines.push(format!("rounds {}", words[ROUNDS]));
    lines.push(format!("free {}", words[CHAINS + 1]));
}

fn slots(words: &[u64], lines: &mut Vec<String>) {
    for slot in 0..32 {
        let side = letter(Side::BOTH[slot / 16]);
        if words[TIMERS + slot] != 0 {
            let moment = words[TIMERS + slot] - 1;
            lines.push(format!("timer {side} {} {moment}", slot % 16));
        }
    }
    for slot in 0..32 {
        let side = letter(Side::BOTH[slot / 16]);
        let at = ACTIONS + 3 * slot;
        let tag = words[at];
        if tag != 0 {
            let (kind, bypass, replace) = (tag % 4, tag / 4 % 2, tag / 8 % 2);
            let (moment, duration) = (words[at + 1], words[at + 2]);
            lines.push(format!(
                "action {side} {} {kind} {moment} {duration} {bypass} {replace}",
                slot % 16
            ));
        }
    }
}

fn chains(words: &[u64], lines: &mut Vec<String>) {
    for (side, first) in FIRST_CHAINS {
        for (k, name) in NAMES.into_iter().enumerate() {
            for record in chain(words, first + k) {
                let event = event_words(&event_of(side, record));
                lines.push(format!("event {name} {event}"));
            }
        }
    }
    for (side, first) in FIRST_CHAINS {
        for (moment, _, _) in chain(words, first + STAMPS) {
            lines.push(format!("stamp {} {moment}", letter(side)));
        }
    }
    for (moment, length, tag) in chain(words, AGGREGATES) {
        let side = letter(Side::BOTH[(tag / 2048 % 2) as usize]);
        lines.push(format!("aggregate {side} {moment} {length}"));
    }
}
