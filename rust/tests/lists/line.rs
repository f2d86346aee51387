//! What a line asks for.

use super::WORDS;
use maybenot_core::{Action, ActionKind, Call, Kind, Opening, Side, SideOpening, SimEvent};

/// A line that is not passed over.
pub enum Line {
    Bad,
    Lend(usize),
    Word(usize, u64),
    Open(Opening),
    Call(Call),
    Show,
    Words,
    LendSecond(usize),
    WordSecond(usize, u64),
    WordsSecond,
    TakeSecond,
    Pack,
}

/// The line in these bytes, `None` for one that is passed over.
pub fn line_of(bytes: &[u8]) -> Option<Line> {
    let bytes = bytes.strip_suffix(b"\r").unwrap_or(bytes);
    let mut words = bytes
        .split(|b| matches!(b, b' ' | b'\t'))
        .filter(|word| !word.is_empty());
    let name = words.next()?;
    if name.starts_with(b"#") {
        return None;
    }
    let arguments: Vec<&[u8]> = words.collect();
    Some(call_of(name, &arguments).unwrap_or(Line::Bad))
}

fn number(word: &[u8]) -> Option<u64> {
    if word.is_empty() || !word.iter().all(u8::is_ascii_digit) {
        return None;
    }
    std::str::from_utf8(word).ok()?.parse().ok()
}

fn flag(word: &[u8]) -> Option<bool> {
    match word {
        b"0" => Some(false),
        b"1" => Some(true),
        _ => None,
    }
}

fn side(word: &[u8]) -> Option<Side> {
    match word {
        b"c" => Some(Side::Client),
        b"s" => Some(Side::Server),
        _ => None,
    }
}

/// A rate, or its absence.
fn rate(word: &[u8]) -> Option<Option<u64>> {
    match word {
        b"-" => Some(None),
        _ => Some(Some(number(word)?)),
    }
}

fn event(words: &[&[u8]]) -> Option<SimEvent> {
    let &[kind, moment, delay, at, padding, bypass, replace, machine] = words else {
        return None;
    };
    Some(SimEvent {
        kind: Kind(number(kind)?),
        moment: number(moment)?,
        delay: number(delay)?,
        side: side(at)?,
        padding: flag(padding)?,
        bypass: flag(bypass)?,
        replace: flag(replace)?,
        machine: number(machine)?,
    })
}

fn action(words: &[&[u8]]) -> Option<Action> {
    let &[kind, moment, duration, bypass, replace] = words else {
        return None;
    };
    Some(Action {
        kind: ActionKind(number(kind)?),
        moment: number(moment)?,
        duration: number(duration)?,
        bypass: flag(bypass)?,
        replace: flag(replace)?,
    })
}

fn opening(words: &[&[u8]]) -> Option<Opening> {
    let &[nd, nr, qr, w, ca, sa, cr, sr, cm, sm] = words else {
        return None;
    };
    Some(Opening {
        network_delay: number(nd)?,
        network_rate: rate(nr)?,
        queue_rate: rate(qr)?,
        window: number(w)?,
        client: side_opening(ca, cr, cm)?,
        server: side_opening(sa, sr, sm)?,
    })
}

fn side_opening(action: &[u8], reporting: &[u8], machines: &[u8]) -> Option<SideOpening> {
    Some(SideOpening {
        action_delay: number(action)?,
        reporting_delay: number(reporting)?,
        machines: number(machines)?,
    })
}

/// A number of words or the place of one, up to a limit.
fn place(word: &[u8], limit: usize) -> Option<usize> {
    let n = usize::try_from(number(word)?).ok()?;
    (n <= limit).then_some(n)
}

/// What a line asks for, `None` for a bad one.
fn call_of(name: &[u8], arguments: &[&[u8]]) -> Option<Line> {
    Some(match (name, arguments) {
        (b"lend", [n]) => Line::Lend(place(n, WORDS)?),
        (b"word", [at, value]) => Line::Word(place(at, WORDS - 1)?, number(value)?),
        (b"open", words) => Line::Open(opening(words)?),
        (b"show", []) => Line::Show,
        (b"words", []) => Line::Words,
        (b"lend_second", [n]) => Line::LendSecond(place(n, WORDS)?),
        (b"word_second", [at, value]) => Line::WordSecond(place(at, WORDS - 1)?, number(value)?),
        (b"words_second", []) => Line::WordsSecond,
        (b"take_second", []) => Line::TakeSecond,
        (b"pack", []) => Line::Pack,
        _ => Line::Call(core_call(name, arguments)?),
    })
}

/// The call on the core that a line asks for.
fn core_call(name: &[u8], arguments: &[&[u8]]) -> Option<Call> {
    Some(match (name, arguments) {
        (b"push", words) => Call::PushSim(event(words)?),
        (b"set_action", [s, m, rest @ ..]) => Call::SetAction {
            side: side(s)?,
            machine: number(m)?,
            action: action(rest)?,
        },
        (b"clear_action", [s, m]) => Call::ClearAction {
            side: side(s)?,
            machine: number(m)?,
        },
        (b"set_timer", [s, m, t]) => Call::SetTimer {
            side: side(s)?,
            machine: number(m)?,
            moment: number(t)?,
        },
        (b"clear_timer", [s, m]) => Call::ClearTimer {
            side: side(s)?,
            machine: number(m)?,
        },
        (b"pick_next", [now]) => Call::PickNext { now: number(now)? },
        (b"sim_network_stack", [time, rest @ ..]) => Call::SimNetworkStack {
            time: number(time)?,
            event: event(rest)?,
        },
        _ => return None,
    })
}
