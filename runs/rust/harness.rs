//! The harness: reads a call list, makes each call on the original and writes
//! its answer. A child module of `network`, so that it sees the private items of
//! network.rs and of lib.rs. It adds no rule of its own but these:
//!
//! - Setting and clearing a slot are assignments, as in the driver loop.
//! - Moment 0 lies so that moment 2^62 - 1 is the last `Instant` there is. A sum
//!   of moments past it makes the original panic; the harness then answers
//!   `refused 10 K` with the state after the last finished round, marked ended.
//!   The sums of the sides and the round total are looked at after each choice.
//! - `load LINE` puts a line of `show` into the state; `load settings` opens.
//! - When the packet count falls is read off the original's queue of stamps.
//! - `lend`, `word` and `words` have no counterpart and are passed over; records
//!   neither, so `show` writes `free -`. `unsupported` answers a call that only a
//!   refusal can answer, `panic TEXT` any other panic of the original.

use super::*;
use crate::integration::Integration;
use crate::queue_event::EventQueue;
use crate::{ScheduledAction, event_to_usize, pick_next};
use arrival_heap::BinaryHeap as Heap;
use maybenot::{MachineId, TriggerAction};
use std::io::{BufRead, Write};
use std::sync::OnceLock;

type State = SimState<Vec<Machine>, RngSource>;

/// The last moment.
const TOP: u64 = (1 << 62) - 1;

// ---- moments, lengths and sides

/// Moment 0, so that moment TOP is the last `Instant` of the platform.
fn origin() -> Instant {
    static ORIGIN: OnceLock<Instant> = OnceLock::new();
    *ORIGIN.get_or_init(|| last_instant() - Duration::from_nanos(TOP))
}

fn last_instant() -> Instant {
    let mut last = Instant::now();
    for bit in (0..63).rev() {
        let seconds = Duration::from_secs(1 << bit);
        last = last.checked_add(seconds).unwrap_or(last);
    }
    for bit in (0..30).rev() {
        let nanoseconds = Duration::from_nanos(1 << bit);
        last = last.checked_add(nanoseconds).unwrap_or(last);
    }
    last
}

fn moment(ns: u64) -> Instant {
    origin() + Duration::from_nanos(ns)
}

/// A moment as a number; negative before moment 0, which would be a fault.
fn number(t: Instant) -> i128 {
    match t.checked_duration_since(origin()) {
        Some(since) => since.as_nanos() as i128,
        None => -(origin().duration_since(t).as_nanos() as i128),
    }
}

fn side(client: bool) -> char {
    if client { 'c' } else { 's' }
}

#[cfg(not(feature = "bindist"))]
fn integration(action: u64, reporting: u64) -> Integration {
    Integration {
        action_delay: Duration::from_nanos(action),
        reporting_delay: Duration::from_nanos(reporting),
        trigger_delay: Duration::ZERO,
    }
}

/// The original's delays: one bin of one value, in milliseconds.
#[cfg(feature = "bindist")]
fn integration(action: u64, reporting: u64) -> Integration {
    use crate::integration::BinDist;
    let always = |ns: u64| {
        assert!(ns.is_multiple_of(1000), "BinDist counts microseconds");
        let ms = ns as f64 / 1e6;
        BinDist::new(&format!("{{\"({ms}, {ms})\": 1.0}}")).unwrap()
    };
    Integration {
        action_delay: always(action),
        reporting_delay: always(reporting),
        trigger_delay: always(0),
    }
}

// ---- the words of a line

/// The words of a line, taken from the left. `None` is a bad line.
struct Words<'a>(std::vec::IntoIter<&'a str>);

impl<'a> Words<'a> {
    fn of(line: &'a str) -> Self {
        let words = line.split([' ', '\t']).filter(|w| !w.is_empty());
        Words(words.collect::<Vec<_>>().into_iter())
    }

    fn word(&mut self) -> Option<&'a str> {
        self.0.next()
    }

    fn number(&mut self) -> Option<u64> {
        let word = self.word()?;
        if word.bytes().all(|b| b.is_ascii_digit()) {
            word.parse().ok()
        } else {
            None
        }
    }

    /// A number, or `-` for none.
    fn maybe_number(&mut self) -> Option<Option<u64>> {
        if self.0.as_slice().first() == Some(&"-") {
            self.word();
            return Some(None);
        }
        self.number().map(Some)
    }

    fn flag(&mut self) -> Option<bool> {
        match self.word()? {
            "0" => Some(false),
            "1" => Some(true),
            _ => None,
        }
    }

    fn client(&mut self) -> Option<bool> {
        match self.word()? {
            "c" => Some(true),
            "s" => Some(false),
            _ => None,
        }
    }

    /// KIND MOMENT DELAY SIDE PADDING BYPASS REPLACE MACHINE; the inner `None`
    /// is a kind above 9.
    fn event(&mut self) -> Option<Option<SimEvent>> {
        let (kind, time, delay) = (self.number()?, self.number()?, self.number()?);
        let client = self.client()?;
        let (padding, bypass, replace) = (self.flag()?, self.flag()?, self.flag()?);
        let event = trigger_event(kind, self.number()?);
        Some(event.map(|event| SimEvent {
            event,
            time: moment(time),
            integration_delay: Duration::from_nanos(delay),
            client,
            contains_padding: padding,
            bypass,
            replace,
            debug_note: None,
        }))
    }

    /// No word is left.
    fn end(mut self) -> Option<()> {
        self.word().is_none().then_some(())
    }
}

/// The event of a rank in `event_to_usize`.
fn trigger_event(kind: u64, machine: u64) -> Option<TriggerEvent> {
    let machine = MachineId::from_raw(machine as usize);
    let all = [
        TriggerEvent::TunnelSent,
        TriggerEvent::NormalSent,
        TriggerEvent::PaddingSent { machine },
        TriggerEvent::TunnelRecv,
        TriggerEvent::NormalRecv,
        TriggerEvent::PaddingRecv,
        TriggerEvent::BlockingBegin { machine },
        TriggerEvent::BlockingEnd,
        TriggerEvent::TimerBegin { machine },
        TriggerEvent::TimerEnd { machine },
    ];
    all.into_iter().find(|e| event_to_usize(e) as u64 == kind)
}

// ---- the state

struct Core {
    client: State,
    server: State,
    sq: SimQueue,
    network: NetworkBottleneck,
    rounds: u64,
    ended: bool,
}

impl Core {
    /// ND NR QR W CA SA CR SR CM SM
    fn open(words: &mut Words) -> Option<Core> {
        let delay = Duration::from_nanos(words.number()?);
        let network_rate = words.maybe_number()?.map(|r| r as usize);
        let queue_rate = words.maybe_number()?.map(|r| r as usize);
        let window = Duration::from_nanos(words.number()?);
        let (client_action, server_action) = (words.number()?, words.number()?);
        let (client_reporting, server_reporting) = (words.number()?, words.number()?);
        let (client_machines, server_machines) = (words.number()?, words.number()?);
        let state = |machines: u64, action, reporting| {
            let machines = vec![Machine; machines as usize];
            let integration = Some(integration(action, reporting));
            State::new(machines, origin(), 0.0, 0.0, integration, None)
        };
        let mut sq = SimQueue::new();
        sq.max_pps = queue_rate;
        let network = Network::new(delay, network_rate);
        Some(Core {
            client: state(client_machines, client_action, client_reporting),
            server: state(server_machines, server_action, server_reporting),
            network: NetworkBottleneck::new(network, window, sq.max_pps),
            sq,
            rounds: 0,
            ended: false,
        })
    }

    fn state(&mut self, client: bool) -> &mut State {
        if client {
            &mut self.client
        } else {
            &mut self.server
        }
    }

    fn sides(&self) -> [(char, &State); 2] {
        [('c', &self.client), ('s', &self.server)]
    }

    /// Whether a side's sum is past the last moment.
    fn sum_passes(&self) -> bool {
        let top = Duration::from_nanos(TOP);
        self.network.client_aggregate_base_delay > top
            || self.network.server_aggregate_base_delay > top
    }
}

// ---- `show`

impl Core {
    fn show(&self, out: &mut impl Write) -> std::io::Result<()> {
        self.show_header(out)?;
        for (x, state) in self.sides() {
            show_timers(x, state, out)?;
        }
        for (x, state) in self.sides() {
            show_actions(x, state, out)?;
        }
        for queue in [&self.sq.client, &self.sq.server] {
            show_events(queue, out)?;
        }
        let n = &self.network;
        for (x, window) in [('c', &n.client_window), ('s', &n.server_window)] {
            for t in &window.timestamps {
                writeln!(out, "stamp {x} {}", number(*t))?;
            }
        }
        for a in drained(&n.aggregate_delay_queue) {
            let (x, t, length) = (side(a.client), number(a.time), a.delay.as_nanos());
            writeln!(out, "aggregate {x} {t} {length}")?;
        }
        writeln!(out, "end")
    }

    fn show_header(&self, out: &mut impl Write) -> std::io::Result<()> {
        let rate = |r: Option<usize>| r.map_or("-".to_string(), |r| r.to_string());
        let (c, s, n) = (&self.client, &self.server, &self.network);
        assert_eq!(n.client_window.window, n.server_window.window);
        writeln!(
            out,
            "settings {} {} {} {} {} {} {} {} {} {}",
            n.network.delay.as_nanos(),
            rate(n.network.pps),
            rate(self.sq.max_pps),
            n.client_window.window.as_nanos(),
            c.action_delay().as_nanos(),
            s.action_delay().as_nanos(),
            c.reporting_delay().as_nanos(),
            s.reporting_delay().as_nanos(),
            c.scheduled_action.len(),
            s.scheduled_action.len()
        )?;
        let client_sum = n.client_aggregate_base_delay.as_nanos();
        let server_sum = n.server_aggregate_base_delay.as_nanos();
        writeln!(out, "sums {client_sum} {server_sum}")?;
        for (x, state) in self.sides() {
            let end = state.blocking_until.map(|t| number(t).to_string());
            let end = end.unwrap_or("-".to_string());
            writeln!(out, "block {x} {end} {}", state.blocking_bypassable as u8)?;
        }
        writeln!(out, "ended {}", self.ended as u8)?;
        writeln!(out, "rounds {}", self.rounds)?;
        writeln!(out, "free -")
    }
}

fn show_timers(x: char, state: &State, out: &mut impl Write) -> std::io::Result<()> {
    for (machine, timer) in state.scheduled_internal_timer.iter().enumerate() {
        if let Some(t) = timer {
            writeln!(out, "timer {x} {machine} {}", number(*t))?;
        }
    }
    Ok(())
}

fn show_actions(x: char, state: &State, out: &mut impl Write) -> std::io::Result<()> {
    for (machine, action) in state.scheduled_action.iter().enumerate() {
        let Some(a) = action else { continue };
        let (kind, duration, bypass, replace) = match a.action {
            TriggerAction::SendPadding {
                bypass, replace, ..
            } => (1, Duration::ZERO, bypass, replace),
            TriggerAction::BlockOutgoing {
                duration,
                bypass,
                replace,
                ..
            } => (2, duration, bypass, replace),
            _ => unreachable!(),
        };
        let (t, duration) = (number(a.time), duration.as_nanos());
        let (bypass, replace) = (bypass as u8, replace as u8);
        writeln!(
            out,
            "action {x} {machine} {kind} {t} {duration} {bypass} {replace}"
        )?;
    }
    Ok(())
}

fn show_events(queue: &EventQueue, out: &mut impl Write) -> std::io::Result<()> {
    let chains = [
        ("base", &queue.base),
        ("blocking", &queue.blocking),
        ("bypassable", &queue.bypassable),
        ("internal", &queue.internal),
    ];
    for (name, heap) in chains {
        for e in drained(heap) {
            writeln!(out, "event {name} {}", event_text(&e))?;
        }
    }
    Ok(())
}

fn event_text(e: &SimEvent) -> String {
    let machine = match e.event {
        TriggerEvent::PaddingSent { machine }
        | TriggerEvent::BlockingBegin { machine }
        | TriggerEvent::TimerBegin { machine }
        | TriggerEvent::TimerEnd { machine } => machine.into_raw(),
        _ => 0,
    };
    format!(
        "{} {} {} {} {} {} {} {}",
        event_to_usize(&e.event),
        number(e.time),
        e.integration_delay.as_nanos(),
        side(e.client),
        e.contains_padding as u8,
        e.bypass as u8,
        e.replace as u8,
        machine
    )
}

/// What a heap holds, from its head.
fn drained<T: Ord + Clone>(heap: &Heap<T>) -> Vec<T> {
    let mut heap = heap.clone();
    std::iter::from_fn(|| heap.pop()).collect()
}

// ---- the calls

/// A call's answer.
type Answer = String;

/// One line that is not passed over: its answer, or `None` for a bad line.
fn call(core: &mut Option<Core>, line: &str) -> Option<Answer> {
    let mut words = Words::of(line);
    let name = words.word()?;
    match name {
        "lend" => {
            let most = words.number()?;
            words.end()?;
            (most <= 8192).then(ok)
        }
        "word" => {
            let (place, _) = (words.number()?, words.number()?);
            words.end()?;
            (place < 8192).then(ok)
        }
        "words" => {
            words.end()?;
            Some("end".to_string())
        }
        "show" => {
            words.end()?;
            Some(show(core))
        }
        "open" => {
            let opened = Core::open(&mut words)?;
            words.end()?;
            *core = Some(opened);
            Some(ok())
        }
        "load" => load(core, words),
        "push" => push(core, words),
        "set_action" => set_action(core, words),
        "clear_action" => clear_action(core, words),
        "set_timer" => set_timer(core, words),
        "clear_timer" => clear_timer(core, words),
        "pick_next" => choose(core, words),
        "sim_network_stack" => step(core, words),
        _ => None,
    }
}

fn ok() -> Answer {
    "ok".to_string()
}

/// `ok` where the call was made, else what only a refusal can answer.
fn made(done: Option<()>) -> Option<Answer> {
    Some(done.map_or("unsupported".to_string(), |()| ok()))
}

fn show(core: &Option<Core>) -> Answer {
    let Some(core) = core else {
        return "not accepted\nend".to_string();
    };
    let mut text = Vec::new();
    core.show(&mut text).unwrap();
    String::from_utf8(text).unwrap().trim_end().to_string()
}

fn push(core: &mut Option<Core>, mut words: Words) -> Option<Answer> {
    let event = words.event()?;
    words.end()?;
    made(core.as_mut().zip(event).map(|(c, e)| c.sq.push_sim(e)))
}

fn set_action(core: &mut Option<Core>, mut words: Words) -> Option<Answer> {
    let (client, m, kind) = (words.client()?, words.number()? as usize, words.number()?);
    let (time, duration) = (words.number()?, words.number()?);
    let (bypass, replace) = (words.flag()?, words.flag()?);
    words.end()?;
    let timeout = Duration::ZERO;
    let machine = MachineId::from_raw(m);
    let action = match kind {
        1 => Some(TriggerAction::SendPadding {
            timeout,
            bypass,
            replace,
            machine,
        }),
        2 => Some(TriggerAction::BlockOutgoing {
            timeout,
            duration: Duration::from_nanos(duration),
            bypass,
            replace,
            machine,
        }),
        _ => None,
    };
    let slot = action_slot(core, client, m);
    made(slot.zip(action).map(|(slot, action)| {
        let time = moment(time);
        *slot = Some(ScheduledAction { action, time });
    }))
}

fn clear_action(core: &mut Option<Core>, mut words: Words) -> Option<Answer> {
    let (client, m) = (words.client()?, words.number()? as usize);
    words.end()?;
    made(action_slot(core, client, m).map(|slot| *slot = None))
}

fn set_timer(core: &mut Option<Core>, mut words: Words) -> Option<Answer> {
    let (client, m, time) = (words.client()?, words.number()? as usize, words.number()?);
    words.end()?;
    made(timer_slot(core, client, m).map(|slot| *slot = Some(moment(time))))
}

fn clear_timer(core: &mut Option<Core>, mut words: Words) -> Option<Answer> {
    let (client, m) = (words.client()?, words.number()? as usize);
    words.end()?;
    made(timer_slot(core, client, m).map(|slot| *slot = None))
}

fn action_slot(
    core: &mut Option<Core>,
    client: bool,
    machine: usize,
) -> Option<&mut Option<ScheduledAction>> {
    let state = core.as_mut()?.state(client);
    state.scheduled_action.get_mut(machine)
}

fn timer_slot(
    core: &mut Option<Core>,
    client: bool,
    machine: usize,
) -> Option<&mut Option<Instant>> {
    let state = core.as_mut()?.state(client);
    state.scheduled_internal_timer.get_mut(machine)
}

fn choose(core: &mut Option<Core>, mut words: Words) -> Option<Answer> {
    let now = words.number()?;
    words.end()?;
    let Some(c) = core else {
        return made(None);
    };
    log::BEGUN.set(0);
    log::ROUNDS.set(0);
    let event = pick_next(
        &mut c.sq,
        &mut c.client,
        &mut c.server,
        &mut c.network,
        moment(now),
    );
    let rounds = log::ROUNDS.get();
    c.rounds += rounds;
    Some(match event {
        Some(e) => format!("event {} rounds {rounds}", event_text(&e)),
        None => format!("nothing rounds {rounds}"),
    })
}

fn step(core: &mut Option<Core>, mut words: Words) -> Option<Answer> {
    let time = words.number()?;
    let event = words.event()?;
    words.end()?;
    let (Some(c), Some(e)) = (core, event) else {
        return made(None);
    };
    let (state, recipient) = if e.client {
        (&c.client, &mut c.server)
    } else {
        (&c.server, &mut c.client)
    };
    let time = moment(time);
    let yes = sim_network_stack(&e, &mut c.sq, state, recipient, &mut c.network, &time);
    let falls = match e.event {
        TriggerEvent::TunnelSent if e.client => count_falls(&c.network.client_window),
        TriggerEvent::TunnelSent => count_falls(&c.network.server_window),
        _ => None,
    };
    let falls = falls.map_or("-".to_string(), |t| number(t).to_string());
    Some(format!("{} falls {falls}", if yes { "yes" } else { "no" }))
}

/// The first moment at which `add` would drop the oldest stamp of the queue, read
/// off the queue and tried with `add` itself on a window of that stamp alone.
/// `None` past the last moment.
fn count_falls(window: &WindowCount) -> Option<Instant> {
    let oldest = *window.timestamps.front().unwrap();
    let last_kept = oldest.checked_add(window.window)?;
    let falls = last_kept.checked_add(Duration::from_nanos(1))?;
    let count_at = |time: Instant| {
        let mut alone = WindowCount::new(window.window);
        alone.timestamps.push_back(oldest);
        alone.add(&time)
    };
    assert_eq!((count_at(last_kept), count_at(falls)), (2, 1));
    Some(falls)
}

/// A line of `show` put into the state; `settings` opens.
fn load(core: &mut Option<Core>, mut words: Words) -> Option<Answer> {
    match words.word()? {
        "settings" => {
            let opened = Core::open(&mut words)?;
            words.end()?;
            *core = Some(opened);
            return Some(ok());
        }
        "timer" => return set_timer(core, words),
        "action" => return set_action(core, words),
        "sums" => {
            let network = &mut core.as_mut()?.network;
            network.client_aggregate_base_delay = Duration::from_nanos(words.number()?);
            network.server_aggregate_base_delay = Duration::from_nanos(words.number()?);
        }
        "block" => {
            let state = core.as_mut()?.state(words.client()?);
            state.blocking_until = words.maybe_number()?.map(moment);
            state.blocking_bypassable = words.flag()?;
        }
        "ended" => core.as_mut()?.ended = words.flag()?,
        "rounds" => core.as_mut()?.rounds = words.number()?,
        "event" => {
            words.word()?;
            core.as_mut()?.sq.push_sim(words.event()??);
        }
        "stamp" => {
            let network = &mut core.as_mut()?.network;
            let window = if words.client()? {
                &mut network.client_window
            } else {
                &mut network.server_window
            };
            window.timestamps.push_back(moment(words.number()?));
        }
        "aggregate" => {
            let client = words.client()?;
            let aggregate = PendingAggregateDelay {
                time: moment(words.number()?),
                delay: Duration::from_nanos(words.number()?),
                client,
            };
            core.as_mut()?.network.aggregate_delay_queue.push(aggregate);
        }
        _ => return None,
    }
    words.end()?;
    Some(ok())
}

// ---- number 10

type Caught = std::thread::Result<Option<Answer>>;

fn caught(core: &mut Option<Core>, line: &str) -> Caught {
    let call = std::panic::AssertUnwindSafe(|| call(core, line));
    std::panic::catch_unwind(call)
}

/// The state that the lines leave; the first one opens.
fn again(lines: &[String]) -> Option<Core> {
    let mut core = None;
    for line in lines {
        call(&mut core, line);
    }
    core
}

/// A sum passed TOP in the call `line` after `lines`: the state with the rounds
/// finished before that one, and their number, which is at most `most`.
fn finished_before(lines: &[String], line: &str, most: u64) -> (Core, u64) {
    let before = again(lines).unwrap();
    if Words::of(line).word() != Some("pick_next") {
        return (before, 0);
    }
    let mut finished = most.min(TOP - before.rounds);
    loop {
        let mut core = again(lines);
        log::STOP_AT.set(finished + 1);
        let stopped = caught(&mut core, line);
        log::STOP_AT.set(0);
        assert!(stopped.is_err_and(|e| e.is::<log::Stop>()));
        let mut core = core.unwrap();
        if !core.sum_passes() {
            core.rounds += finished;
            return (core, finished);
        }
        finished -= 1;
    }
}

/// How a call came out.
enum Outcome {
    Answer(Answer),
    BadLine,
    /// a sum passed TOP after at most this many rounds
    SumPassed(u64),
    Panic(String),
}

fn outcome(core: &Option<Core>, name: &str, done: Caught) -> Outcome {
    match done {
        Ok(None) => Outcome::BadLine,
        Ok(Some(answer)) => {
            let passed = |c: &Core| c.sum_passes() || c.rounds > TOP;
            if name == "pick_next" && core.as_ref().is_some_and(passed) {
                Outcome::SumPassed(log::ROUNDS.get() - 1)
            } else {
                Outcome::Answer(answer)
            }
        }
        Err(panic) => {
            let text = match panic.downcast::<String>() {
                Ok(text) => *text,
                Err(other) => other
                    .downcast::<&str>()
                    .map_or(String::new(), |t| t.to_string()),
            };
            if text == "overflow when adding duration to instant" {
                Outcome::SumPassed(log::BEGUN.get().saturating_sub(1))
            } else {
                Outcome::Panic(text)
            }
        }
    }
}

// ---- the list

/// Whether a number of the line is above TOP, so that no moment has it.
fn past_the_last_moment(line: &str) -> bool {
    let above = |w: &str| w.parse::<u64>().is_ok_and(|n| n > TOP);
    Words::of(line).0.any(above)
}

/// The state, and the calls since it was opened that made it.
struct List {
    core: Option<Core>,
    lines: Vec<String>,
}

impl List {
    /// The answer to a line, the `place`th of the list.
    fn answer(&mut self, place: usize, name: &str, line: String) -> Answer {
        let of_the_words = ["show", "words", "lend", "word"].contains(&name);
        let ended = self.core.as_ref().is_some_and(|c| c.ended);
        if ended && !of_the_words && !["open", "load"].contains(&name) {
            return "refused 3 0".to_string();
        }
        if !of_the_words && past_the_last_moment(&line) {
            return "unsupported".to_string();
        }
        let done = caught(&mut self.core, &line);
        match outcome(&self.core, name, done) {
            Outcome::Answer(answer) => {
                if name == "open" || line.trim_start().starts_with("load settings") {
                    self.lines.clear();
                }
                if !of_the_words {
                    self.lines.push(line);
                }
                answer
            }
            Outcome::BadLine => format!("bad line {place}"),
            Outcome::SumPassed(most) => {
                let (mut core, rounds) = finished_before(&self.lines, &line, most);
                core.ended = true;
                self.core = Some(core);
                format!("refused 10 {rounds}")
            }
            Outcome::Panic(text) => {
                // the state is torn: no call is supported until the next open
                self.core = None;
                format!("panic {text}")
            }
        }
    }
}

/// Answers the call list on standard input.
pub fn main() {
    let mut out = std::io::BufWriter::with_capacity(1 << 20, std::io::stdout().lock());
    let mut list = List {
        core: None,
        lines: Vec::new(),
    };
    std::panic::set_hook(Box::new(|_| {}));
    for (i, line) in std::io::stdin().lock().lines().enumerate() {
        let line = line.unwrap();
        let name = Words::of(&line).word().unwrap_or("#").to_string();
        if !name.starts_with('#') {
            writeln!(out, "{}", list.answer(i + 1, &name, line)).unwrap();
        }
    }
    out.flush().unwrap();
}
