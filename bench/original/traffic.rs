//! The lists that are timed, drawn beside the original as it makes them: packets that are loaded, a line that is drained,
//! and one in its steady state with four machines a side, which pad and block at random.

use super::rows::{
    AnswerRow, CLEAR_ACTION, CLEAR_TIMER, Opening, PICK, PUSH, Row, SET_ACTION, SET_TIMER, STEP,
    Theirs, answer, opened, row,
};
use super::*;
use crate::block::Random;

const SECOND: u64 = 1_000_000_000;
const MACHINES: u64 = 4;
/// Four records for each action, one for each timer, three for each side's block.
const RESERVE: usize = 2 * (5 * MACHINES as usize + 3);
/// What a step may take, and some more.
const SLACK: usize = 16;

/// A list with the answers that are due.
pub struct Phase {
    pub name: String,
    pub records: usize,
    pub opening: Opening,
    /// made before, and not timed
    pub before: Vec<Row>,
    pub rows: Vec<Row>,
    pub answers: Vec<AnswerRow>,
}

/// A line that is driven: the original's state, and the calls that made it.
struct Line {
    core: Core,
    random: Random,
    records: usize,
    rows: Vec<Row>,
    answers: Vec<AnswerRow>,
    now: u64,
    /// the moment of the last packet pushed, and the mean time to the next one
    pushed: u64,
    interval: u64,
}

fn opening(rate: Option<u64>) -> Opening {
    let delay = 20_000_000;
    let (has, rate) = (rate.is_some() as u64, rate.unwrap_or(0));
    [
        delay, has, rate, 0, 0, SECOND, 0, 0, 0, 0, MACHINES, MACHINES,
    ]
}

impl Line {
    /// So many packets a second, of both sides together.
    fn new(records: usize, opening: &Opening, packets: usize) -> Line {
        Line {
            core: opened(opening),
            random: Random(records as u64),
            records,
            rows: Vec::new(),
            answers: Vec::new(),
            now: 0,
            pushed: 0,
            interval: SECOND / packets.max(1) as u64,
        }
    }

    /// Makes a call; the event that it chose.
    fn make(&mut self, code: u64, arguments: &[u64]) -> Option<[u64; 8]> {
        let row = row(code, arguments);
        log::ROUNDS.set(0);
        let done = Theirs::of(&row).make(&mut self.core);
        assert!(
            self.used() + RESERVE <= self.records,
            "a block of {} records would have no room",
            self.records
        );
        let answer = answer(&self.core, &row, done, log::ROUNDS.get());
        self.rows.push(row);
        self.answers.push(answer);
        (code == PICK && answer[1] != 0).then(|| answer[3..11].try_into().unwrap())
    }

    /// Pushes the next packet of the list, of either side.
    fn push(&mut self) {
        self.pushed += 1 + self.random.below(2 * self.interval);
        let side = self.random.below(2);
        self.make(PUSH, &[1, self.pushed, 0, side, 0, 0, 0, 0]);
    }

    /// A choice, and the step of its event; its kind.
    fn turn(&mut self) -> Option<u64> {
        let event = self.make(PICK, &[self.now])?;
        self.now = event[1];
        let mut arguments = [self.now; 9];
        arguments[1..].copy_from_slice(&event);
        self.make(STEP, &arguments);
        Some(event[0])
    }

    /// How many records a block would have in use.
    fn used(&self) -> usize {
        let n = &self.core.network;
        let stamps = n.client_window.timestamps.len() + n.server_window.timestamps.len();
        self.core.sq.len() + stamps + n.aggregate_delay_queue.len()
    }

    /// Whether a block has room for more: all that may be reserved, and what a step takes.
    fn has_room(&self) -> bool {
        self.used() + RESERVE + SLACK < self.records
    }

    /// A machine pads, blocks, sets its timer, or clears what it holds.
    fn machine_acts(&mut self) {
        let (side, machine) = (self.random.below(2), self.random.below(MACHINES));
        let moment = self.now + self.random.below(10_000_000);
        let (bypass, replace) = (self.random.below(2), self.random.below(2));
        match self.random.below(20) {
            0..8 => self.make(SET_ACTION, &[side, machine, 1, moment, 0, bypass, replace]),
            8..11 => {
                let duration = self.random.below(20_000_000);
                self.make(
                    SET_ACTION,
                    &[side, machine, 2, moment, duration, bypass, replace],
                )
            }
            11..17 => self.make(SET_TIMER, &[side, machine, moment]),
            17..19 => self.make(CLEAR_TIMER, &[side, machine]),
            _ => self.make(CLEAR_ACTION, &[side, machine]),
        };
    }

    /// A turn of the driver: choice and step, a packet for each that was sent, and now and then a machine.
    fn drive(&mut self) {
        let kind = self.turn();
        if matches!(kind, Some(1) | None) && self.has_room() {
            self.push();
        }
        if self.random.below(4) == 0 && self.has_room() {
            self.machine_acts();
        }
    }

    /// The phase of the calls made from here on.
    fn phase(&mut self, name: String, opening: Opening, from: usize) -> Phase {
        Phase {
            name,
            records: self.records,
            opening,
            before: self.rows[..from].to_vec(),
            rows: self.rows[from..].to_vec(),
            answers: self.answers[from..].to_vec(),
        }
    }
}

/// Packets in time order up to 0.6 R, and choices and steps until nothing is left.
pub fn load_and_drain(records: usize) -> [Phase; 2] {
    let opening = opening(None);
    let mut line = Line::new(records, &opening, records / 5);
    for _ in 0..records * 6 / 10 {
        line.push();
    }
    let loaded = line.rows.len();
    let load = line.phase("load".to_string(), opening, 0);
    while line.turn().is_some() {}
    [load, line.phase("drain".to_string(), opening, loaded)]
}

/// The steady state: 0.3 R packets wait, and each one that is sent is followed by another. A tenth of R or more are stamps; with a
/// rate about as many as it allows.
pub fn steady(records: usize, rate: Option<u64>, calls: usize) -> Phase {
    let opening = opening(rate);
    // blocks hold packets up and padding is sent beside them: these come to about as many a side as the rate allows
    let packets = (records / 4).min(rate.map_or(usize::MAX, |r| 6 * r as usize));
    let mut line = Line::new(records, &opening, packets);
    for _ in 0..records * 3 / 10 {
        line.push();
    }
    // the window is full
    while line.now < 2 * SECOND {
        line.drive();
    }
    let from = line.rows.len();
    while line.rows.len() < from + calls {
        line.drive();
    }
    let name = rate.map_or("steady".to_string(), |r| format!("steady, rate {r}"));
    line.phase(name, opening, from)
}
