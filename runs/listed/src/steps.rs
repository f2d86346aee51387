//! Steps behind the choices of a list: the events that they choose are known only when the calls are made.

use crate::lists::alone::made_alone;
use crate::lists::line::{line_of, Line};
use crate::lists::random::Random;
use crate::lists::show::event_words;
use crate::lists::WORDS;
use maybenot_core::{pack, Answer, Call, Choice, Core, SimEvent};

/// The words that the list works on and those of the second block, as `forecast` has them.
struct State {
    words: Vec<u64>,
    lent: usize,
    second: Vec<u64>,
    lent_second: usize,
}

impl State {
    /// Makes a call; the event that it chose.
    fn make(&mut self, call: &Call) -> Option<SimEvent> {
        let mut core = Core::resume(&mut self.words[..self.lent]);
        match made_alone(&mut core, call) {
            Answer::Choice(Ok(Choice::Event { event, .. })) => Some(event),
            _ => None,
        }
    }

    /// Does what a line asks for; the event that it chose.
    fn follow(&mut self, line: Line) -> Option<SimEvent> {
        match line {
            Line::Call(call) => return self.make(&call),
            Line::Lend(n) => self.lent = n,
            Line::Word(at, value) => self.words[at] = value,
            Line::Open(opening) => {
                let lent = &mut self.words[..self.lent];
                // a refused opening leaves the words, as it does in `forecast`
                let _ = Core::open_in(lent, &opening);
            }
            Line::LendSecond(n) => self.lent_second = n,
            Line::WordSecond(at, value) => self.second[at] = value,
            Line::TakeSecond => {
                self.words.copy_from_slice(&self.second);
                self.lent = self.lent_second;
            }
            Line::Pack => {
                // a refusal leaves the second block
                let second = &mut self.second[..self.lent_second];
                let _ = pack(&self.words[..self.lent], second);
            }
            Line::Bad | Line::Show | Line::Words | Line::WordsSecond => (),
        }
        None
    }

    /// Writes the step of an event, and then some more choices with their steps.
    fn steps(&mut self, event: SimEvent, random: &mut Random, lines: &mut Vec<String>) {
        let mut event = event;
        for _ in 0..random.length(12) {
            let time = event.moment;
            lines.push(format!("sim_network_stack {time} {}", event_words(&event)));
            self.make(&Call::SimNetworkStack { time, event });
            if random.below(3) == 0 {
                return;
            }
            lines.push(format!("pick_next {time}"));
            match self.make(&Call::PickNext { now: time }) {
                Some(next) => event = next,
                None => return,
            }
        }
    }
}

/// The lines of the list, with steps behind a third of the choices that chose an event.
pub fn with_steps(text: &[u8], mut random: Random) -> Vec<String> {
    let mut state = State {
        words: vec![0; WORDS],
        lent: WORDS,
        second: vec![0; WORDS],
        lent_second: WORDS,
    };
    let mut lines = Vec::new();
    for bytes in text.split(|b| *b == b'\n') {
        let Some(line) = line_of(bytes) else {
            continue;
        };
        lines.push(String::from_utf8_lossy(bytes).into_owned());
        if let Some(event) = state.follow(line) {
            if random.below(3) == 0 {
                state.steps(event, &mut random, &mut lines);
            }
        }
    }
    lines
}
