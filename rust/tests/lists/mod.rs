//! A small reader of call lists (docs/CALLS.md) that makes the calls through the safe crate, one by one or as lists of
//! random lengths. It serves several tests and the program runs/listed, none of which uses all of it.

#![allow(dead_code)]

pub mod alone;
pub mod batches;
pub mod line;
pub mod random;
pub mod show;

use alone::made_alone;
use batches::{made_as_lists, Tally};
use line::{line_of, Line};
use maybenot_core::{Answer, Call, Choice, Core, Refusal, Step};
use random::Random;

/// The words that the lists work on, and those of the second block.
pub const WORDS: usize = 8192;

/// The words, those of the second block, and how many of each the calls are lent.
pub struct Lists {
    words: Vec<u64>,
    lent: usize,
    second: Vec<u64>,
    lent_second: usize,
    calls: Calls,
}

/// How the calls are made.
enum Calls {
    OneByOne,
    /// As lists of random lengths: the calls that are not made yet, and how many will be made as one batch.
    AsLists {
        waiting: Vec<Call>,
        length: usize,
        random: Random,
        tally: Tally,
    },
}

/// The longest batch.
const MOST: u64 = 400;

/// An answer in words.
fn answer(result: Result<String, Refusal>) -> String {
    match result {
        Ok(text) => text,
        Err(refusal) => format!("refused {} {}", refusal.number(), refusal.rounds()),
    }
}

fn ok(_: ()) -> String {
    "ok".to_string()
}

fn stepped(step: Step) -> String {
    let activity = if step.active { "yes" } else { "no" };
    format!("{activity} falls {}", show::or_dash(step.falls))
}

fn chosen(choice: Choice) -> String {
    match choice {
        Choice::Event { event, rounds } => {
            format!("event {} rounds {rounds}", show::event_words(&event))
        }
        Choice::Nothing { rounds } => format!("nothing rounds {rounds}"),
    }
}

/// The answer of a call as a line; of a turn that of its choice, and that of its step where there is one.
fn write(given: &Answer, answers: &mut Vec<String>) {
    match *given {
        Answer::Done(done) => answers.push(answer(done.map(ok))),
        Answer::Choice(choice) => answers.push(answer(choice.map(chosen))),
        Answer::Step(step) => answers.push(answer(step.map(stepped))),
        Answer::Turn(turn) => {
            answers.push(answer(turn.choice.map(chosen)));
            answers.extend(turn.step.map(|step| answer(step.map(stepped))));
        }
    }
}

/// One word a line, then `end`.
fn list_words(words: &[u64], answers: &mut Vec<String>) {
    answers.extend(words.iter().map(u64::to_string));
    answers.push("end".to_string());
}

impl Lists {
    /// Calls are made one by one.
    pub fn new() -> Lists {
        Lists {
            words: vec![0; WORDS],
            lent: WORDS,
            second: vec![0; WORDS],
            lent_second: WORDS,
            calls: Calls::OneByOne,
        }
    }

    /// Calls are made as lists of random lengths.
    pub fn as_lists(mut random: Random) -> Lists {
        Lists {
            calls: Calls::AsLists {
                waiting: Vec::new(),
                length: random.length(MOST),
                random,
                tally: Tally::default(),
            },
            ..Lists::new()
        }
    }

    /// What was made as lists.
    pub fn tally(&self) -> Tally {
        match self.calls {
            Calls::OneByOne => Tally::default(),
            Calls::AsLists { tally, .. } => tally,
        }
    }

    /// The answers of all lines of a text.
    pub fn answers(&mut self, text: &[u8]) -> Vec<String> {
        let mut answers = Vec::new();
        for (at, bytes) in text.split(|b| *b == b'\n').enumerate() {
            if let Some(line) = line_of(bytes) {
                self.answer_line(at + 1, line, &mut answers);
            }
        }
        self.make_waiting(&mut answers);
        answers
    }

    fn answer_line(&mut self, number: usize, line: Line, answers: &mut Vec<String>) {
        if let Line::Call(call) = line {
            self.answer_call(call, answers);
            return;
        }
        self.make_waiting(answers);
        let lent = &mut self.words[..self.lent];
        match line {
            Line::Bad => answers.push(format!("bad line {number}")),
            Line::Lend(n) => {
                self.lent = n;
                answers.push(ok(()));
            }
            Line::Word(at, value) => {
                self.words[at] = value;
                answers.push(ok(()));
            }
            Line::Show => show::show(&mut Core::resume(lent), answers),
            Line::Words => list_words(lent, answers),
            Line::Open(opening) => answers.push(answer(
                Core::open_in(lent, &opening).map(|_| "ok".to_string()),
            )),
            Line::Call(_) => unreachable!("made before"),
            line => self.answer_second(line, answers),
        }
    }

    /// A line about the second block.
    fn answer_second(&mut self, line: Line, answers: &mut Vec<String>) {
        let lent = &mut self.second[..self.lent_second];
        let mut done = Ok(());
        match line {
            Line::LendSecond(n) => self.lent_second = n,
            Line::WordSecond(at, value) => self.second[at] = value,
            Line::WordsSecond => return list_words(lent, answers),
            Line::TakeSecond => {
                self.words.copy_from_slice(&self.second);
                self.lent = self.lent_second;
            }
            Line::Pack => done = Core::resume(&mut self.words[..self.lent]).pack(lent),
            _ => unreachable!("no line about the second block"),
        }
        answers.push(answer(done.map(ok)));
    }

    /// Makes a call, or lets it wait for its batch.
    fn answer_call(&mut self, call: Call, answers: &mut Vec<String>) {
        match &mut self.calls {
            Calls::OneByOne => {
                let mut core = Core::resume(&mut self.words[..self.lent]);
                write(&made_alone(&mut core, &call), answers);
            }
            Calls::AsLists {
                waiting, length, ..
            } => {
                waiting.push(call);
                if waiting.len() >= *length {
                    self.make_waiting(answers);
                }
            }
        }
    }

    /// Makes the calls that wait.
    fn make_waiting(&mut self, answers: &mut Vec<String>) {
        let Calls::AsLists {
            waiting,
            length,
            random,
            tally,
        } = &mut self.calls
        else {
            return;
        };
        let lent = &mut self.words[..self.lent];
        for given in made_as_lists(lent, waiting, random, tally) {
            write(&given, answers);
        }
        waiting.clear();
        *length = random.length(MOST);
    }
}
