//! A batch of calls through the list call, held to the same calls made one by one on a copy of the words.
//!
//! Some of the choices that are followed by the step of their event cross as one turn. A turn may end the list: the rest
//! of the batch is then made as another list, and the rows that stand behind the turn must not be made.

use super::alone::{hold_words, made_alone};
use super::random::Random;
use maybenot_core::{
    Answer, AnswerRow, Call, Choice, Core, Kind, Row, Side, SimEvent, Stop, Turn, ANSWER_WORDS,
    ROW_WORDS,
};

/// What no answer holds.
const UNTOUCHED: AnswerRow = AnswerRow([0x0123_4567_89ab_cdef; ANSWER_WORDS]);

/// A row that will be made, with the answer that is due.
struct Due {
    row: Row,
    answer: Answer,
}

/// The calls of a batch, with their answers on their own.
struct Batch<'a> {
    calls: &'a [Call],
    alone: Vec<Answer>,
    random: &'a mut Random,
    /// whether turns may end a list before the batch is made; where not, it is one list
    ends: bool,
}

/// How many lists, rows and turns were made.
#[derive(Clone, Copy, Default)]
pub struct Tally {
    pub lists: usize,
    pub rows: usize,
    pub turns: usize,
    /// the rows of the longest list
    pub longest: usize,
}

/// Makes the calls as lists and gives their answers, a turn's for its two calls. What was made is added to the tally.
pub fn made_as_lists(
    words: &mut [u64],
    calls: &[Call],
    random: &mut Random,
    tally: &mut Tally,
) -> Vec<Answer> {
    let mut copy = words.to_vec();
    let mut core = Core::resume(&mut copy);
    let alone = calls.iter().map(|c| made_alone(&mut core, c)).collect();
    let ends = random.below(3) == 0;
    let mut batch = Batch {
        calls,
        alone,
        random,
        ends,
    };
    let mut given = Vec::new();
    let mut from = 0;
    while from < calls.len() {
        let (due, next) = batch.list(from);
        given.extend(batch.make(words, &due, next));
        from = next;
        tally.lists += 1;
        tally.longest = tally.longest.max(due.len());
    }
    hold_words(words, &copy);
    tally.rows += given.len();
    tally.turns += given
        .iter()
        .filter(|a| matches!(a, Answer::Turn(_)))
        .count();
    given
}

/// Some events, with this one or without it.
fn some_stop(random: &mut Random, event: SimEvent, with: bool) -> Stop {
    let all = Side::BOTH
        .into_iter()
        .flat_map(|s| (0..10).map(move |k| (s, Kind(k))));
    let others = all.filter(|&(side, kind)| (side, kind) != (event.side, event.kind));
    let some: Stop = others.filter(|_| random.below(2) == 0).collect();
    if with {
        return some | Stop::at(event.side, event.kind);
    }
    some
}

impl Batch<'_> {
    /// The rows of the list that begins with this call, and the first call that is not in it.
    fn list(&mut self, from: usize) -> (Vec<Due>, usize) {
        let mut due = Vec::new();
        let mut last = 0;
        let mut at = from;
        while at < self.calls.len() {
            let (row, calls, ends) = self.row(at, last);
            due.push(row);
            if let Answer::Choice(Ok(Choice::Event { event, .. })) = self.alone[at] {
                last = event.moment;
            }
            at += calls;
            if ends {
                break;
            }
        }
        (due, at)
    }

    /// A row, how many calls it stands for, and whether the list ends after it. `last` is the moment of the last event
    /// chosen in the list.
    fn row(&mut self, at: usize, last: u64) -> (Due, usize, bool) {
        let (call, answer) = (self.calls[at], self.alone[at]);
        if let (Call::PickNext { now }, Answer::Choice(choice)) = (call, answer) {
            if now >= last && self.random.below(4) > 0 {
                if let Some(turn) = self.turn(at, now, last, choice.ok()) {
                    return turn;
                }
            }
        }
        let row = Row::from(call);
        (Due { row, answer }, 1, false)
    }

    /// The choice as a turn, where it was refused or found nothing, or the step of its event follows; and where the list
    /// may end after it, if it does.
    fn turn(
        &mut self,
        at: usize,
        now: u64,
        last: u64,
        choice: Option<Choice>,
    ) -> Option<(Due, usize, bool)> {
        // a turn goes on at the last event, so an earlier moment does as well
        let now = if now == last {
            self.random.below(now + 1)
        } else {
            now
        };
        let Some(event) = choice.and_then(|chosen| chosen.event()) else {
            return self.ends.then(|| self.turn_without_event(at, now));
        };
        let step = match (self.calls.get(at + 1)?, self.alone.get(at + 1)?) {
            (&Call::SimNetworkStack { time, event: e }, &Answer::Step(step))
                if (time, e) == (event.moment, event) =>
            {
                step
            }
            _ => return None,
        };
        let with = self.ends && self.random.below(8) == 0;
        if step.is_err() && !self.ends {
            return None;
        }
        let stop = some_stop(self.random, event, with);
        let answer = Answer::Turn(Turn {
            choice: Ok(choice?),
            step: Some(step),
        });
        let row = Row::from(Call::Turn { now, stop });
        Some((Due { row, answer }, 2, with || step.is_err()))
    }

    /// A turn that is refused or finds nothing left: the list ends after it.
    fn turn_without_event(&mut self, at: usize, now: u64) -> (Due, usize, bool) {
        let Answer::Choice(choice) = self.alone[at] else {
            unreachable!("it is a choice")
        };
        let row = Row::from(Call::Turn {
            now,
            stop: Stop::NEVER,
        });
        let answer = Answer::Turn(Turn { choice, step: None });
        (Due { row, answer }, 1, true)
    }

    /// Makes a list. Rows that must not be made stand behind it: the calls from `next` on, or a code that is no call.
    fn make(&mut self, words: &mut [u64], due: &[Due], next: usize) -> Vec<Answer> {
        let mut rows: Vec<Row> = due.iter().map(|d| d.row).collect();
        if next < self.calls.len() {
            rows.extend(self.calls[next..].iter().take(3).copied().map(Row::from));
        } else {
            rows.push(Row([8 + self.random.next() % (u64::MAX - 8); ROW_WORDS]));
        }
        let mut room = vec![UNTOUCHED; rows.len() + 1];
        let made = Core::resume(words).calls(&rows, &mut room);
        assert_eq!(made.len(), due.len(), "the number of rows that were made");
        let given: Vec<Answer> = made.collect();
        for (at, (a, d)) in given.iter().zip(due).enumerate() {
            assert_eq!(*a, d.answer, "row {at}: {:?}", d.row);
        }
        let beyond = &room[due.len()..];
        assert!(beyond.iter().all(|a| *a == UNTOUCHED), "written too far");
        given
    }
}
