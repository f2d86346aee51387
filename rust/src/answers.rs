//! What the calls of a list answer.

use crate::choice::{choice_of, Choice, CHOICE_WORDS};
use crate::event::SimEvent;
use crate::refusal::{told, Refusal};
use crate::row::{Row, PICK_NEXT, SIM_NETWORK_STACK, TURN};
use crate::step::{step_of, Step};
use std::array::from_fn;
use std::iter::Zip;
use std::slice::Iter;

/// The words of the answer of a row.
pub const ANSWER_WORDS: usize = 16;

/// Where an answer holds what the call writes, and where that of a turn, behind its choice, what its step writes.
const OUT: usize = 1;
const STEP_OF_TURN: usize = OUT + CHOICE_WORDS;

/// Room for the answer of a row.
#[derive(Clone, Copy, Debug, Default, PartialEq, Eq, Hash)]
#[repr(transparent)]
pub struct AnswerRow(pub [u64; ANSWER_WORDS]);

impl AnswerRow {
    /// The number of the refusal.
    fn number(&self) -> u64 {
        self.0[0]
    }

    /// The answer of a choice, or of a turn's.
    fn choice(&self) -> Choice {
        choice_of(&from_fn(|i| self.0[OUT + i]))
    }

    /// The answer of a step whose words begin here.
    fn step(&self, from: usize) -> Result<Step, Refusal> {
        told(self.number(), 0).map(|()| step_of(&from_fn(|i| self.0[from + i])))
    }

    /// The answer of a turn.
    fn turn(&self) -> Turn {
        let choice = self.choice();
        if choice.event().is_none() {
            let choice = told(self.number(), choice.rounds()).map(|()| choice);
            return Turn { choice, step: None };
        }
        Turn {
            choice: Ok(choice),
            step: Some(self.step(STEP_OF_TURN)),
        }
    }

    /// The answer of the row's call.
    fn answer(&self, row: &Row) -> Answer {
        match row.0[0] {
            PICK_NEXT => {
                let choice = self.choice();
                Answer::Choice(told(self.number(), choice.rounds()).map(|()| choice))
            }
            SIM_NETWORK_STACK => Answer::Step(self.step(OUT)),
            TURN => Answer::Turn(self.turn()),
            _ => Answer::Done(told(self.number(), 0)),
        }
    }
}

/// What a call of a list answers.
#[derive(Clone, Copy, Debug, PartialEq, Eq, Hash)]
pub enum Answer {
    /// Of a push, and of setting and clearing.
    Done(Result<(), Refusal>),
    /// Of a choice.
    Choice(Result<Choice, Refusal>),
    /// Of a network step.
    Step(Result<Step, Refusal>),
    /// Of a turn.
    Turn(Turn),
}

impl Answer {
    /// The refusal, where there is one.
    ///
    /// ```
    /// use maybenot_core::{Call, Core};
    ///
    /// let answers = Core::resume(&mut []).batch([Call::PickNext { now: 0 }]);
    /// assert_eq!(answers[0].refusal().map(|r| r.number()), Some(1));
    /// ```
    pub fn refusal(&self) -> Option<Refusal> {
        match self {
            Answer::Done(done) => done.err(),
            Answer::Choice(choice) => choice.err(),
            Answer::Step(step) => step.err(),
            Answer::Turn(turn) => turn.refusal(),
        }
    }
}

/// What a turn answers: its choice, and the network step of the event that was chosen.
#[derive(Clone, Copy, Debug, PartialEq, Eq, Hash)]
pub struct Turn {
    /// The choice.
    pub choice: Result<Choice, Refusal>,
    /// The step. `None` where no event was chosen.
    pub step: Option<Result<Step, Refusal>>,
}

impl Turn {
    /// The event, where one was chosen.
    ///
    /// ```
    /// use maybenot_core::{Answer, Call, Core, Opening, Stop};
    ///
    /// let mut core = Core::with_records(4, &Opening::default())?;
    /// let answers = core.batch([Call::Turn { now: 0, stop: Stop::NEVER }]);
    /// let Answer::Turn(turn) = answers[0] else { unreachable!() };
    /// assert_eq!((turn.event(), turn.step), (None, None));
    /// # Ok::<(), maybenot_core::Refusal>(())
    /// ```
    pub fn event(&self) -> Option<SimEvent> {
        self.choice.ok()?.event()
    }

    /// The refusal of the choice or of the step, where there is one.
    ///
    /// ```
    /// use maybenot_core::{Answer, Call, Core, Opening, Stop, MAX_MOMENT};
    ///
    /// let mut core = Core::with_records(4, &Opening::default())?;
    /// let answers = core.batch([Call::Turn { now: MAX_MOMENT + 1, stop: Stop::NEVER }]);
    /// let Answer::Turn(turn) = answers[0] else { unreachable!() };
    /// assert_eq!(turn.refusal().map(|r| r.number()), Some(7));
    /// # Ok::<(), maybenot_core::Refusal>(())
    /// ```
    pub fn refusal(&self) -> Option<Refusal> {
        match self.step {
            Some(step) => step.err(),
            None => self.choice.err(),
        }
    }
}

/// The answers of the rows that a list made, in their order.
#[derive(Clone, Debug)]
pub struct Answers<'r> {
    made: Zip<Iter<'r, Row>, Iter<'r, AnswerRow>>,
}

impl<'r> Answers<'r> {
    pub(crate) fn new(rows: &'r [Row], answers: &'r [AnswerRow]) -> Answers<'r> {
        Answers {
            made: rows.iter().zip(answers),
        }
    }
}

impl Iterator for Answers<'_> {
    type Item = Answer;

    fn next(&mut self) -> Option<Answer> {
        let (row, answer) = self.made.next()?;
        Some(answer.answer(row))
    }

    fn size_hint(&self) -> (usize, Option<usize>) {
        self.made.size_hint()
    }
}

impl DoubleEndedIterator for Answers<'_> {
    fn next_back(&mut self) -> Option<Answer> {
        let (row, answer) = self.made.next_back()?;
        Some(answer.answer(row))
    }
}

impl ExactSizeIterator for Answers<'_> {}

/// The turns that a list of turns made, in their order.
#[derive(Clone, Debug)]
pub struct Turns<'r> {
    made: Iter<'r, AnswerRow>,
}

impl<'r> Turns<'r> {
    pub(crate) fn new(answers: &'r [AnswerRow]) -> Turns<'r> {
        let made = answers.iter();
        Turns { made }
    }
}

impl Iterator for Turns<'_> {
    type Item = Turn;

    fn next(&mut self) -> Option<Turn> {
        self.made.next().map(AnswerRow::turn)
    }

    fn size_hint(&self) -> (usize, Option<usize>) {
        self.made.size_hint()
    }
}

impl DoubleEndedIterator for Turns<'_> {
    fn next_back(&mut self) -> Option<Turn> {
        self.made.next_back().map(AnswerRow::turn)
    }
}

impl ExactSizeIterator for Turns<'_> {}
