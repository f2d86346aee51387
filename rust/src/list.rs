//! A list of calls: many calls on one block, which is tested once.

use crate::answers::{Answer, AnswerRow, Answers, Turn, Turns, ANSWER_WORDS};
use crate::block::Core;
use crate::event::SimEvent;
use crate::refusal::Refusal;
use crate::row::{Call, Row, Stop, ROW_WORDS};
use crate::sys;

/// How many turns `run_until` asks for at first, and how many at most in one list.
const FIRST_TURNS: usize = 16;
const MOST_TURNS: usize = 1024;

impl Core<'_> {
    /// Makes the rows as one list of calls, one after the other, each as on its own, but tests the block only once.
    /// Gives the answers of the rows that were made: the first ones. Nothing is allocated.
    ///
    /// The list stops before a row that is no call and where the answers run out, and it ends after some turns
    /// ([`Call::Turn`]). A refused call does not end it. On words that are no accepted state every row is answered with
    /// number 1 or 2. Room for answers that is not used stays as it was.
    ///
    /// ```
    /// use maybenot_core::{Answer, AnswerRow, Call, Core, Kind, Opening, Row, Side, SimEvent};
    ///
    /// let mut core = Core::with_records(2, &Opening::default())?;
    /// let rows = [100, 200, 300]
    ///     .map(|moment| Call::PushSim(SimEvent::new(Kind::NORMAL_SENT, Side::Client, moment)))
    ///     .map(Row::from);
    /// let mut room = [AnswerRow::default(); 3];
    /// let answers = core.calls(&rows, &mut room);
    /// assert_eq!(answers.len(), 3);
    /// let numbers: Vec<_> = answers.map(|a| a.refusal().map(|r| r.number())).collect();
    /// assert_eq!(numbers, [None, None, Some(9)]); // the block has two records
    /// # Ok::<(), maybenot_core::Refusal>(())
    /// ```
    pub fn calls<'r>(&mut self, rows: &'r [Row], answers: &'r mut [AnswerRow]) -> Answers<'r> {
        let made = self.make(rows, answers);
        Answers::new(&rows[..made], &answers[..made])
    }

    /// Lends block, rows and answers to the archive; how many rows were made.
    fn make(&mut self, rows: &[Row], answers: &mut [AnswerRow]) -> usize {
        let (block, words) = self.lend();
        // SAFETY: `lend` gives a block that is aligned, not null and borrowed for this call alone. Rows and answers are
        // slices of arrays of ROW_WORDS and ANSWER_WORDS words each (`repr(transparent)`), the answers borrowed for this
        // call alone.
        let made = unsafe {
            sys::maybenot_core_calls(
                block,
                words,
                rows.as_ptr().cast(),
                rows.len() * ROW_WORDS,
                answers.as_mut_ptr().cast(),
                answers.len() * ANSWER_WORDS,
            )
        };
        made as usize
    }

    /// Makes the calls as one list, and gives the answers of those that were made. As [`Core::calls`], but rows and
    /// answers are allocated.
    ///
    /// ```
    /// use maybenot_core::{Answer, Call, Core, Kind, Opening, Side, SimEvent};
    ///
    /// let mut core = Core::with_records(4, &Opening::default())?;
    /// let packet = SimEvent::new(Kind::NORMAL_SENT, Side::Client, 100);
    /// let answers = core.batch([Call::PushSim(packet), Call::PickNext { now: 0 }]);
    /// let Answer::Choice(choice) = answers[1] else { unreachable!() };
    /// assert_eq!(choice?.event(), Some(packet));
    /// # Ok::<(), maybenot_core::Refusal>(())
    /// ```
    pub fn batch(&mut self, calls: impl IntoIterator<Item = Call>) -> Vec<Answer> {
        let rows: Vec<Row> = calls.into_iter().map(Row::from).collect();
        let mut answers = vec![AnswerRow::default(); rows.len()];
        self.calls(&rows, &mut answers).collect()
    }

    /// Makes up to as many turns as there are rows and answers, as one list: choice and step by turns, from `now` on,
    /// until nothing is left, a turn is refused, or an event of `stop` has been chosen and stepped on. The rows are
    /// written over. Nothing is allocated.
    ///
    /// Where as many turns were made as there was room for, and the last one is none of those, the run may be gone on
    /// with at the moment of the last event.
    ///
    /// ```
    /// use maybenot_core::{AnswerRow, Core, Kind, Opening, Row, Side, SimEvent, Stop};
    ///
    /// let mut core = Core::with_records(8, &Opening { network_delay: 20, ..Opening::default() })?;
    /// core.push_sim(&SimEvent::new(Kind::NORMAL_SENT, Side::Client, 100))?;
    ///
    /// let (mut rows, mut room) = ([Row::NONE; 16], [AnswerRow::default(); 16]);
    /// let turns = core.turns(0, Stop::at(Side::Server, Kind::TUNNEL_RECV), &mut rows, &mut room);
    /// let seen: Vec<_> = turns.filter_map(|turn| turn.event()).map(|e| (e.kind, e.moment)).collect();
    /// assert_eq!(seen, [(Kind::NORMAL_SENT, 100), (Kind::TUNNEL_SENT, 100), (Kind::TUNNEL_RECV, 120)]);
    /// # Ok::<(), maybenot_core::Refusal>(())
    /// ```
    pub fn turns<'r>(
        &mut self,
        now: u64,
        stop: Stop,
        rows: &mut [Row],
        answers: &'r mut [AnswerRow],
    ) -> Turns<'r> {
        rows.fill(Row::from(Call::Turn { now, stop }));
        let made = self.make(rows, answers);
        Turns::new(&answers[..made])
    }

    /// Runs by turns from `now` on until an event of `stop` has been chosen and stepped on, and gives that event; `None`
    /// where nothing is left before. `seen` is shown every turn that was made, the last one and a refused one too.
    ///
    /// The turns are made as lists that grow, up to 1,024 at a time, so that the tests of the block are few; their rows are
    /// allocated. [`Core::turns`] works on lent ones.
    ///
    /// ```
    /// use maybenot_core::{Core, Kind, Opening, Side, SimEvent, Stop};
    ///
    /// let mut core = Core::with_records(8, &Opening { network_delay: 20, ..Opening::default() })?;
    /// core.push_sim(&SimEvent::new(Kind::NORMAL_SENT, Side::Client, 100))?;
    ///
    /// // until the server has it
    /// let received = core.run_until(0, Stop::at(Side::Server, Kind::NORMAL_RECV), |_| ())?;
    /// assert_eq!(received.map(|e| e.moment), Some(120));
    ///
    /// // until nothing is left
    /// assert_eq!(core.run_until(120, Stop::NEVER, |_| ())?, None);
    /// # Ok::<(), maybenot_core::Refusal>(())
    /// ```
    pub fn run_until(
        &mut self,
        now: u64,
        stop: Stop,
        mut seen: impl FnMut(&Turn),
    ) -> Result<Option<SimEvent>, Refusal> {
        let mut rows = vec![Row::NONE; FIRST_TURNS];
        let mut answers = vec![AnswerRow::default(); FIRST_TURNS];
        let mut now = now;
        loop {
            for turn in self.turns(now, stop, &mut rows, &mut answers) {
                seen(&turn);
                if let Some(refusal) = turn.refusal() {
                    return Err(refusal);
                }
                let Some(event) = turn.event() else {
                    return Ok(None);
                };
                if stop.contains(event.side, event.kind) {
                    return Ok(Some(event));
                }
                now = event.moment;
            }
            let more = MOST_TURNS.min(4 * rows.len());
            rows.resize(more, Row::NONE);
            answers.resize(more, AnswerRow::default());
        }
    }
}
