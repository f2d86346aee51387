//! Why a call was refused.

use std::error::Error;
use std::fmt;

/// A refusal: its number in the table, and the rounds that were finished before it.
///
/// The words are as they were before the call. Number 10 alone changes them: it sets the ended mark, after which every
/// call but opening gives number 3, and a choice keeps the rounds that it had finished.
///
/// | number | given exactly when |
/// |---|---|
/// | 1 | the length is not 256 + 4R words, R from 1 to 65,535, or a second block has another |
/// | 2 | the words are no accepted state (not at opening) |
/// | 3 | the state is marked ended |
/// | 4 | an opening value is outside its limits |
/// | 5 | the machine is not below its side's count |
/// | 6 | the event kind is above 9, or the action is neither `SendPadding` nor `BlockOutgoing` |
/// | 7 | a moment or a length is above its limit |
/// | 8 | a network step of a `TunnelSent` that is no padding has a delay above its moment |
/// | 9 | the records would not suffice: used and reserved ones would exceed R after the call |
/// | 10 | a sum or the round total would pass 2^62 − 1 |
///
/// The first that holds is given.
///
/// ```
/// use maybenot_core::{Core, Opening};
///
/// let refusal = Core::with_records(0, &Opening::default()).unwrap_err();
/// assert_eq!(refusal.number(), 1);
/// assert_eq!(
///     refusal.to_string(),
///     "refusal 1: the length is not 256 + 4R words, R from 1 to 65,535, or a second block has another"
/// );
/// ```
#[derive(Clone, Copy, Debug, PartialEq, Eq, Hash)]
pub struct Refusal {
    number: u64,
    rounds: u64,
}

/// The answer of a call that returned this number.
pub(crate) fn told(number: u64, rounds: u64) -> Result<(), Refusal> {
    if number == 0 {
        return Ok(());
    }
    Err(Refusal { number, rounds })
}

impl Refusal {
    /// Its number in the table, 1 to 10.
    ///
    /// ```
    /// # use maybenot_core::Core;
    /// // words that are no state
    /// assert_eq!(Core::resume(&mut [u64::MAX; 260]).pick_next(0).unwrap_err().number(), 2);
    /// ```
    pub fn number(&self) -> u64 {
        self.number
    }

    /// The rounds that the choice had finished: 0 for all but number 10.
    ///
    /// ```
    /// # use maybenot_core::Core;
    /// assert_eq!(Core::resume(&mut []).pick_next(0).unwrap_err().rounds(), 0);
    /// ```
    pub fn rounds(&self) -> u64 {
        self.rounds
    }

    /// What the number means.
    ///
    /// ```
    /// # use maybenot_core::Core;
    /// let refusal = Core::resume(&mut [0; 260]).pick_next(0).unwrap_err();
    /// assert_eq!(refusal.meaning(), "the words are no accepted state");
    /// ```
    pub fn meaning(&self) -> &'static str {
        match self.number {
            1 => "the length is not 256 + 4R words, R from 1 to 65,535, or a second block has another",
            2 => "the words are no accepted state",
            3 => "the state is marked ended",
            4 => "an opening value is outside its limits",
            5 => "the machine is not below its side's count",
            6 => {
                "the event kind is above 9, or the action is neither SendPadding nor BlockOutgoing"
            }
            7 => "a moment or a length is above its limit",
            8 => "the TunnelSent of the step has a delay above its moment",
            9 => "there are not enough records for what the call would use and reserve",
            10 => "a sum or the round total would pass 2^62 - 1; the state is marked ended",
            _ => "a number that is not in the table",
        }
    }
}

impl fmt::Display for Refusal {
    fn fmt(&self, f: &mut fmt::Formatter<'_>) -> fmt::Result {
        write!(f, "refusal {}: {}", self.number, self.meaning())?;
        if self.rounds > 0 {
            write!(f, " (after {} finished rounds)", self.rounds)?;
        }
        Ok(())
    }
}

impl Error for Refusal {}
