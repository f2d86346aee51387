//! The block that a core works on, and what can be read from it.

use crate::event::Side;
use crate::opening::Opening;
use crate::refusal::Refusal;
use crate::{sys, words_for, MAX_RECORDS};
use std::fmt;

/// Where the header holds the sum of a side, and one more than its block's end (docs/LAYOUT.md).
const SUM: usize = 10;
const BLOCK_END: usize = 12;

/// Whether the words are an accepted state, one that the calls work on.
///
/// ```
/// use maybenot_core::{accepted, Core, Opening};
///
/// let mut words = [0; 260];
/// assert!(!accepted(&words));
/// Core::open_in(&mut words, &Opening::default())?;
/// assert!(accepted(&words));
/// # Ok::<(), maybenot_core::Refusal>(())
/// ```
pub fn accepted(words: &[u64]) -> bool {
    // SAFETY: a shared slice is aligned, not null, and not written while it is borrowed; the function only reads it.
    unsafe { sys::maybenot_core_accepted(words.as_ptr(), words.len()) }
}

/// The words that a core works on.
enum Block<'a> {
    Lent(&'a mut [u64]),
    Owned(Box<[u64]>),
}

/// The event core on a block of words, lent or its own.
pub struct Core<'a> {
    block: Block<'a>,
}

impl fmt::Debug for Core<'_> {
    /// The number of words; what they hold would be pages.
    fn fmt(&self, f: &mut fmt::Formatter<'_>) -> fmt::Result {
        let words = self.words().len();
        f.debug_struct("Core").field("words", &words).finish()
    }
}

impl Core<'static> {
    /// Opens a state in a block of its own with so many records.
    ///
    /// Gives number 1 where `records` is 0 or above [`MAX_RECORDS`], number 4 where a setting is outside its limits.
    ///
    /// ```
    /// use maybenot_core::{Core, Opening};
    ///
    /// let core = Core::with_records(16, &Opening::default())?;
    /// assert_eq!(core.words().len(), 256 + 4 * 16);
    /// # Ok::<(), maybenot_core::Refusal>(())
    /// ```
    pub fn with_records(records: usize, opening: &Opening) -> Result<Core<'static>, Refusal> {
        // one record above the limit is enough for the core to refuse, and asks for no more memory than that
        let words = words_for(records.min(MAX_RECORDS + 1)).unwrap_or(0);
        let mut core = Core {
            block: Block::Owned(vec![0; words].into_boxed_slice()),
        };
        core.open(opening)?;
        Ok(core)
    }
}

impl<'a> Core<'a> {
    /// Opens a state in the lent words, whatever they held.
    ///
    /// Gives number 1 where their length is not 256 + 4R, number 4 where a setting is outside its limits.
    ///
    /// ```
    /// use maybenot_core::{Core, Opening};
    ///
    /// let mut words = [7; 320];
    /// let core = Core::open_in(&mut words, &Opening::default())?;
    /// assert!(core.accepted());
    /// # Ok::<(), maybenot_core::Refusal>(())
    /// ```
    pub fn open_in(block: &'a mut [u64], opening: &Opening) -> Result<Core<'a>, Refusal> {
        let mut core = Core::resume(block);
        core.open(opening)?;
        Ok(core)
    }

    /// Goes on with the state that the lent words hold. Any words do: each call tests them first, and refuses with
    /// number 1 or 2 what is no accepted state.
    ///
    /// ```
    /// use maybenot_core::{Core, Kind, Opening, Side, SimEvent};
    ///
    /// let mut words = [0; 320];
    /// Core::open_in(&mut words, &Opening::default())?
    ///     .push_sim(&SimEvent::new(Kind::NORMAL_SENT, Side::Client, 100))?;
    ///
    /// let choice = Core::resume(&mut words).pick_next(0)?;
    /// assert_eq!(choice.event().map(|e| e.moment), Some(100));
    /// # Ok::<(), maybenot_core::Refusal>(())
    /// ```
    pub fn resume(block: &'a mut [u64]) -> Core<'a> {
        Core {
            block: Block::Lent(block),
        }
    }

    /// The words of the block: a copy of them is the whole state, to be gone on with by [`Core::resume`]. They are in
    /// the machine's byte order.
    ///
    /// ```
    /// use maybenot_core::{Core, Opening};
    ///
    /// let core = Core::with_records(1, &Opening { network_delay: 20, ..Opening::default() })?;
    /// let mut saved = core.words().to_vec();
    /// assert!(Core::resume(&mut saved).accepted());
    /// # Ok::<(), maybenot_core::Refusal>(())
    /// ```
    pub fn words(&self) -> &[u64] {
        match &self.block {
            Block::Lent(words) => words,
            Block::Owned(words) => words,
        }
    }

    /// Where the block is, and how many words it has.
    pub(crate) fn lend(&mut self) -> (*mut u64, usize) {
        let words = match &mut self.block {
            Block::Lent(words) => &mut **words,
            Block::Owned(words) => &mut **words,
        };
        (words.as_mut_ptr(), words.len())
    }

    /// Whether the words are an accepted state.
    ///
    /// ```
    /// use maybenot_core::Core;
    /// assert!(!Core::resume(&mut [0; 260]).accepted());
    /// ```
    pub fn accepted(&self) -> bool {
        accepted(self.words())
    }

    /// The aggregate delay of a side: by how many nanoseconds what its packet list has still to send is late. It is read
    /// from the words as they are, accepted or not, and is 0 where they are too short to hold one.
    ///
    /// ```
    /// use maybenot_core::{Core, Opening, Side};
    /// let core = Core::with_records(1, &Opening::default())?;
    /// assert_eq!(core.sum(Side::Client), 0);
    /// # Ok::<(), maybenot_core::Refusal>(())
    /// ```
    pub fn sum(&self, side: Side) -> u64 {
        self.words().get(SUM + side.place()).copied().unwrap_or(0)
    }

    /// When the block of outgoing packets on a side ends, `None` where there is none. It is read from the words as they
    /// are, accepted or not.
    ///
    /// ```
    /// use maybenot_core::{Action, Core, Opening, Side, SideOpening};
    ///
    /// let machine = SideOpening { machines: 1, ..SideOpening::default() };
    /// let mut core = Core::with_records(8, &Opening { client: machine, ..Opening::default() })?;
    /// core.set_action(Side::Client, 0, &Action::block_outgoing(50, 100))?;
    /// assert_eq!(core.block_end(Side::Client), None);
    /// core.pick_next(50)?;
    /// assert_eq!(core.block_end(Side::Client), Some(150));
    /// # Ok::<(), maybenot_core::Refusal>(())
    /// ```
    pub fn block_end(&self, side: Side) -> Option<u64> {
        let word = self.words().get(BLOCK_END + side.place()).copied()?;
        word.checked_sub(1)
    }
}
