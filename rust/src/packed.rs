//! The packed form of a state, and whether two states hold the same forecast.

use crate::block::Core;
use crate::refusal::{told, Refusal};
use crate::sys;

/// Writes the packed form of a state to every word of a second block of the same length, whatever it held.
///
/// Gives 1 where the length of `words` is not 256 + 4R, or `second` has another; 2 where `words` are no accepted state. An
/// ended state packs too. A refusal leaves `second` as it was.
///
/// Two states in blocks of one length have equal packed words exactly when they hold the same forecast: settings, actions
/// and timers, sums, block ends and flags, what stands in each chain, ended marks and round totals. The packed words are a
/// state themselves: later calls answer on them as on the original, and packing them gives them again.
///
/// ```
/// use maybenot_core::{pack, Core, Opening};
///
/// let saved = Core::with_records(1, &Opening::default())?.words().to_vec();
/// let mut second = [7; 260];
/// pack(&saved, &mut second)?;
/// assert_eq!(saved, second);
/// # Ok::<(), maybenot_core::Refusal>(())
/// ```
pub fn pack(words: &[u64], second: &mut [u64]) -> Result<(), Refusal> {
    // SAFETY: both slices are aligned and not null; the shared one is not written while it is borrowed, the other is borrowed
    // for this call alone, so they do not overlap.
    let number = unsafe {
        sys::maybenot_core_pack(
            words.as_ptr(),
            words.len(),
            second.as_mut_ptr(),
            second.len(),
        )
    };
    told(number, 0)
}

/// Whether two blocks of one length hold the same forecast, told by their packed forms.
///
/// Gives 1 where a length is not 256 + 4R or the two have other lengths, 2 where one of them is no accepted state.
///
/// ```
/// use maybenot_core::{same_forecast, Core, Kind, Opening, Side, SimEvent};
///
/// let packets = [(100, Side::Client), (50, Side::Server)];
/// let packets = packets.map(|(moment, side)| SimEvent::new(Kind::NORMAL_SENT, side, moment));
/// let mut one = Core::with_records(4, &Opening::default())?;
/// let mut other = Core::with_records(4, &Opening::default())?;
/// for packet in &packets {
///     one.push_sim(packet)?;
/// }
/// for packet in packets.iter().rev() {
///     other.push_sim(packet)?;
/// }
/// assert_ne!(one.words(), other.words());
/// assert!(same_forecast(one.words(), other.words())?);
/// # Ok::<(), maybenot_core::Refusal>(())
/// ```
pub fn same_forecast(a: &[u64], b: &[u64]) -> Result<bool, Refusal> {
    // each second block has the other's length, so two lengths are refused with 1
    let mut packed_a = vec![0; b.len()];
    let mut packed_b = vec![0; a.len()];
    pack(a, &mut packed_a)?;
    pack(b, &mut packed_b)?;
    Ok(packed_a == packed_b)
}

impl Core<'_> {
    /// Writes the packed form of the state to a second block of the same length. Gives 1 or 2; see [`pack`].
    ///
    /// ```
    /// use maybenot_core::{Core, Opening};
    ///
    /// let core = Core::with_records(16, &Opening::default())?;
    /// let mut second = vec![0; core.words().len()];
    /// core.pack(&mut second)?;
    /// assert_eq!(core.pack(&mut second[1..]).unwrap_err().number(), 1);
    /// # Ok::<(), maybenot_core::Refusal>(())
    /// ```
    pub fn pack(&self, second: &mut [u64]) -> Result<(), Refusal> {
        pack(self.words(), second)
    }
}
