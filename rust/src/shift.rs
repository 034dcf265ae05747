//! Weights for a shifted core.
use crate::{raw, Refusal, Weights, ZONES};

/// The largest shift, in hundredths of sigma; the least is its negative.
pub const MAX_SHIFT: i32 = 150;

/// The weights of a normal reading whose mean is off the centre by a known shift, in hundredths of sigma: above the centre where it is over
/// 0, below where it is under 0. A shift of 0 is in control. [`table()`](crate::table()) and [`box_plot`](crate::box_plot) accept the
/// weights of every shift.
///
/// A weight is what a table of normal areas, each to the nearest multiple of 2^-30, has between the limits of the zone. C0's is 0: such a
/// reading is never exactly on the centre. S has what is missing from 2^30.
///
/// Refused by 18.
///
/// ```
/// use catrovindy::{shift_weights, Bracket, RuleList, Table};
///
/// let rules = RuleList::western_electric();
/// let sound = Table::new(&rules, &shift_weights(0)?, 1000)?;
/// let shifted = Table::new(&rules, &shift_weights(100)?, 1000)?;
/// // half of the sound cores are flagged within 65 points, and half of those that are shifted by one sigma within 8
/// assert_eq!((sound.bracket(50)?, shifted.bracket(50)?), (Bracket::At(65), Bracket::At(8)));
/// # Ok::<(), catrovindy::Refusal>(())
/// ```
pub fn shift_weights(shift: i32) -> Result<Weights, Refusal> {
    let mut weights = [0; ZONES];
    // SAFETY: an array of eight.
    Refusal::check(unsafe { raw::catrovindy_shift_weights(shift, weights.as_mut_ptr()) })?;
    Ok(weights)
}
