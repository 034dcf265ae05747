//! The zone of a reading, and zone sets.
use crate::{raw, Refusal};

/// How many zones there are, numbered from 0.
pub const ZONES: usize = 8;

/// The weight of each zone, by its number, so that C0's is the last: its chance is its weight over 2^30, and all sum to 2^30. For a normal
/// reading [`shift_weights`](crate::shift_weights) makes them.
pub type Weights = [u32; ZONES];

/// The largest sigma; the least is 1.
pub const MAX_SIGMA: u32 = 65_535;

/// More than three sigma from the centre, on either side.
pub const S: u32 = 0;
/// Above the centre by more than two sigma, and at most three.
pub const A1: u32 = 1;
/// Above the centre by more than one sigma, and at most two.
pub const B1: u32 = 2;
/// Above the centre by at most one sigma.
pub const C1: u32 = 3;
/// Below the centre by at most one sigma.
pub const C2: u32 = 4;
/// Below the centre by more than one sigma, and at most two.
pub const B2: u32 = 5;
/// Below the centre by more than two sigma, and at most three.
pub const A2: u32 = 6;
/// On the centre.
pub const C0: u32 = 7;

/// The largest zone set.
pub const ALL_ZONES: u32 = 255;

/// The zone set of S: beyond three sigma, on either side. Sets are for a rule's zones, and are joined by `|`. S is on both sides of the
/// centre and C0 on neither, so that no set of one side has them.
pub const SET_S: u32 = 1;
/// The zone set of A above the centre.
pub const SET_A1: u32 = 2;
/// The zone set of B above the centre.
pub const SET_B1: u32 = 4;
/// The zone set of C above the centre.
pub const SET_C1: u32 = 8;
/// The zone set of C below the centre.
pub const SET_C2: u32 = 16;
/// The zone set of B below the centre.
pub const SET_B2: u32 = 32;
/// The zone set of A below the centre.
pub const SET_A2: u32 = 64;
/// The zone set of the centre itself, which no ready list has: such a point counts for neither side.
pub const SET_C0: u32 = 128;
/// Above the centre by more than one sigma, and at most three.
pub const SET_A_OR_B_ABOVE: u32 = SET_A1 | SET_B1;
/// Below the centre by more than one sigma, and at most three.
pub const SET_A_OR_B_BELOW: u32 = SET_A2 | SET_B2;
/// Above the centre by at most three sigma. A point on the centre is neither here nor in [`SET_BELOW`].
pub const SET_ABOVE: u32 = SET_A1 | SET_B1 | SET_C1;
/// Below the centre by at most three sigma.
pub const SET_BELOW: u32 = SET_A2 | SET_B2 | SET_C2;
/// Within one sigma of the centre, on either side or on it.
pub const SET_C: u32 = SET_C1 | SET_C2 | SET_C0;
/// More than one sigma from the centre, on either side.
pub const SET_OUTSIDE_C: u32 = SET_S | SET_A_OR_B_ABOVE | SET_A_OR_B_BELOW;

/// The zone of a reading on a chart with this centre and sigma. A reading on a limit belongs to the inner zone; one on the centre has a
/// zone of its own, [`C0`].
///
/// Refused by 1.
///
/// ```
/// use catrovindy::{zone, A1, C0, C1, S};
/// assert_eq!((zone(131, 100, 10), zone(130, 100, 10)), (Ok(S), Ok(A1)));
/// assert_eq!((zone(101, 100, 10), zone(100, 100, 10)), (Ok(C1), Ok(C0)));
/// ```
pub fn zone(reading: i32, centre: i32, sigma: u32) -> Result<u32, Refusal> {
    let mut zone = 0;
    // SAFETY: `zone` is one number.
    Refusal::check(unsafe { raw::catrovindy_zone(reading, centre, sigma, &mut zone) })?;
    Ok(zone)
}
