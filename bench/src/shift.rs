//! The weights of a shifted core, and the table of normal areas they are taken from, recomputed in whole numbers. Each area has a lower
//! and an upper bound, rounded down and rounded up at every step, which leave one nearest number.
use crate::{refuse, Refusal, ZONES};
use std::sync::LazyLock;

/// The entries of the table of areas: z = 0.00 to 4.50.
pub const AREAS: usize = 451;

/// The largest shift, in hundredths of sigma; the least is its negative.
const MAX_SHIFT: i32 = 150;

/// What stands for one in the sums.
const ONE: u128 = 1 << 60;

/// What stands for one in an area: no sum is over 2^15 times one, so that 128 bits have room for it that many times.
const AREA_ONE: u128 = 1 << 52;

/// The parts of a unit, which is 2^-30.
const PARTS: u128 = AREA_ONE >> 30;

/// A number that is at least the first and at most the second.
#[derive(Clone, Copy)]
struct Bounds {
    low: u128,
    high: u128,
}

impl Bounds {
    /// One times a fraction.
    fn fraction(over: u128, under: u128) -> Bounds {
        Bounds { low: ONE, high: ONE }.times(over, under)
    }

    fn times(self, over: u128, under: u128) -> Bounds {
        Bounds { low: self.low * over / under, high: (self.high * over).div_ceil(under) }
    }

    fn plus(self, other: Bounds) -> Bounds {
        Bounds { low: self.low + other.low, high: self.high + other.high }
    }

    fn minus(self, other: Bounds) -> Bounds {
        Bounds { low: self.low - other.high, high: self.high - other.low }
    }
}

/// The sum of a series of terms not below 0, from its first term and k × k: term j + 1 is term j times k × k over `under(j)`, which grows
/// with j. Where the factor is at most a half, all that follows a term is at most the term.
fn series(first: Bounds, square: u128, under: impl Fn(u128) -> u128) -> Bounds {
    let (mut sum, mut term, mut j) = (first, first, 0);
    while term.high > 1 || 2 * square > under(j) {
        term = term.times(square, under(j));
        sum = sum.plus(term);
        j += 1;
    }
    Bounds { low: sum.low, high: sum.high + term.high }
}

/// The sum of z^(2j+1) / (1 × 3 × 5 × ... × (2j + 1)), for z = k / 100.
fn odd_series(k: u128) -> Bounds {
    series(Bounds::fraction(k, 100), k * k, |j| 10_000 * (2 * j + 3))
}

/// e to the power of z × z / 2, for z = k / 100: the sum of (z × z / 2)^j / (1 × 2 × ... × j).
fn exponential(k: u128) -> Bounds {
    series(Bounds::fraction(1, 1), k * k, |j| 20_000 * (j + 1))
}

/// The arc tangent of 1 / x: the powers over the odd numbers, added and taken off in turn. What follows is less than the first that is left
/// out, and that is at most the last power.
fn arc_tangent(x: u128) -> Bounds {
    let none = Bounds { low: 0, high: 0 };
    let (mut added, mut taken_off) = (none, none);
    let (mut power, mut odd) = (Bounds::fraction(1, x), 1);
    while power.high > 1 {
        added = added.plus(power.times(1, odd));
        power = power.times(1, x * x);
        taken_off = taken_off.plus(power.times(1, odd + 2));
        power = power.times(1, x * x);
        odd += 4;
    }
    let sum = added.minus(taken_off);
    Bounds { low: sum.low - power.high, high: sum.high + power.high }
}

/// The square root of twice pi, which is 16 times the arc tangent of 1 / 5 less 4 times that of 1 / 239.
fn root_of_two_pi() -> Bounds {
    let pi = arc_tangent(5).times(16, 1).minus(arc_tangent(239).times(4, 1));
    Bounds { low: (2 * pi.low * ONE).isqrt(), high: (2 * pi.high * ONE).isqrt() + 1 }
}

/// The area from 0 to z = k / 100, in parts: the odd series over the exponential and the root.
fn area(k: u128, root: Bounds) -> Bounds {
    let (sum, power) = (odd_series(k), exponential(k));
    let low = sum.low * AREA_ONE / power.high;
    let high = (sum.high * AREA_ONE).div_ceil(power.low);
    Bounds { low: low * ONE / root.high, high: (high * ONE).div_ceil(root.low) }
}

/// The one whole number of units that an area between these bounds is nearest to.
fn nearest(area: Bounds) -> u32 {
    let units = (area.low + PARTS / 2) / PARTS;
    let inside = area.low + PARTS / 2 > units * PARTS && area.high < units * PARTS + PARTS / 2;
    assert!(inside, "the bounds leave two numbers: {} and {} parts", area.low, area.high);
    units as u32
}

static TABLE: LazyLock<[u32; AREAS]> = LazyLock::new(|| {
    let root = root_of_two_pi();
    std::array::from_fn(|k| nearest(area(k as u128, root)))
});

/// The normal area from 0 to k / 100 in units of 2^-30, to the nearest, for k = 0 to 450. It is computed once.
pub fn areas() -> &'static [u32; AREAS] {
    &TABLE
}

/// The weights of a normal reading whose mean is off the centre by so many hundredths of sigma, by a table of areas. Refused by 18.
pub fn weights_by(areas: &[u32; AREAS], shift: i32) -> Result<[u32; ZONES], Refusal> {
    if !(-MAX_SHIFT..=MAX_SHIFT).contains(&shift) {
        return refuse(18, 0);
    }
    let g = |z: i32| i64::from(areas[z.unsigned_abs() as usize]) * i64::from(z.signum());
    let between = |low: i32, high: i32| g(high - shift) - g(low - shift);
    let (a1, b1, c1) = (between(200, 300), between(100, 200), between(0, 100));
    let (c2, b2, a2) = (between(-100, 0), between(-200, -100), between(-300, -200));
    let s = (1 << 30) - (a1 + b1 + c1 + c2 + b2 + a2);
    Ok([s, a1, b1, c1, c2, b2, a2, 0].map(|weight| u32::try_from(weight).expect("a weight of 32 bits, not below 0")))
}

/// As above, by the areas that were recomputed here.
pub fn weights(shift: i32) -> Result<[u32; ZONES], Refusal> {
    weights_by(areas(), shift)
}
