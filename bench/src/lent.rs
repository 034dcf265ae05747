//! The exported functions with arrays of the caller's own. Each function here looks at all that was lent where a call is refused, and at
//! the two places that must be alike; what is accepted it gives back as the Rust layer does.
use crate::{Refusal, Rule, ZONES};
use catrovindy::{raw, Batch, BoxPlot, Bracket, Figures, Monitor, PlotItem, Point, RuleList};
use std::fmt::Debug;

/// Eight slots of k, m and Z, the unused ones filled with what must not be looked at; what does not fit is cut off, and the count still says
/// how many rules there are.
fn slots(rules: &[Rule]) -> ([u32; raw::SLOTS], u32) {
    let mut slots = [0xBAD0_F00D; raw::SLOTS];
    for (slot, r) in slots.chunks_exact_mut(3).zip(rules) {
        slot.copy_from_slice(&[r.k, r.m, r.zones]);
    }
    (slots, rules.len() as u32)
}

/// What a code says: accepted, or the refusal; a refusal leaves what was lent as it was.
fn told<T: PartialEq + Debug>(code: u64, lent: T, kept: T) -> Result<(), Refusal> {
    let told = Refusal::check(code);
    if told.is_err() {
        assert_eq!(lent, kept, "a refusal altered what was lent");
    }
    told
}

/// The list as the Rust layer takes it.
pub fn list(rules: &[Rule]) -> RuleList {
    RuleList::from(rules)
}

pub fn zone(reading: i32, centre: i32, sigma: u32) -> Result<u32, Refusal> {
    let mut zone = [77u32];
    // SAFETY: the array has one place.
    let code = unsafe { raw::catrovindy_zone(reading, centre, sigma, zone.as_mut_ptr()) };
    told(code, zone, [77])?;
    Ok(zone[0])
}

pub fn step(rules: &[Rule], given: Monitor, zone: u32) -> Result<(Point, Monitor), Refusal> {
    let (slots, count) = slots(rules);
    let (mut state, mut points, mut answer) = ([given.state], [given.points], [0xA5A5u32, 0x5A5A]);
    // SAFETY: the arrays have the sizes that the header gives.
    let code = unsafe {
        raw::catrovindy_step(slots.as_ptr(), count, state.as_mut_ptr(), points.as_mut_ptr(), zone, answer.as_mut_ptr())
    };
    told(code, (state, points, answer), ([given.state], [given.points], [0xA5A5, 0x5A5A]))?;
    Ok((Point { count: answer[0], mask: answer[1] }, Monitor { state: state[0], points: points[0] }))
}

pub fn batch(rules: &[Rule], given: Monitor, centre: i32, sigma: u32, readings: &[i32]) -> Result<(Batch, Monitor), Refusal> {
    let (slots, count) = slots(rules);
    let kept = [u64::MAX, 1 << 40, 77, 78];
    let (mut state, mut points, mut answer) = ([given.state], [given.points], kept);
    // SAFETY: the arrays have the sizes that the header gives, and the readings come with their length.
    let code = unsafe {
        raw::catrovindy_batch(
            slots.as_ptr(),
            count,
            state.as_mut_ptr(),
            points.as_mut_ptr(),
            centre,
            sigma,
            readings.as_ptr(),
            readings.len(),
            answer.as_mut_ptr(),
        )
    };
    told(code, (state, points, answer), ([given.state], [given.points], kept))?;
    let small = |x: u64| u32::try_from(x).expect("32 bits");
    let (taken, count) = (answer[0] as usize, small(answer[1]));
    let batch = match answer {
        [_, _, 0, 0] => Batch::Quiet { taken, count },
        [_, _, mask, 0] => Batch::Signal { taken, count, mask: small(mask) },
        [_, 4_294_967_295, 0, 7] if taken > 0 => Batch::Full { taken },
        other => panic!("no such answer: {other:?}"),
    };
    Ok((batch, Monitor { state: state[0], points: points[0] }))
}

pub fn table(
    rules: &[Rule],
    weights: &[u32; ZONES],
    horizon: u32,
    pmf: &mut [u64],
    survival: &mut [u64],
) -> Result<Figures, Refusal> {
    let (slots, count) = slots(rules);
    let kept = [7u64, 8, 9, 10];
    let mut figures = kept;
    // SAFETY: the arrays have the sizes that the header gives, and the two lists come with their lengths.
    let code = unsafe {
        raw::catrovindy_table(
            slots.as_ptr(),
            count,
            weights.as_ptr(),
            horizon,
            pmf.as_mut_ptr(),
            pmf.len(),
            survival.as_mut_ptr(),
            survival.len(),
            figures.as_mut_ptr(),
        )
    };
    told(code, figures, kept)?;
    let [states, survival, mean_whole, mean_fraction] = figures;
    Ok(Figures { states: u32::try_from(states).expect("32 bits"), survival, mean_whole, mean_fraction })
}

pub fn bracket(chances: &[u64], states: u32, percent: u32) -> Result<Bracket, Refusal> {
    let kept = [9u32, 9, 9];
    let mut answer = kept;
    // SAFETY: the array has the size that the header gives, and the list comes with its length.
    let code = unsafe { raw::catrovindy_bracket(chances.as_ptr(), chances.len(), states, percent, answer.as_mut_ptr()) };
    told(code, answer, kept)?;
    Ok(match answer {
        [1, first, second] if first == second => Bracket::At(first),
        [2, low, high] => Bracket::Between(low, high),
        [3, low, 0] => Bracket::Open(low),
        [4, h, 0] => Bracket::Beyond(h),
        other => panic!("no such answer: {other:?}"),
    })
}

fn item(kind: u32, values: &[f64]) -> PlotItem {
    let [first, second] = values else { panic!("two doubles") };
    let twice = first.to_bits() == second.to_bits();
    match kind {
        1 if twice => PlotItem::Point(*first),
        2 => PlotItem::Span(*first, *second),
        3 if twice => PlotItem::Open(*first),
        4 if twice => PlotItem::Beyond(*first),
        _ => panic!("no such item: {kind} {values:?}"),
    }
}

pub fn box_plot(
    rules: &[Rule],
    weights: &[u32; ZONES],
    horizon: u32,
    pmf: &mut [u64],
    survival: &mut [u64],
) -> Result<BoxPlot, Refusal> {
    let (slots, count) = slots(rules);
    let kept = ([77u32; 6], [-0.5f64; 13]);
    let (mut kinds, mut values) = kept;
    // SAFETY: the arrays have the sizes that the header gives, and the two lists come with their lengths.
    let code = unsafe {
        raw::catrovindy_plot(
            slots.as_ptr(),
            count,
            weights.as_ptr(),
            horizon,
            pmf.as_mut_ptr(),
            pmf.len(),
            survival.as_mut_ptr(),
            survival.len(),
            kinds.as_mut_ptr(),
            values.as_mut_ptr(),
        )
    };
    told(code, (kinds, values), kept)?;
    let at = |i: usize| item(kinds[i], &values[2 * i..2 * i + 2]);
    let iqr = match kinds[5] {
        0 => {
            assert_eq!(values[12].to_bits(), 0, "the interquartile range where there is none");
            None
        }
        1 => Some(values[12]),
        other => panic!("no such mark: {other}"),
    };
    Ok(BoxPlot { p5: at(0), p25: at(1), p50: at(2), p75: at(3), p95: at(4), lower: values[10], upper: values[11], iqr })
}

pub fn shift_weights(shift: i32) -> Result<[u32; ZONES], Refusal> {
    let kept = [0xBAD0_F00Du32; ZONES];
    let mut weights = kept;
    // SAFETY: the array has the size that the header gives.
    let code = unsafe { raw::catrovindy_shift_weights(shift, weights.as_mut_ptr()) };
    told(code, weights, kept)?;
    Ok(weights)
}

type Report = unsafe extern "C" fn(*const u8, usize, *mut u8, *mut u64) -> u64;

/// The bytes of a report in the buffer, whose other places the caller looks at.
///
/// # Safety
/// The buffer has the size that the report's buffer has.
unsafe fn report(call: Report, text: &[u8], out: &mut [u8]) -> Result<usize, Refusal> {
    let mut bytes = [77u64];
    // SAFETY: the text comes with its length, the buffer is the caller's care, and the array has one place.
    let code = unsafe { call(text.as_ptr(), text.len(), out.as_mut_ptr(), bytes.as_mut_ptr()) };
    told(code, bytes, [77])?;
    Ok(bytes[0] as usize)
}

pub fn table_report(text: &[u8], out: &mut [u8; catrovindy::TABLE_SIZE]) -> Result<usize, Refusal> {
    // SAFETY: the buffer has the size of a table report.
    unsafe { report(raw::catrovindy_table_report, text, out) }
}

pub fn monitor_report(text: &[u8], out: &mut [u8; catrovindy::MONITOR_SIZE]) -> Result<usize, Refusal> {
    // SAFETY: the buffer has the size of a monitor report.
    unsafe { report(raw::catrovindy_monitor_report, text, out) }
}

pub fn weights_report(text: &[u8], out: &mut [u8; catrovindy::WEIGHTS_SIZE]) -> Result<usize, Refusal> {
    // SAFETY: the buffer has the size of a weights report.
    unsafe { report(raw::catrovindy_weights_report, text, out) }
}
