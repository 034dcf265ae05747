//! The monitor step of document 01, and readings taken one after another, on standings as lists of ages.
use crate::chart::{self, Standing};
use crate::ring::zone;
use crate::{refuse, Refusal, Rule};
use catrovindy::{Batch, Monitor, Point};

/// The windows of a state: byte i is the window of rule i, and its bit a - 1 a hit of age a.
pub fn windows(state: u64) -> Standing {
    let hits = |byte: u8| (1..=8).filter(|age| byte >> (age - 1) & 1 == 1).collect();
    state.to_le_bytes().map(hits).to_vec()
}

/// The state of a standing.
pub fn state(standing: &[Vec<u32>]) -> u64 {
    standing.iter().enumerate().flat_map(|(i, ages)| ages.iter().map(move |age| 1 << (8 * i as u32 + age - 1))).sum()
}

/// The sentence of refusal 5, part by part.
fn turned_down(rules: &[Rule], given: &[Vec<u32>], count: u32) -> bool {
    let (own, beyond) = given.split_at(rules.len());
    let full = |rule: &Rule, hits: &[u32]| hits.len() as u32 >= rule.k;
    let to_forget = |rule: &Rule, hits: &[u32]| hits.iter().any(|&age| !chart::remembered(rule, hits, age));
    let too_old = |hits: &[u32]| hits.iter().any(|&age| age > count);
    rules.iter().zip(own).any(|(rule, hits)| full(rule, hits) || to_forget(rule, hits) || too_old(hits))
        || beyond.iter().any(|hits| !hits.is_empty())
}

/// One point: what it does, and the monitor for the next one. Refused by 2, 3, 4; 6; 5; 7.
pub fn step(rules: &[Rule], given: Monitor, zone: u32) -> Result<(Point, Monitor), Refusal> {
    chart::check(rules)?;
    if zone > 7 {
        return refuse(6, 0);
    }
    let windows = windows(given.state);
    if turned_down(rules, &windows, given.points) {
        return refuse(5, 0);
    }
    if given.points == 4_294_967_295 {
        return refuse(7, 0);
    }
    let count = given.points + 1;
    let mask = chart::mask(rules, &windows, zone as usize);
    let next = match mask {
        0 => Monitor { state: state(&chart::after(rules, &windows, zone as usize)), points: count },
        _ => Monitor { state: 0, points: 0 },
    };
    Ok((Point { count, mask }, next))
}

/// One reading: 2, 3, 4; 1; then as the step in its zone.
fn reading(rules: &[Rule], given: Monitor, centre: i32, sigma: u32, reading: i32) -> Result<(Point, Monitor), Refusal> {
    chart::check(rules)?;
    step(rules, given, u32::from(zone(reading, centre, sigma)?))
}

/// Readings until one signals, the count is full, or none is left: how far it came, and the monitor for the next one. Refused as a first
/// reading is, whatever it may be; so too where there is none.
pub fn batch(rules: &[Rule], given: Monitor, centre: i32, sigma: u32, readings: &[i32]) -> Result<(Batch, Monitor), Refusal> {
    let (mut at, mut count) = (given, given.points);
    reading(rules, given, centre, sigma, centre).map(drop)?;
    for (taken, &r) in readings.iter().enumerate() {
        match reading(rules, at, centre, sigma, r) {
            Err(refusal) => {
                assert!(refusal.number == 7 && taken > 0, "only the count can refuse a later reading");
                return Ok((Batch::Full { taken }, at));
            }
            Ok((Point { count, mask }, next)) if mask != 0 => return Ok((Batch::Signal { taken: taken + 1, count, mask }, next)),
            Ok((point, next)) => (count, at) = (point.count, next),
        }
    }
    Ok((Batch::Quiet { taken: readings.len(), count }, at))
}
