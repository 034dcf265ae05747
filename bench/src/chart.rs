//! The rules of document 01, written out from its paragraphs: standings as lists of ages.
use crate::merge::Moves;
use crate::{refuse, Refusal, Rule};
use std::collections::HashMap;

/// 2, 3 and 4, in their order.
pub fn check(rules: &[Rule]) -> Result<(), Refusal> {
    if rules.is_empty() || rules.len() > 8 {
        return refuse(2, 0);
    }
    for (i, r) in rules.iter().enumerate() {
        if !(1..=9).contains(&r.m) || r.k < 1 || r.k > r.m {
            return refuse(3, i as u32);
        }
        if r.zones == 0 || r.zones > 255 {
            return refuse(4, i as u32);
        }
    }
    Ok(())
}

/// For each rule the ages of the hits that are remembered, the newest first.
pub type Standing = Vec<Vec<u32>>;

pub fn empty(rules: &[Rule]) -> Standing {
    vec![Vec::new(); rules.len()]
}

fn in_set(rule: &Rule, zone: usize) -> bool {
    rule.zones >> zone & 1 == 1
}

/// Whether a hit of this age is remembered, among a rule's hits: the hits of age 1 to a, plus m - a, are at least k.
pub fn remembered(rule: &Rule, hits: &[u32], age: u32) -> bool {
    let newer = hits.iter().filter(|&&b| b <= age).count() as u32;
    age < rule.m && newer + (rule.m - age) >= rule.k
}

/// A rule's hits with one more point, the newest first.
fn with_point(rule: &Rule, ages: &[u32], zone: usize) -> Vec<u32> {
    let mut hits: Vec<u32> = if in_set(rule, zone) { vec![1] } else { Vec::new() };
    hits.extend(ages.iter().map(|a| a + 1));
    hits
}

/// The mask of the rules that hold with a point.
pub fn mask(rules: &[Rule], standing: &[Vec<u32>], zone: usize) -> u32 {
    let holds = |rule: &Rule, ages: &[u32]| with_point(rule, ages, zone).iter().filter(|&&a| a <= rule.m).count() as u32 >= rule.k;
    rules.iter().zip(standing).enumerate().map(|(i, (rule, ages))| u32::from(holds(rule, ages)) << i).sum()
}

/// The standing after a point with which no rule holds.
pub fn after(rules: &[Rule], standing: &[Vec<u32>], zone: usize) -> Standing {
    let next = |(rule, ages): (&Rule, &Vec<u32>)| {
        let hits = with_point(rule, ages, zone);
        hits.iter().copied().filter(|&a| remembered(rule, &hits, a)).collect()
    };
    rules.iter().zip(standing).map(next).collect()
}

/// The standing after a point, or none where some rule holds.
pub fn point(rules: &[Rule], standing: &[Vec<u32>], zone: usize) -> Option<Standing> {
    (mask(rules, standing, zone) == 0).then(|| after(rules, standing, zone))
}

/// The standings met with no signal by sequences of the first so many zones, and where each of these zones leads from each: none for a
/// signal. Refused by 10 over 1,024: that is looked at here, before any are merged.
pub fn standings<const COUNT: usize>(rules: &[Rule]) -> Result<Moves<COUNT>, Refusal> {
    let start = empty(rules);
    let mut places = HashMap::from([(start.clone(), 0usize)]);
    let mut found = vec![start];
    let mut moves = Vec::new();
    let mut at = 0;
    while at < found.len() {
        let here = found[at].clone();
        let mut row = [None; COUNT];
        for (zone, to) in row.iter_mut().enumerate() {
            if let Some(next) = point(rules, &here, zone) {
                let fresh = found.len();
                let place = *places.entry(next.clone()).or_insert(fresh);
                if place == fresh {
                    found.push(next);
                    if found.len() > 1024 {
                        return refuse(10, 0);
                    }
                }
                *to = Some(place);
            }
        }
        moves.push(row);
        at += 1;
    }
    Ok(moves)
}
