//! One node of a bench by itself: a text with the points of this node alone, and the lines that are printed for it.
use crate::format::{lines, number};
use crate::monitor_program::point_line;

/// The lines that are kept, each with its end.
fn kept<'a>(lines: &[&'a [u8]], keep: impl Fn(&'a [u8]) -> bool) -> Vec<u8> {
    lines.iter().filter(|line| keep(line)).flat_map(|line| [line, &b"\n"[..]].concat()).collect()
}

/// The nodes of a text's points, each once and in order.
pub fn nodes(text: &[u8]) -> Vec<u32> {
    let mut found: Vec<u32> = lines(text).0.into_iter().filter_map(point_line).map(|(node, _)| node).collect();
    found.sort_unstable();
    found.dedup();
    found
}

/// A text that can be read, without the points of other nodes.
pub fn text_of(text: &[u8], node: u32) -> Vec<u8> {
    kept(&lines(text).0, |line| point_line(line).is_none_or(|(of, _)| of == node))
}

/// The opening lines of a text that can be read: all but its points.
pub fn opening(text: &[u8]) -> Vec<u8> {
    kept(&lines(text).0, |line| point_line(line).is_none())
}

fn fields(line: &[u8]) -> Vec<&[u8]> {
    line.split(|&b| b == b',').collect()
}

/// The lines that have the node behind their first word.
pub fn lines_of(printed: &[u8], node: u32) -> Vec<u8> {
    let node = node.to_string();
    kept(&lines(printed).0, |line| fields(line).get(1) == Some(&node.as_bytes()))
}

/// The count and the period of a point's line, and whether it signals. The period is the last field.
fn point(line: &[u8]) -> Option<(u32, u32, bool)> {
    match fields(line)[..] {
        [b"quiet", _, n, period] => Some((number(n)?, number(period)?, false)),
        [b"signal", _, n, _, period] => Some((number(n)?, number(period)?, true)),
        _ => None,
    }
}

/// How many lines of points a node has, if their periods are 1, 2, 3 and so on up to the points of its total, its last line, and each is what
/// the run lengths before it and its own count add up to; and how many of them come behind a clearing.
pub fn periods(own: &[u8]) -> Option<(u64, u64)> {
    let (own, _) = lines(own);
    let (total, points) = own.split_last()?;
    let [b"total", _, all, _] = fields(total)[..] else { return None };
    if number(all)? as usize != points.len() {
        return None;
    }
    let (mut runs, mut cleared) = (0, 0);
    for (line, place) in points.iter().zip(1..) {
        let (n, period, signal) = point(line)?;
        if period != place || period != runs + n {
            return None;
        }
        cleared += u64::from(runs > 0);
        runs += if signal { n } else { 0 };
    }
    Some((points.len() as u64, cleared))
}
