//! The monitor program of document 01 with the nodes and the period of document 02, text in and text out, written from their paragraphs.
use crate::format::{lines, number, rules_from, signed};
use crate::ring::{zone, Ring};
use crate::{chart, refuse, Refusal, Rule};
use std::io::Write;

/// The nodes of a bench, 0 to 15.
pub const NODES: usize = 16;

struct MonitorText {
    centre: i32,
    step: u32,
    rules: Vec<Rule>,
    points: Vec<(u32, i32)>,
}

fn chart_line(line: Option<&&[u8]>) -> Option<(i32, u32)> {
    let mut fields = line?.strip_prefix(b"chart,")?.split(|&b| b == b',');
    let found = (signed(fields.next()?)?, number(fields.next()?)?);
    fields.next().is_none().then_some(found)
}

/// The node and the reading of a point line, whatever number the node is.
pub fn point_line(line: &[u8]) -> Option<(u32, i32)> {
    let mut fields = line.strip_prefix(b"point,")?.split(|&b| b == b',');
    let found = (number(fields.next()?)?, signed(fields.next()?)?);
    fields.next().is_none().then_some(found)
}

fn read(text: &[u8]) -> Result<MonitorText, Refusal> {
    if text.len() > 65_536 {
        return refuse(17, 0);
    }
    let (lines, rest) = lines(text);
    let Some((centre, step)) = chart_line(lines.first()) else { return refuse(16, 1) };
    let rules = rules_from(&lines, 1);
    let opening = 1 + rules.len();
    let points: Vec<(u32, i32)> = lines.iter().skip(opening).map_while(|line| point_line(line)).collect();
    let read = opening + points.len();
    if lines.len() > read || !rest.is_empty() {
        return refuse(16, read as u32 + 1);
    }
    if let Some(over) = points.iter().position(|&(node, _)| node > 15) {
        return refuse(19, (opening + over) as u32 + 1);
    }
    Ok(MonitorText { centre, step, rules, points })
}

/// A node's standing, its points and its signals. At a point the period is the number of its node's points, with this one in it.
#[derive(Clone, Default)]
struct Node {
    ring: Ring,
    points: u32,
    signals: u32,
}

/// What the program prints, or the refusal.
pub fn monitor_program(text: &[u8]) -> Result<Vec<u8>, Refusal> {
    let MonitorText { centre, step, rules, points } = read(text)?;
    chart::check(&rules)?;
    zone(0, centre, step)?;
    let mut out = Vec::with_capacity(20 * points.len() + 320);
    let mut nodes: [Node; NODES] = Default::default();
    for (node, reading) in points {
        let Node { ring, points, signals } = &mut nodes[node as usize];
        *points += 1;
        let mask = ring.point(&rules, zone(reading, centre, step)?);
        if mask == 0 {
            writeln!(out, "quiet,{node},{},{points}", ring.count).expect("memory");
        } else {
            writeln!(out, "signal,{node},{},{mask},{points}", ring.count).expect("memory");
            *signals += 1;
            ring.clear();
        }
    }
    for (node, Node { points, signals, .. }) in nodes.iter().enumerate().filter(|(_, node)| node.points > 0) {
        writeln!(out, "total,{node},{points},{signals}").expect("memory");
    }
    Ok(out)
}
