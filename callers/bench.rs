//! A bench of sixteen cores from Rust: a monitor for each node, one chart and one rule list for all. It prints, point by point, what the monitor
//! program prints for the same points, and holds its lines against that program's, byte by byte. bench.c does the same from C and C++. See
//! build.sh for the commands.
use catrovindy::{monitor_report, zone, Monitor, Refusal, RuleList, NODES};

const CENTRE: i32 = 50_000;
const SIGMA: u32 = 400;

const RULES: RuleList = RuleList::western_electric();

/// Session counts, a row for each period, from cores on four of the nodes: 15 jumps once, 3 runs high, 0 is sound, 7 runs a little low.
const CORES: [usize; 4] = [15, 3, 0, 7];
const READINGS: [[i32; 4]; 9] = [
    [50230, 50437, 50129, 49835],
    [49745, 50616, 49755, 49957],
    [51304, 50127, 50333, 49801],
    [50160, 50704, 49636, 49933],
    [49909, 50516, 50187, 49681],
    [50028, 50419, 49975, 49990],
    [50105, 50866, 50229, 49872],
    [49917, 50515, 49843, 49760],
    [50014, 50543, 50073, 49888],
];

/// The points as they come, each a node and a reading.
fn points() -> impl Iterator<Item = (usize, i32)> {
    READINGS.into_iter().flat_map(|period| CORES.into_iter().zip(period))
}

/// What the bench keeps of a core: its monitor, and all its points and signals. The monitor's count starts again after a signal, the number of
/// all points does not: it is the period of a point.
#[derive(Clone, Copy, Default)]
struct Node {
    monitor: Monitor,
    points: u32,
    signals: u32,
}

/// (a) A point goes to the monitor of its node, and no other monitor is touched.
fn chart(nodes: &mut [Node; NODES], node: usize, reading: i32) -> Result<String, Refusal> {
    let point = nodes[node].monitor.step(&RULES, zone(reading, CENTRE, SIGMA)?)?;
    nodes[node].points += 1;
    let period = nodes[node].points;
    if point.is_signal() {
        nodes[node].signals += 1;
        return Ok(format!("signal,{node},{},{},{period}\n", point.count, point.mask));
    }
    Ok(format!("quiet,{node},{},{period}\n", point.count))
}

/// (b) At the end a total for each node that has points.
fn total(nodes: &[Node; NODES]) -> String {
    let with_points = nodes.iter().enumerate().filter(|(_, of)| of.points > 0);
    with_points.map(|(node, of)| format!("total,{node},{},{}\n", of.points, of.signals)).collect()
}

/// (c) The same points as a text for the monitor program.
fn text() -> String {
    let rules: String = RULES.rules().map(|rule| format!("rule,{},{},{}\n", rule.k, rule.m, rule.zones)).collect();
    let points: String = points().map(|(node, reading)| format!("point,{node},{reading}\n")).collect();
    format!("chart,{CENTRE},{SIGMA}\n{rules}{points}")
}

fn main() -> Result<(), Box<dyn std::error::Error>> {
    let mut nodes = [Node::default(); NODES];
    let mut lines = String::new();
    for (node, reading) in points() {
        lines += &chart(&mut nodes, node, reading)?;
    }
    lines += &total(&nodes);
    print!("{lines}");
    if monitor_report(text().as_bytes())? != lines.as_bytes() {
        return Err("the monitor program prints other lines".into());
    }
    Ok(())
}
