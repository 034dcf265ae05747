//! A soak from Rust: plan it with the run-length table, then run the chart on the readings. soak.c does the same from C and C++, and all
//! print the same lines. See build.sh for the commands.
use catrovindy::{monitor_report, shift_weights, table, table_report, version, weights_report, zone};
use catrovindy::{Batch, BoxPlot, Bracket, Monitor, PlotItem, Refusal, Rule, RuleList, Table, Weights};
use catrovindy::{SET_A_OR_B_ABOVE, SET_S, VERSION, VERSION_NUMBER};
use std::io::Write;

const HORIZON: u32 = 1000;
const CENTRE: i32 = 50_000;
const SIGMA: u32 = 400;
/// In hundredths of sigma.
const SHIFT: i32 = 100;

const RULES: RuleList = RuleList::western_electric();

const PERCENTS: [u32; 5] = [5, 25, 50, 75, 95];

/// Session counts of a core; from the 13th on they are about one sigma higher.
const READINGS: [i32; 28] = [
    50129, 49755, 50437, 49835, 49557, 50333, 50127, 50230, 49745, 50137, 49801, 49636, 50160, 50616, 50516, 51024, 50704, 50187, 50515,
    50073, 50419, 50105, 50028, 50229, 50866, 49909, 50543, 50515,
];

const TABLE_TEXT: &[u8] = b"weights,0,536870912,0,0,536870912,0,0,0\nrule,2,2,2\nhorizon,4\n";
const MONITOR_TEXT: &[u8] = b"chart,100,10\nrule,1,1,1\nrule,2,3,2\npoint,3,121\npoint,15,131\npoint,3,100\npoint,3,121\n";
const WEIGHTS_TEXT: &[u8] = b"shift,100\n";

/// Before all else: does the library belong to the crate, and are the rules accepted?
fn check() -> Result<(), Box<dyn std::error::Error>> {
    if version() != VERSION_NUMBER {
        return Err("the library is not the one of this crate".into());
    }
    RULES.check()?;
    println!("version,{VERSION}");
    Ok(())
}

/// The chance of a signal by n: the exact one is at least the first and less than the second, in units of 2^-60.
fn print_by(n: u32, table: &Table) {
    let (low, high) = table.signal_by(n).unwrap_or_default();
    println!("by,{n},{low},{high}");
}

/// Where a percentile of the run length lies.
fn print_percentile(percent: u32, table: &Table) -> Result<(), Refusal> {
    match table.bracket(percent)? {
        Bracket::At(n) => println!("percentile,{percent},at,{n}"),
        Bracket::Between(low, high) => println!("percentile,{percent},between,{low},{high}"),
        Bracket::Open(low) => println!("percentile,{percent},open,{low}"),
        Bracket::Beyond(h) => println!("percentile,{percent},beyond,{h}"),
    }
    Ok(())
}

/// (a) How likely is a sound core to be flagged, and (b) after how many points?
fn plan(in_control: &Weights) -> Result<(), Refusal> {
    let table = Table::new(&RULES, in_control, HORIZON)?;
    let figures = table.figures;
    // N, the number of states that differ: every bound below has it
    println!("states,{}", figures.states);
    print_by(48, &table);
    print_by(HORIZON, &table);
    // the exact mean is at least this, and at most the last number of units more
    let h = u64::from(HORIZON);
    println!("mean,{},{},{}", figures.mean_whole, figures.mean_fraction, u64::from(figures.states) * h * (h - 1) / 2);
    PERCENTS.into_iter().try_for_each(|percent| print_percentile(percent, &table))
}

/// (c) And a core whose mean is one sigma too high?
fn plan_shifted() -> Result<(), Refusal> {
    let table = Table::new(&RULES, &shift_weights(SHIFT)?, HORIZON)?;
    print!("shift,{SHIFT},");
    print_by(48, &table);
    print!("shift,{SHIFT},");
    print_percentile(50, &table)
}

/// (d) The sound core's percentiles and mean as doubles, for a plotter; over 100 points only, so that the last ones lie beyond.
fn plot(in_control: &Weights) -> Result<(), Refusal> {
    let plot = BoxPlot::new(&RULES, in_control, 100)?;
    for (percent, item) in PERCENTS.into_iter().zip([plot.p5, plot.p25, plot.p50, plot.p75, plot.p95]) {
        match item {
            PlotItem::Point(n) => println!("plot,{percent},point,{n:.1}"),
            PlotItem::Span(low, high) => println!("plot,{percent},span,{low:.1},{high:.1}"),
            PlotItem::Open(low) => println!("plot,{percent},open,{low:.1}"),
            PlotItem::Beyond(h) => println!("plot,{percent},beyond,{h:.1}"),
        }
    }
    println!("plot,mean,{:.12},{:.12}", plot.lower, plot.upper);
    match plot.iqr {
        Some(iqr) => println!("plot,iqr,{iqr:.1}"),
        None => println!("plot,iqr,none"),
    }
    Ok(())
}

/// (e) The chart, reading by reading, from a fresh monitor.
fn watch() -> Result<Monitor, Refusal> {
    let mut monitor = Monitor::fresh();
    for (i, &reading) in READINGS.iter().enumerate() {
        let point = monitor.step(&RULES, zone(reading, CENTRE, SIGMA)?)?;
        if point.is_signal() {
            println!("step,{},signal,{},{}", i + 1, point.count, point.mask);
        }
    }
    println!("steps,{},{},{}", READINGS.len(), monitor.state, monitor.points);
    Ok(monitor)
}

/// (f) The same series in batches: each stops at a signal, and the next one takes up the rest.
fn watch_batches() -> Result<Monitor, Refusal> {
    let mut monitor = Monitor::fresh();
    let mut done = 0;
    while done < READINGS.len() {
        let batch = monitor.take(&RULES, CENTRE, SIGMA, &READINGS[done..])?;
        done += batch.taken();
        let why = match batch {
            Batch::Signal { .. } => "signal",
            Batch::Full { .. } => "full",
            Batch::Quiet { .. } => "end",
        };
        println!("batch,{},{why},{},{}", batch.taken(), batch.last().count, batch.last().mask);
    }
    println!("batches,{done},{},{}", monitor.state, monitor.points);
    Ok(monitor)
}

/// (g) A signal by two rules at once: of a list of one's own, the rules with index 0 and 1 hold at the second point.
fn both() -> Result<(), Refusal> {
    let own = RuleList::new()
        .with(Rule::new(2, 2, SET_A_OR_B_ABOVE)) // both of the last two in A or B above the centre
        .with(Rule::new(2, 3, SET_A_OR_B_ABOVE)) // two of the last three
        .with(Rule::new(1, 1, SET_S)); // one beyond three sigma
    let sigma = SIGMA as i32;
    let batch = Monitor::fresh().take(&own, CENTRE, SIGMA, &[CENTRE + 2 * sigma, CENTRE + 2 * sigma + 1, CENTRE])?;
    let mask = batch.last().mask;
    let names: String = (0..3).filter(|i| mask >> i & 1 == 1).map(|i| format!(",rule {i}")).collect();
    println!("both,{},{mask}{names}", batch.taken());
    Ok(())
}

/// (h) A refusal: the second rule's set has a zone that does not exist. All that was lent is as it was.
fn refusal(in_control: &Weights) {
    let wrong: RuleList = RULES.rules().enumerate().map(|(i, rule)| if i == 1 { Rule { zones: 256, ..rule } } else { rule }).collect();
    let (mut pmf, mut survival) = ([7; 3], [8; 3]);
    match table(&wrong, in_control, 3, &mut pmf, &mut survival) {
        Ok(_) => println!("accepted"),
        Err(refusal) => {
            let kept = if (pmf, survival) == ([7; 3], [8; 3]) { "kept" } else { "altered" };
            println!("refused,{},{},{kept}", refusal.number, refusal.place);
            println!("meaning,{}", refusal.meaning());
        }
    }
}

/// (i) The three programs, text in and text out.
fn reports() -> Result<(), Box<dyn std::error::Error>> {
    let mut out = std::io::stdout();
    out.write_all(&table_report(TABLE_TEXT)?)?;
    out.write_all(&monitor_report(MONITOR_TEXT)?)?;
    out.write_all(&weights_report(WEIGHTS_TEXT)?)?;
    Ok(())
}

fn main() -> Result<(), Box<dyn std::error::Error>> {
    check()?;
    // a normal reading on a chart with the right centre and sigma: the chance of each zone, S A1 B1 C1 C2 B2 A2 C0, in units of 2^-30
    let in_control = shift_weights(0)?;
    plan(&in_control)?;
    plan_shifted()?;
    plot(&in_control)?;
    let (monitor, batched) = (watch()?, watch_batches()?);
    println!("{}", if monitor == batched { "alike" } else { "different" });
    both()?;
    refusal(&in_control);
    reports()
}
