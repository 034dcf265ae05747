//! Compares the zone of a reading, the monitor's step and the batch of readings with the second implementation on many calls, accepted and
//! refused: the answer, the next monitor, and on a refusal all that was lent. Each batch is compared with single steps of the proved
//! library too, and every rule that holds must have the zone of the point in its set: one on the centre signals by rules with C0 alone.
use bench::inputs::Source;
use bench::tally::Tally;
use bench::{lent, monitor, ring, Refusal, Rule};
use catrovindy::{zone, Batch, Monitor, RuleList, C0};

/// What was met besides refusals.
#[derive(Default)]
struct Met {
    zones: Tally,
    centred: u64,
    steps: Tally,
    batches: Tally,
    quiet: u64,
    signals: u64,
    readings: u64,
    ended: u64,
    signalled: u64,
    signalled_on_centre: u64,
    full: u64,
}

/// The zone of a reading by the exported function, by the Rust layer and by the second implementation.
fn same_zone(met: &mut Met, reading: i32, (centre, sigma): (i32, u32)) {
    let ours = lent::zone(reading, centre, sigma);
    assert_eq!(ours, ring::zone(reading, centre, sigma).map(u32::from), "reading {reading} centre {centre} sigma {sigma}");
    assert_eq!(ours, zone(reading, centre, sigma), "the Rust layer: reading {reading} centre {centre} sigma {sigma}");
    met.zones.add(&ours);
    met.centred += u64::from(ours == Ok(C0));
}

/// Whether each rule of a mask has the zone in its set. A monitor that is accepted has too few hits for any rule, so that a point outside a
/// rule's set never makes it hold.
fn in_sets(rules: &[Rule], mask: u32, zone: u32) -> bool {
    rules.iter().enumerate().all(|(i, rule)| mask >> i & 1 == 0 || rule.zones >> zone & 1 == 1)
}

/// One step by the exported function, by the Rust layer and by the second implementation: the monitor for the next one.
fn same_step(met: &mut Met, rules: &[Rule], given: Monitor, zone: u32) -> Option<Monitor> {
    let ours = lent::step(rules, given, zone);
    assert_eq!(ours, monitor::step(rules, given, zone), "{rules:?} {given:?} zone {zone}");
    let mut at = given;
    let wrapped = at.step(&lent::list(rules), zone).map(|point| (point, at));
    assert_eq!(wrapped, ours, "the Rust layer: {rules:?} {given:?} zone {zone}");
    assert!(wrapped.is_ok() || at == given, "a refusal altered the monitor: {rules:?} {given:?} zone {zone}");
    met.steps.add(&ours);
    let (point, next) = ours.ok()?;
    assert!(in_sets(rules, point.mask, zone), "a rule without the point's zone: {rules:?} {given:?} zone {zone} {point:?}");
    if point.is_signal() {
        met.signals += 1;
    } else {
        met.quiet += 1;
    }
    Some(next)
}

/// Up to thirty points from a monitor on; a refused point is followed by others.
fn walk(met: &mut Met, source: &mut Source) {
    let rules = source.chart_rules();
    let mut at = source.monitor(&rules);
    let mut refused = 0;
    for _ in 0..30 {
        match same_step(met, &rules, at, source.zone()) {
            Some(next) => at = next,
            None => refused += 1,
        }
        if refused == 3 {
            return;
        }
    }
}

/// A batch as single calls of the proved library's zone and step.
fn by_steps(list: &RuleList, given: Monitor, centre: i32, sigma: u32, readings: &[i32]) -> Result<(Batch, Monitor), Refusal> {
    let (mut at, mut count) = (given, given.points);
    // a batch of no readings is refused as one reading is; the rules come before sigma
    list.check()?;
    let mut tried = given;
    tried.step(list, zone(centre, centre, sigma)?).map(drop)?;
    for (taken, &reading) in readings.iter().enumerate() {
        match at.step(list, zone(reading, centre, sigma)?) {
            Err(refusal) => {
                assert_eq!((refusal.number, refusal.place), (7, 0), "only the count can refuse a later reading");
                return Ok((Batch::Full { taken }, at));
            }
            Ok(point) if point.is_signal() => return Ok((Batch::Signal { taken: taken + 1, count: point.count, mask: point.mask }, at)),
            Ok(point) => count = point.count,
        }
    }
    Ok((Batch::Quiet { taken: readings.len(), count }, at))
}

/// One batch by the exported function, by the Rust layer, by single steps and by the second implementation.
fn same_batch(met: &mut Met, rules: &[Rule], given: Monitor, (centre, sigma): (i32, u32), readings: &[i32]) -> Option<(Batch, Monitor)> {
    let list = lent::list(rules);
    let ours = lent::batch(rules, given, centre, sigma, readings);
    let call = || format!("{rules:?} {given:?} centre {centre} sigma {sigma} {readings:?}");
    assert_eq!(ours, monitor::batch(rules, given, centre, sigma, readings), "{}", call());
    assert_eq!(ours, by_steps(&list, given, centre, sigma, readings), "by steps: {}", call());
    let mut at = given;
    let wrapped = at.take(&list, centre, sigma, readings).map(|batch| (batch, at));
    assert_eq!(wrapped, ours, "the Rust layer: {}", call());
    assert!(wrapped.is_ok() || at == given, "a refusal altered the monitor: {}", call());
    met.batches.add(&ours);
    let (batch, next) = ours.ok()?;
    met.readings += batch.taken() as u64;
    match batch {
        Batch::Full { .. } => met.full += 1,
        Batch::Signal { taken, mask, .. } => {
            let last = zone(readings[taken - 1], centre, sigma).expect("sigma in bounds");
            assert!(in_sets(rules, mask, last), "a rule without the last reading's zone: {}", call());
            met.signalled += 1;
            met.signalled_on_centre += u64::from(last == C0);
        }
        Batch::Quiet { .. } => met.ended += 1,
    }
    Some((batch, next))
}

/// A series in batches: after each signal the rest is handed over.
fn series(met: &mut Met, source: &mut Source) {
    let rules = source.chart_rules();
    let mut at = source.monitor(&rules);
    let chart = source.chart();
    let readings = source.readings(chart.0, chart.1);
    for &reading in &readings {
        same_zone(met, reading, chart);
    }
    let mut left = &readings[..];
    while let Some((batch, next)) = same_batch(met, &rules, at, chart, left) {
        if left.is_empty() {
            return;
        }
        (at, left) = (next, &left[batch.taken()..]);
    }
}

fn main() {
    let count: u64 = std::env::args().nth(1).map_or(150_000, |a| a.parse().expect("a number of walks"));
    let mut met = Met::default();
    let mut source = Source::new(5);
    for _ in 0..count {
        walk(&mut met, &mut source);
        series(&mut met, &mut source);
    }
    let Met { zones, centred, steps, batches, quiet, signals, readings, ended, signalled, signalled_on_centre, full } = met;
    zones.report("zone", &format!(" ({centred} on the centre)"), &[1]);
    steps.report("step", &format!(" ({quiet} quiet, {signals} signals)"), &[2, 3, 4, 5, 6, 7]);
    let signalled_where = format!("{signalled} to a signal, {signalled_on_centre} of them on the centre");
    let more = format!(" ({readings} readings; {ended} to the end, {signalled_where}, {full} to a full count)");
    batches.report("batch", &more, &[1, 2, 3, 4, 5, 7]);
    assert!(steps.accepted >= 1_000_000 || count < 150_000, "fewer than a million steps were taken");
    assert!(ended > 0 && signalled > 0 && full > 0, "a way to stop was not met");
    assert!(10 * centred >= zones.accepted && signalled_on_centre > 0, "readings on the centre came too seldom");
}
