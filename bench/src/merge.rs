//! Standings that differ, by pairs. Two standings are told apart where some continuation first signals at another point from one than from
//! the other. One more point tells those apart from which it signals on one side alone; and a pair is told apart where some zone leads it to
//! a pair that is. So the work goes backwards, from the signals to the pairs that lead to them. What is never told apart is one standing.

/// Where each of so many zones leads from each standing: none for a signal. The first standing is the empty one.
pub type Moves<const COUNT: usize> = Vec<[Option<usize>; COUNT]>;

/// The pairs of so many standings, each with its mark: told apart or not.
struct Pairs {
    count: usize,
    apart: Vec<bool>,
    /// Those told apart whose predecessors are still to be looked at.
    open: Vec<(usize, usize)>,
}

impl Pairs {
    fn new(count: usize) -> Pairs {
        Pairs { count, apart: vec![false; count * count], open: Vec::new() }
    }

    fn are_apart(&self, a: usize, b: usize) -> bool {
        self.apart[a * self.count + b]
    }

    /// The pair is told apart, whichever of the two is named first.
    fn tell_apart(&mut self, a: usize, b: usize) {
        if !self.are_apart(a, b) {
            self.apart[a * self.count + b] = true;
            self.apart[b * self.count + a] = true;
            self.open.push((a, b));
        }
    }
}

/// For one zone and each standing, the standings from which this zone leads there.
fn leading_to<const COUNT: usize>(moves: &[[Option<usize>; COUNT]], zone: usize) -> Vec<Vec<usize>> {
    let mut sources = vec![Vec::new(); moves.len()];
    for (from, to) in moves.iter().enumerate() {
        if let Some(target) = to[zone] {
            sources[target].push(from);
        }
    }
    sources
}

/// All pairs, those marked that some continuation tells apart.
fn pairs<const COUNT: usize>(moves: &[[Option<usize>; COUNT]]) -> Pairs {
    let mut pairs = Pairs::new(moves.len());
    let signals: Vec<[bool; COUNT]> = moves.iter().map(|to| to.map(|target| target.is_none())).collect();
    for a in 0..moves.len() {
        for b in 0..a {
            if signals[a] != signals[b] {
                pairs.tell_apart(a, b);
            }
        }
    }
    // a zone that leads from everywhere to where an earlier one does tells no more apart
    let like = |zone: usize, other: usize| moves.iter().all(|to| to[zone] == to[other]);
    let zones = (0..COUNT).filter(|&zone| !(0..zone).any(|other| like(zone, other)));
    let sources: Vec<Vec<Vec<usize>>> = zones.map(|zone| leading_to(moves, zone)).collect();
    while let Some((a, b)) = pairs.open.pop() {
        for of_zone in &sources {
            for &x in &of_zone[a] {
                for &y in &of_zone[b] {
                    pairs.tell_apart(x, y);
                }
            }
        }
    }
    pairs
}

/// The moves with every two standings that are not told apart made one, numbered as they are first met: so the empty one stays the first.
pub fn merged<const COUNT: usize>(moves: &[[Option<usize>; COUNT]]) -> Moves<COUNT> {
    let pairs = pairs(moves);
    let mut firsts: Vec<usize> = Vec::new();
    let mut names = Vec::with_capacity(moves.len());
    for standing in 0..moves.len() {
        let name = firsts.iter().position(|&first| !pairs.are_apart(first, standing)).unwrap_or(firsts.len());
        if name == firsts.len() {
            firsts.push(standing);
        }
        names.push(name);
    }
    firsts.iter().map(|&first| moves[first].map(|target| target.map(|t| names[t]))).collect()
}

/// The standings that sequences of the first few zones meet from the empty one, and where these zones lead from each.
pub fn met_by<const ALL: usize, const FIRST: usize>(moves: &[[Option<usize>; ALL]]) -> Moves<FIRST> {
    let mut names = vec![None; moves.len()];
    names[0] = Some(0);
    let mut found = vec![0];
    let mut kept = Vec::new();
    while kept.len() < found.len() {
        let from = found[kept.len()];
        kept.push(std::array::from_fn(|zone| {
            moves[from][zone].map(|target| {
                *names[target].get_or_insert_with(|| {
                    found.push(target);
                    found.len() - 1
                })
            })
        }));
    }
    kept
}
