//! Rules and rule lists.
use crate::raw::{self, SLOTS};
use crate::Refusal;

/// The most rules that a list may have.
pub const MAX_RULES: usize = 8;

/// The largest m of a rule.
pub const MAX_WINDOW: u32 = 9;

/// Holds where at least k of the last m points lie in the zones of the set.
#[derive(Clone, Copy, Debug, PartialEq, Eq, Hash)]
pub struct Rule {
    /// 1 to m.
    pub k: u32,
    /// 1 to 9.
    pub m: u32,
    /// The zone set: the sum of 2^zone, 1 to 255. [`SET_S`](crate::SET_S) and others are such sets.
    pub zones: u32,
}

impl Rule {
    /// At least k of the last m points in the zones, the sum of 2^zone. Bounds are looked at where the rule is used.
    #[must_use]
    pub const fn new(k: u32, m: u32, zones: u32) -> Rule {
        Rule { k, m, zones }
    }
}

/// A list of rules. Any number of any rules may be put into it: a list that is out of bounds is refused where it is used. It keeps the
/// first eight rules and the number of all. [`RuleList::check`] says beforehand whether a list is accepted.
///
/// ```
/// use catrovindy::{Rule, RuleList, SET_ABOVE, SET_S};
///
/// let list = RuleList::new().with(Rule::new(1, 1, SET_S)).with(Rule::new(9, 9, SET_ABOVE));
/// assert_eq!((list.len(), list.check()), (2, Ok(())));
/// assert_eq!(list, RuleList::from(&[Rule::new(1, 1, 1), Rule::new(9, 9, 14)][..]));
/// ```
#[derive(Clone, Copy, Debug, Default, PartialEq, Eq, Hash)]
pub struct RuleList {
    slots: [u32; SLOTS],
    count: u32,
}

impl RuleList {
    /// A list of no rules.
    pub const fn new() -> RuleList {
        RuleList { slots: [0; SLOTS], count: 0 }
    }

    /// The list with one rule more.
    #[must_use]
    pub const fn with(mut self, rule: Rule) -> RuleList {
        let at = 3 * self.count as usize;
        if at < SLOTS {
            self.slots[at] = rule.k;
            self.slots[at + 1] = rule.m;
            self.slots[at + 2] = rule.zones;
        }
        self.count = self.count.saturating_add(1);
        self
    }

    /// Western Electric: 1,1,1; 2,3,64; 2,3,2; 4,5,96; 4,5,6; 8,8,112; 8,8,14.
    pub const fn western_electric() -> RuleList {
        RuleList::new()
            .with(Rule::new(1, 1, 1))
            .with(Rule::new(2, 3, 64))
            .with(Rule::new(2, 3, 2))
            .with(Rule::new(4, 5, 96))
            .with(Rule::new(4, 5, 6))
            .with(Rule::new(8, 8, 112))
            .with(Rule::new(8, 8, 14))
    }

    /// Duncan: 1,1,1; 2,2,64; 2,2,2; 5,5,96; 5,5,6.
    pub const fn duncan() -> RuleList {
        RuleList::new()
            .with(Rule::new(1, 1, 1))
            .with(Rule::new(2, 2, 64))
            .with(Rule::new(2, 2, 2))
            .with(Rule::new(5, 5, 96))
            .with(Rule::new(5, 5, 6))
    }

    /// The number of rules, those beyond the eighth among them.
    pub const fn len(&self) -> u32 {
        self.count
    }

    /// Whether there are no rules.
    pub const fn is_empty(&self) -> bool {
        self.count == 0
    }

    /// The rules, at most the first eight.
    pub fn rules(&self) -> impl Iterator<Item = Rule> + '_ {
        self.slots.chunks_exact(3).take(self.count as usize).map(|slot| Rule::new(slot[0], slot[1], slot[2]))
    }

    /// Whether the list is accepted, before a chart is run or planned with it.
    ///
    /// Refused by 2; then rule by rule 3, 4.
    ///
    /// ```
    /// use catrovindy::{Refusal, Rule, RuleList};
    ///
    /// let list = RuleList::duncan().with(Rule::new(1, 1, 256));
    /// assert_eq!(list.check(), Err(Refusal { number: Refusal::BAD_ZONE_SET, place: 5 }));
    /// ```
    pub fn check(&self) -> Result<(), Refusal> {
        let (slots, count) = self.slots();
        // SAFETY: 24 slots.
        Refusal::check(unsafe { raw::catrovindy_check(slots.as_ptr(), count) })
    }

    /// The slots and the count, as the exported functions take them.
    pub const fn slots(&self) -> (&[u32; SLOTS], u32) {
        (&self.slots, self.count)
    }
}

impl From<&[Rule]> for RuleList {
    fn from(rules: &[Rule]) -> RuleList {
        rules.iter().copied().collect()
    }
}

impl FromIterator<Rule> for RuleList {
    fn from_iter<I: IntoIterator<Item = Rule>>(rules: I) -> RuleList {
        rules.into_iter().fold(RuleList::new(), RuleList::with)
    }
}
