//! The monitor: a chart that is fed point by point, or a batch of readings at a time.
use crate::{raw, Refusal, RuleList};

/// A monitor with this count takes no more points.
pub const MAX_COUNT: u32 = u32::MAX;

/// A chart between two points: a plain value that may be stored and taken up again. It belongs to one rule list, and to one core: a bench with
/// several cores keeps a monitor for each of them.
#[derive(Clone, Copy, Debug, Default, PartialEq, Eq, Hash)]
pub struct Monitor {
    /// The hits that the rules remember: byte i belongs to the rule with index i, and bit a - 1 of it is a hit a points back.
    pub state: u64,
    /// The points since the last signal.
    pub points: u32,
}

/// What a point does.
#[must_use]
#[derive(Clone, Copy, Debug, PartialEq, Eq, Hash)]
pub struct Point {
    /// The count of points since the last signal, with this point in it.
    pub count: u32,
    /// The rules that hold, as the sum of 2^index; 0 for quiet.
    pub mask: u32,
}

impl Point {
    /// Whether some rule holds.
    #[must_use]
    pub const fn is_signal(self) -> bool {
        self.mask != 0
    }
}

/// How far a batch came, and why it stopped.
#[must_use]
#[derive(Clone, Copy, Debug, PartialEq, Eq, Hash)]
pub enum Batch {
    /// All readings were taken, and all were quiet.
    Quiet {
        /// How many readings there were.
        taken: usize,
        /// The count of points with the last of them in it; where there was none, the count as it was.
        count: u32,
    },
    /// The last reading taken signals. To go on, hand over the rest.
    Signal {
        /// How many readings were taken.
        taken: usize,
        /// The count of points with the last of them in it.
        count: u32,
        /// The rules that hold, as the sum of 2^index.
        mask: u32,
    },
    /// The count can go no further: it is [`MAX_COUNT`], and readings are left. All that were taken were quiet. To go on, start a fresh
    /// chart.
    Full {
        /// How many readings were taken, one or more.
        taken: usize,
    },
}

impl Batch {
    /// How many readings were taken.
    #[must_use]
    pub const fn taken(self) -> usize {
        match self {
            Batch::Quiet { taken, .. } | Batch::Signal { taken, .. } | Batch::Full { taken } => taken,
        }
    }

    /// The last point taken; where none was taken, the count as it was and quiet.
    pub const fn last(self) -> Point {
        match self {
            Batch::Quiet { count, .. } => Point { count, mask: 0 },
            Batch::Signal { count, mask, .. } => Point { count, mask },
            Batch::Full { .. } => Point { count: MAX_COUNT, mask: 0 },
        }
    }

    /// Whether the last point taken signals.
    #[must_use]
    pub const fn is_signal(self) -> bool {
        matches!(self, Batch::Signal { .. })
    }
}

impl Monitor {
    /// A cleared chart, which every rule list accepts.
    #[must_use]
    pub const fn fresh() -> Monitor {
        Monitor { state: 0, points: 0 }
    }

    /// Takes a point in a zone. After a signal the monitor is fresh.
    ///
    /// Refused by 2; then rule by rule 3, 4; 6; 5; 7, in this order, and the monitor is then as it was. 5 does not come for a monitor that
    /// began fresh and took all its points with the same rules.
    pub fn step(&mut self, rules: &RuleList, zone: u32) -> Result<Point, Refusal> {
        let (slots, count) = rules.slots();
        let mut answer = [0; raw::STEP_ANSWER];
        // SAFETY: 24 slots, two separate numbers, an array of two.
        let code = unsafe { raw::catrovindy_step(slots.as_ptr(), count, &mut self.state, &mut self.points, zone, answer.as_mut_ptr()) };
        Refusal::check(code)?;
        Ok(Point { count: answer[raw::STEP_COUNT], mask: answer[raw::STEP_MASK] })
    }

    /// Takes readings one after another, until one signals, the count is full, or none is left. The monitor is then as after a step for
    /// each reading taken; to go on after a signal, hand over the rest.
    ///
    /// Refused by 2; then rule by rule 3, 4; 1; 5; 7, in this order, as a first reading is, and the monitor is then as it was; so too
    /// where there are no readings. 7 is no refusal once a reading was taken: see [`Batch::Full`].
    ///
    /// ```
    /// use catrovindy::{Monitor, RuleList};
    ///
    /// let (rules, mut monitor, mut signals) = (RuleList::western_electric(), Monitor::fresh(), 0);
    /// let mut left = &[121, 100, 121, 121][..];
    /// while !left.is_empty() {
    ///     let batch = monitor.take(&rules, 100, 10, left)?;
    ///     signals += u32::from(batch.is_signal());
    ///     left = &left[batch.taken()..];
    /// }
    /// assert_eq!((signals, monitor.points), (1, 1));
    /// # Ok::<(), catrovindy::Refusal>(())
    /// ```
    pub fn take(&mut self, rules: &RuleList, centre: i32, sigma: u32, readings: &[i32]) -> Result<Batch, Refusal> {
        let (slots, count) = rules.slots();
        let mut answer = [0; raw::BATCH_ANSWER];
        // SAFETY: 24 slots, two separate numbers, a slice with its length, an array of four.
        let code = unsafe {
            raw::catrovindy_batch(
                slots.as_ptr(),
                count,
                &mut self.state,
                &mut self.points,
                centre,
                sigma,
                readings.as_ptr(),
                readings.len(),
                answer.as_mut_ptr(),
            )
        };
        Refusal::check(code)?;
        let taken = answer[raw::BATCH_TAKEN] as usize;
        let (count, mask) = (answer[raw::BATCH_COUNT] as u32, answer[raw::BATCH_MASK] as u32);
        Ok(if mask != 0 {
            Batch::Signal { taken, count, mask }
        } else if answer[raw::BATCH_REFUSAL] == 0 {
            Batch::Quiet { taken, count }
        } else {
            Batch::Full { taken }
        })
    }
}
