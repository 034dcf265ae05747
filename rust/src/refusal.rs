//! Why an input was turned down.
use crate::raw;
use std::fmt;

/// A refusal: a number, whose meaning [`Refusal::meaning`] gives in words, and a place. `Display` prints all three.
///
/// ```
/// use catrovindy::Refusal;
///
/// let refusal = catrovindy::zone(100, 100, 0).unwrap_err();
/// assert_eq!((refusal.number, refusal.place), (Refusal::BAD_SIGMA, 0));
/// assert_eq!(refusal.to_string(), "refused by 1, place 0: The chart's sigma is outside 1 to 65,535.");
/// ```
#[derive(Clone, Copy, Debug, PartialEq, Eq, Hash)]
pub struct Refusal {
    /// 1 to 19.
    pub number: u32,
    /// The rule's index from 0 for 3 and 4, the line from 1 for 16 and 19, else 0.
    pub place: u32,
}

impl Refusal {
    /// Sigma is outside 1 to 65,535.
    pub const BAD_SIGMA: u32 = 1;
    /// No rules, or more than eight.
    pub const BAD_RULE_COUNT: u32 = 2;
    /// m outside 1 to 9, or k outside 1 to m.
    pub const BAD_RULE: u32 = 3;
    /// The zone set is 0 or over 255.
    pub const BAD_ZONE_SET: u32 = 4;
    /// The state cannot stand with these rules and this count.
    pub const BAD_STATE: u32 = 5;
    /// The zone is over 7.
    pub const BAD_ZONE: u32 = 6;
    /// The count is 4,294,967,295.
    pub const BAD_COUNT: u32 = 7;
    /// The weights do not sum to 2^30.
    pub const BAD_WEIGHTS: u32 = 8;
    /// The horizon is outside 1 to 65,535; in a text, outside 1 to 4,096.
    pub const BAD_HORIZON: u32 = 9;
    /// The rules have more than 1,024 states before merging.
    pub const TOO_MANY_STATES: u32 = 10;
    /// A lent list is shorter than the horizon.
    pub const SHORT_LIST: u32 = 11;
    /// The list of chances is empty, or has more than 65,535 places.
    pub const BAD_LIST: u32 = 12;
    /// The number of states is outside 1 to 1,024.
    pub const BAD_N: u32 = 13;
    /// The percent is outside 1 to 99.
    pub const BAD_PERCENT: u32 = 14;
    /// The chances sum to more than 2^60.
    pub const BAD_CHANCES: u32 = 15;
    /// A line is not the one expected, or cannot be read.
    pub const BAD_LINE: u32 = 16;
    /// The text has more than 65,536 bytes.
    pub const LONG_TEXT: u32 = 17;
    /// The shift is outside -150 to 150 hundredths of sigma.
    pub const BAD_SHIFT: u32 = 18;
    /// A point's node is over 15.
    pub const BAD_NODE: u32 = 19;

    /// What the code of an exported function says: 0 is accepted.
    pub const fn check(code: u64) -> Result<(), Refusal> {
        if code == 0 {
            return Ok(());
        }
        Err(Refusal { number: raw::number(code), place: raw::place(code) })
    }

    /// What the number means, in one sentence. The C header says the same words.
    #[must_use]
    pub const fn meaning(self) -> &'static str {
        match self.number {
            0 => "The call is accepted.",
            Refusal::BAD_SIGMA => "The chart's sigma is outside 1 to 65,535.",
            Refusal::BAD_RULE_COUNT => "There are no rules, or more than eight.",
            Refusal::BAD_RULE => "A rule's m is outside 1 to 9, or its k is outside 1 to m.",
            Refusal::BAD_ZONE_SET => "A rule's zone set is 0 or over 255: it has no zone, or one that does not exist.",
            Refusal::BAD_STATE => "The monitor's state cannot have come from these rules and this count of points.",
            Refusal::BAD_ZONE => "The zone is over 7: there is no such zone.",
            Refusal::BAD_COUNT => "The monitor has counted 4,294,967,295 points with no signal, and can count no further.",
            Refusal::BAD_WEIGHTS => "The weights of the eight zones do not sum to 2^30, which is 1,073,741,824.",
            Refusal::BAD_HORIZON => "The horizon is outside 1 to 65,535, or in a text outside 1 to 4,096.",
            Refusal::TOO_MANY_STATES => "The rules have more than 1,024 states before merging, too many for a table.",
            Refusal::SHORT_LIST => "A list that was lent for the table is shorter than the horizon.",
            Refusal::BAD_LIST => "The list of chances is empty, or has more than 65,535 places.",
            Refusal::BAD_N => "The number of states is outside 1 to 1,024.",
            Refusal::BAD_PERCENT => "The percent is outside 1 to 99.",
            Refusal::BAD_CHANCES => "The chances sum to more than 2^60, which stands for one.",
            Refusal::BAD_LINE => "A line of the text is missing, is not the one expected, or cannot be read.",
            Refusal::LONG_TEXT => "The text has more than 65,536 bytes.",
            Refusal::BAD_SHIFT => "The shift is outside -150 to 150 hundredths of sigma.",
            Refusal::BAD_NODE => "A point's node is over 15: there is no such node.",
            _ => "There is no such refusal.",
        }
    }
}

impl fmt::Display for Refusal {
    fn fmt(&self, f: &mut fmt::Formatter<'_>) -> fmt::Result {
        write!(f, "refused by {}, place {}: {}", self.number, self.place, self.meaning())
    }
}

impl std::error::Error for Refusal {}
