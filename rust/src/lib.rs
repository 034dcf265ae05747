//! Run-length tables and monitors for runs-rules control charts: a safe layer over the exported functions of the proved library.
//!
//! A point lies in one of eight zones by its distance from the centre. A [`Rule`] k,m,Z holds where at least k of the last m points lie in
//! the zones of Z; where fewer than m points exist, all of them count. A chart signals where some rule of its [`RuleList`] holds, and a
//! signal clears it. The run length is the number of the first point that signals. A unit is 2^-60.
//!
//! A planner asks for the run length: [`table()`], [`Table`], [`bracket`], [`box_plot`]. For a normal reading, shifted or not, the weights
//! come from [`shift_weights`]. A bench runs the chart: [`zone()`], and a [`Monitor`] for each core. [`table_report`], [`monitor_report`] and
//! [`weights_report`] are the three programs, text in and text out.
//!
//! Every function takes any input. What it does not accept it refuses: see [`Refusal`]. A refused call alters nothing that was lent. What a
//! function only writes to is marked `written only`. The functions keep nothing between calls, so that any number of threads may call them.
//!
//! ```
//! use catrovindy::{zone, Monitor, RuleList};
//!
//! let rules = RuleList::western_electric();
//! let mut monitor = Monitor::fresh();
//! let mut masks = Vec::new();
//! for reading in [121, 100, 121, 121] {
//!     let point = monitor.step(&rules, zone(reading, 100, 10)?)?;
//!     masks.push(point.mask);
//! }
//! // the third point: two of the last three in zone A1, the rule with index 2
//! assert_eq!(masks, [0, 0, 4, 0]);
//! # Ok::<(), catrovindy::Refusal>(())
//! ```
#![deny(missing_docs)]
#![deny(unsafe_op_in_unsafe_fn)]

mod monitor;
mod plot;
pub mod raw;
mod refusal;
mod report;
mod rules;
mod shift;
mod table;
mod version;
mod zone;

pub use monitor::{Batch, Monitor, Point, MAX_COUNT};
pub use plot::{box_plot, BoxPlot, PlotItem};
pub use refusal::Refusal;
pub use report::{monitor_report, monitor_report_into, table_report, table_report_into, weights_report, weights_report_into};
pub use report::{MAX_ROWS, MAX_TEXT, MONITOR_SIZE, NODES, TABLE_SIZE, WEIGHTS_SIZE};
pub use rules::{Rule, RuleList, MAX_RULES, MAX_WINDOW};
pub use shift::{shift_weights, MAX_SHIFT};
pub use table::{bracket, table, Bracket, Figures, Table, MAX_HORIZON, MAX_STATES, UNITS_PER_ONE, WEIGHT_TOTAL};
pub use version::{version, VERSION, VERSION_NUMBER};
pub use zone::{zone, Weights, A1, A2, ALL_ZONES, B1, B2, C0, C1, C2, MAX_SIGMA, S, ZONES};
pub use zone::{SET_A1, SET_A2, SET_ABOVE, SET_A_OR_B_ABOVE, SET_A_OR_B_BELOW, SET_B1, SET_B2, SET_BELOW, SET_C, SET_C0, SET_C1, SET_C2};
pub use zone::{SET_OUTSIDE_C, SET_S};
