//! The three programs: text in, text out.
use crate::{raw, Refusal};

/// The most bytes that a text may have.
pub const MAX_TEXT: usize = 65_536;

/// The largest horizon of a table report.
pub const MAX_ROWS: u32 = 4096;

/// The nodes of a monitor report, numbered from 0.
pub const NODES: usize = 16;

/// Room for the table program's lines at its largest horizon, 4,096.
pub const TABLE_SIZE: usize = 344_544;

/// Room for the monitor program's lines for the longest text.
pub const MONITOR_SIZE: usize = 334_827;

/// Room for the weights program's line.
pub const WEIGHTS_SIZE: usize = 96;

/// The table program's lines for a text of a line of eight weights, rule lines and a horizon line.
///
/// Refused by 17; 16; 2; then rule by rule 3, 4; 8; 9, also for a horizon over 4,096; 10, in this order.
///
/// ```
/// let text = b"weights,0,536870912,0,0,536870912,0,0,0\nrule,2,2,2\nhorizon,4\n";
/// let lines = catrovindy::table_report(text)?;
/// assert!(lines.starts_with(b"standings,2\nn,chance,by,left\n1,0,0,1152921504606846976\n"));
/// # Ok::<(), catrovindy::Refusal>(())
/// ```
pub fn table_report(text: &[u8]) -> Result<Vec<u8>, Refusal> {
    let mut out = vec![0; TABLE_SIZE];
    // SAFETY: the buffer has the size of a table report.
    let bytes = unsafe { written(raw::catrovindy_table_report, text, out.as_mut_ptr()) }?;
    out.truncate(bytes);
    Ok(out)
}

/// The monitor program's lines for a text of a chart line, rule lines and point lines `point,node,reading`. Each node, 0 to 15, has a monitor
/// of its own; the chart and the rules are common.
///
/// A point is written, in the text's order, as `quiet,node,count,period` or `signal,node,count,mask,period`: the count is that of the node's
/// points since its last signal, the mask the sum of 2^index over the rules that hold, and the period the number of the node's points since
/// the start of the text, from 1, which goes on after a signal. Behind the last point each node that has points is written, in order of node,
/// as `total,node,points,signals`. So a text without points has no lines. With the same chart and rules the lines of a node depend on its own
/// points alone.
///
/// Refused by 17; 16; 19; 2; then rule by rule 3, 4; 1, in this order.
///
/// ```
/// use catrovindy::monitor_report;
///
/// let opening = "chart,100,10\nrule,1,1,1\n";
/// let report = |points: &str| monitor_report(format!("{opening}{points}").as_bytes());
/// let lines = report("point,5,100\npoint,0,131\npoint,5,131\npoint,5,100\n");
/// assert_eq!(lines, Ok(b"quiet,5,1,1\nsignal,0,1,1,1\nsignal,5,2,1,2\nquiet,5,1,3\ntotal,0,1,1\ntotal,5,3,1\n".to_vec()));
/// // there is no node 16, and a point line has a node
/// let refused = |points| report(points).map_err(|refusal| (refusal.number, refusal.place));
/// assert_eq!(refused("point,5,100\npoint,16,100\n"), Err((19, 4)));
/// assert_eq!(refused("point,100\n"), Err((16, 3)));
/// ```
pub fn monitor_report(text: &[u8]) -> Result<Vec<u8>, Refusal> {
    let mut out = vec![0; MONITOR_SIZE];
    // SAFETY: the buffer has the size of a monitor report.
    let bytes = unsafe { written(raw::catrovindy_monitor_report, text, out.as_mut_ptr()) }?;
    out.truncate(bytes);
    Ok(out)
}

/// The weights program's line for a text of a shift line, as the table program takes it.
///
/// Refused by 17; 16; 18, in this order.
///
/// ```
/// let line = catrovindy::weights_report(b"shift,0\n");
/// assert_eq!(line, Ok(b"weights,2898884,22978326,145927014,366516130,366516130,145927014,22978326,0\n".to_vec()));
/// let refusal = catrovindy::weights_report(b"shift,151\n").unwrap_err();
/// assert_eq!((refusal.number, refusal.place), (18, 0));
/// ```
pub fn weights_report(text: &[u8]) -> Result<Vec<u8>, Refusal> {
    let mut out = vec![0; WEIGHTS_SIZE];
    // SAFETY: the buffer has the size of a weights report.
    let bytes = unsafe { written(raw::catrovindy_weights_report, text, out.as_mut_ptr()) }?;
    out.truncate(bytes);
    Ok(out)
}

/// As [`table_report`], but into the caller's buffer: how many bytes the lines have. `out` is written only; the bytes after the lines are
/// kept, and all of them where the text is refused.
pub fn table_report_into(text: &[u8], out: &mut [u8; TABLE_SIZE]) -> Result<usize, Refusal> {
    // SAFETY: the buffer has the size of a table report.
    unsafe { written(raw::catrovindy_table_report, text, out.as_mut_ptr()) }
}

/// As [`monitor_report`], but into the caller's buffer: how many bytes the lines have. `out` is written only; the bytes after the lines are
/// kept, and all of them where the text is refused.
pub fn monitor_report_into(text: &[u8], out: &mut [u8; MONITOR_SIZE]) -> Result<usize, Refusal> {
    // SAFETY: the buffer has the size of a monitor report.
    unsafe { written(raw::catrovindy_monitor_report, text, out.as_mut_ptr()) }
}

/// As [`weights_report`], but into the caller's buffer: how many bytes the line has. `out` is written only; the bytes after the line are
/// kept, and all of them where the text is refused.
pub fn weights_report_into(text: &[u8], out: &mut [u8; WEIGHTS_SIZE]) -> Result<usize, Refusal> {
    // SAFETY: the buffer has the size of a weights report.
    unsafe { written(raw::catrovindy_weights_report, text, out.as_mut_ptr()) }
}

type Report = unsafe extern "C" fn(*const u8, usize, *mut u8, *mut u64) -> u64;

/// How many bytes a report has written.
///
/// # Safety
/// `out` is a buffer of the report's size, written only.
unsafe fn written(report: Report, text: &[u8], out: *mut u8) -> Result<usize, Refusal> {
    let mut bytes = 0;
    // SAFETY: a slice with its length, the caller's buffer, one number.
    Refusal::check(unsafe { report(text.as_ptr(), text.len(), out, &mut bytes) })?;
    Ok(bytes as usize)
}
