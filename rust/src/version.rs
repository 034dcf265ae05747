//! The version.
use crate::raw;

/// The version of this crate, as text. The C header has the same.
pub const VERSION: &str = env!("CARGO_PKG_VERSION");

/// The version of this crate, as major × 10000 + minor × 100 + patch. The C header has the same.
pub const VERSION_NUMBER: u32 = 800;

/// The version of the library, as a number: [`VERSION_NUMBER`] where the library belongs to this crate.
///
/// ```
/// assert_eq!(catrovindy::version(), catrovindy::VERSION_NUMBER);
/// ```
#[must_use]
pub fn version() -> u32 {
    // SAFETY: nothing is asked.
    unsafe { raw::catrovindy_version() }
}
