//! The states of a tray.

/// The state of a tray that is not there.
pub const ABSENT: u8 = 0;
/// The state of a tray in use.
pub const LIVE: u8 = 1;
/// The state of a tray with demonstration contents.
pub const DEMONSTRATION: u8 = 2;
