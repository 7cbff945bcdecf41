//! The numbers that are answered (01, "Numbers that are answered").

/// The message or header is whole.
pub const WHOLE: u8 = 0;
/// More bytes are needed.
pub const MORE: u8 = 1;
/// Unknown type.
pub const UNKNOWN: u8 = 2;
/// Body over 65,000 bytes.
pub const BODY: u8 = 3;
/// Fields don't fill the body exactly, or a cut datagram header.
pub const FILL: u8 = 4;
/// Forbidden value.
pub const FORBIDDEN: u8 = 5;
/// Size.
pub const SIZE: u8 = 6;
/// Output too short for the message.
pub const SHORT: u8 = 7;
/// Done.
pub const DONE: u8 = 8;
/// A message that the ledger doesn't keep.
pub const NOT_KEPT: u8 = 9;
/// Session already closed.
pub const CLOSED: u8 = 10;
/// All rows in use.
pub const FULL: u8 = 11;
/// Stale: no row, ID at or below the highest.
pub const STALE: u8 = 12;
/// Breaks rule R1 to R7, number given.
pub const BREAKS: u8 = 13;
/// Not a ledger.
pub const NOT_A_LEDGER: u8 = 14;
/// Start refused.
pub const NO_START: u8 = 15;
/// Arrival counted.
pub const COUNTED: u8 = 16;
/// Outside the range.
pub const OUTSIDE: u8 = 17;
/// No row has this alias.
pub const NO_ALIAS: u8 = 18;
/// Row still pending.
pub const PENDING: u8 = 19;
