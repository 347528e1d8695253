//! Document 01's refusal numbers.

/// A number is NaN, infinite or out of range.
pub const NUMBER: u8 = 1;
/// A tolerance or a line limit is out of range or NaN.
pub const TOLERANCE: u8 = 2;
/// The outline is not whole vertices, too long or too short; a vertex is not 3 numbers.
pub const OUTLINE: u8 = 3;
/// An index is not below the vertex count, or a position not below offset + 2.
pub const INDEX: u8 = 4;
/// The offset is above the vertex count, or a traverse count is 0.
pub const OFFSET: u8 = 5;
/// Radius and centre of what is no arc.
pub const NO_ARC: u8 = 6;
/// Reversal or trim with offset 0 and bulges of unequal bits.
pub const UNEQUAL_BULGES: u8 = 7;
/// A lent buffer is too short.
pub const ROOM: u8 = 8;
/// Trim without 0 <= i < j <= offset + 1.
pub const TRIM: u8 = 9;
/// `from_new_start` on an open outline.
pub const OPEN: u8 = 10;
/// Sheet: wrong length, version, count, offset or unknown flag.
pub const SHEET: u8 = 11;
/// Sheet record: direction not 0 or 1.
pub const RECORD: u8 = 12;
