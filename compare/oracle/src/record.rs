//! A view record as the job sheet's 64 bytes: the published text's fields, and the cut number beside them.

use crate::checks::check;
use crate::{PlineVertex, PlineViewData, Vector2, refusal};

pub const RECORD_BYTES: usize = 64;

pub(crate) fn u32_at(bytes: &[u8], at: usize) -> u32 {
    u32::from_le_bytes(bytes[at..at + 4].try_into().unwrap())
}

pub(crate) fn f64_at(bytes: &[u8], at: usize) -> f64 {
    f64::from_le_bytes(bytes[at..at + 8].try_into().unwrap())
}

/// Refusal 12's field: direction 0 or 1.
pub(crate) fn well_formed(record: &[u8]) -> bool {
    u32_at(record, 56) <= 1
}

/// The cut number of 64 bytes, 0 for none.
pub fn cut_number(record: &[u8]) -> u32 {
    u32_at(record, 60)
}

/// The published text's fields of 64 bytes that are `well_formed`.
pub(crate) fn fields(record: &[u8]) -> PlineViewData {
    PlineViewData {
        start_index: u32_at(record, 0) as usize,
        end_index_offset: u32_at(record, 4) as usize,
        updated_start: PlineVertex::new(f64_at(record, 8), f64_at(record, 16), f64_at(record, 24)),
        updated_end_bulge: f64_at(record, 32),
        end_point: Vector2::new(f64_at(record, 40), f64_at(record, 48)),
        inverted_direction: u32_at(record, 56) == 1,
    }
}

/// A record from its bytes: 11 for another length, then 12.
pub fn decode(bytes: &[u8]) -> Result<PlineViewData, u8> {
    check(bytes.len() == RECORD_BYTES, refusal::SHEET)?;
    check(well_formed(bytes), refusal::RECORD)?;
    Ok(fields(bytes))
}

/// The bytes of a record whose index and offset fit in 32 bits, under a cut number.
pub fn encode(record: &PlineViewData, cut_number: u32) -> [u8; RECORD_BYTES] {
    let mut bytes = [0; RECORD_BYTES];
    let start = u32::try_from(record.start_index).unwrap();
    let offset = u32::try_from(record.end_index_offset).unwrap();
    bytes[0..4].copy_from_slice(&start.to_le_bytes());
    bytes[4..8].copy_from_slice(&offset.to_le_bytes());
    let numbers = [
        record.updated_start.x,
        record.updated_start.y,
        record.updated_start.bulge,
        record.updated_end_bulge,
        record.end_point.x,
        record.end_point.y,
    ];
    for (place, number) in bytes[8..56].chunks_exact_mut(8).zip(numbers) {
        place.copy_from_slice(&number.to_le_bytes());
    }
    bytes[56] = u8::from(record.inverted_direction);
    bytes[60..64].copy_from_slice(&cut_number.to_le_bytes());
    bytes
}
