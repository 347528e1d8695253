//! The judge: document 01's calls over the published text.
//!
//! Each call makes document 01's checks in its order and then asks the published text, at a line limit other than the
//! default over numbers whose zero test has that limit. Reversal, trim, the listing and the job sheet are additions
//! of document 01, not in the text; they are written here from its sentences. Nothing here comes from the library
//! that is judged.
#![forbid(unsafe_code)]

mod checks;
mod library;
mod limited;
mod number;
pub mod plain;
pub mod record;
pub mod refusal;
pub mod segment;
pub mod sheet;
pub mod view;

pub use cavalier_contours::{
    AABB,
    core::math::Vector2,
    polyline::{PlineVertex, PlineViewData, SplitResult, ViewDataValidation},
};
pub use checks::LINE_LIMIT;
pub use library::{Library, Oracle};
#[doc(hidden)]
pub use limited::all_default;

const _: () = assert!(usize::BITS == 64, "indexes are taken as 64 bits");

/// Square root: every finite number from minus zero up.
pub fn sqrt(x: f64) -> Result<f64, u8> {
    if x.is_finite() && x >= 0.0 {
        Ok(x.sqrt())
    } else {
        Err(refusal::NUMBER)
    }
}
