//! A number type for the published text: an f64 whose zero test has the job's line limit, and which counts its square
//! roots.

use crate::number::{Number, same_point, same_vertex};
use crate::{LINE_LIMIT, ViewDataValidation};
use cavalier_contours::core::traits::Real;
use std::cell::Cell;
use std::ops::{Add, Div, Mul, Neg, Sub};

thread_local! {
    /// The limit of the call that this thread is making, and the square roots that it has taken.
    static LIMIT: Cell<Option<f64>> = const { Cell::new(None) };
    static ROOTS: Cell<u64> = const { Cell::new(0) };
    /// Whether every limit is taken for the default one.
    static ALL_DEFAULT: Cell<bool> = const { Cell::new(false) };
}

/// Makes a call over these numbers at a limit: its answer, and the square roots that it took. Never inlined: what `bench`
/// times, a call at the default limit, must not carry this one along.
#[cold]
#[inline(never)]
pub(crate) fn run_at<A>(limit: f64, call: impl FnOnce() -> A) -> (A, u64) {
    /// Takes the limit away again, also where the call panics.
    struct Running;
    impl Drop for Running {
        fn drop(&mut self) {
            LIMIT.set(None);
        }
    }

    let limit = if ALL_DEFAULT.get() { LINE_LIMIT } else { limit };
    assert_eq!(LIMIT.replace(Some(limit)), None, "a call within a call");
    let _running = Running;
    ROOTS.set(0);
    let answer = call();
    (answer, ROOTS.get())
}

/// For a test that holds these numbers to plain f64: while `calls` run, each limit but the default one, at which the text is
/// run over f64, is taken for the default one too.
#[doc(hidden)]
pub fn all_default<A>(calls: impl FnOnce() -> A) -> A {
    ALL_DEFAULT.set(true);
    let answer = calls();
    ALL_DEFAULT.set(false);
    answer
}

/// An f64 but for its zero test and its count.
#[derive(Debug, Default, Clone, Copy, PartialEq, PartialOrd)]
pub(crate) struct Limited(f64);

impl Number for Limited {
    fn of(x: f64) -> Self {
        Limited(x)
    }

    fn plain(self) -> f64 {
        self.0
    }

    fn plain_verdict(verdict: ViewDataValidation<Self>) -> ViewDataValidation<f64> {
        match verdict {
            ViewDataValidation::SourceHasNoSegments => ViewDataValidation::SourceHasNoSegments,
            ViewDataValidation::OffsetOutOfRange {
                offset,
                source_length,
            } => ViewDataValidation::OffsetOutOfRange {
                offset,
                source_length,
            },
            ViewDataValidation::UpdatedStartNotOnSegment { start_point } => {
                ViewDataValidation::UpdatedStartNotOnSegment {
                    start_point: same_point(start_point),
                }
            }
            ViewDataValidation::EndPointNotOnSegment { end_point } => {
                ViewDataValidation::EndPointNotOnSegment {
                    end_point: same_point(end_point),
                }
            }
            ViewDataValidation::EndPointOnFinalOffsetVertex {
                end_point,
                final_offset_vertex,
            } => ViewDataValidation::EndPointOnFinalOffsetVertex {
                end_point: same_point(end_point),
                final_offset_vertex: same_vertex(final_offset_vertex),
            },
            ViewDataValidation::UpdatedBulgeDoesNotMatch {
                updated_bulge,
                expected,
            } => ViewDataValidation::UpdatedBulgeDoesNotMatch {
                updated_bulge: updated_bulge.0,
                expected: expected.0,
            },
            ViewDataValidation::IsValid => ViewDataValidation::IsValid,
        }
    }
}

impl Add for Limited {
    type Output = Self;
    fn add(self, other: Self) -> Self {
        Limited(self.0 + other.0)
    }
}

impl Sub for Limited {
    type Output = Self;
    fn sub(self, other: Self) -> Self {
        Limited(self.0 - other.0)
    }
}

impl Mul for Limited {
    type Output = Self;
    fn mul(self, other: Self) -> Self {
        Limited(self.0 * other.0)
    }
}

impl Div for Limited {
    type Output = Self;
    fn div(self, other: Self) -> Self {
        Limited(self.0 / other.0)
    }
}

impl Neg for Limited {
    type Output = Self;
    fn neg(self) -> Self {
        Limited(-self.0)
    }
}

impl Real for Limited {
    fn zero() -> Self {
        Limited(f64::zero())
    }

    fn one() -> Self {
        Limited(f64::one())
    }

    fn two() -> Self {
        Limited(f64::two())
    }

    fn four() -> Self {
        Limited(f64::four())
    }

    fn fuzzy_epsilon() -> Self {
        Limited(f64::fuzzy_epsilon())
    }

    fn from(value: f64) -> Option<Self> {
        <f64 as Real>::from(value).map(Limited)
    }

    fn abs(self) -> Self {
        Limited(Real::abs(self.0))
    }

    fn sqrt(self) -> Self {
        ROOTS.set(ROOTS.get() + 1);
        Limited(Real::sqrt(self.0))
    }

    fn sin(self) -> Self {
        Limited(Real::sin(self.0))
    }

    fn cos(self) -> Self {
        Limited(Real::cos(self.0))
    }

    fn atan(self) -> Self {
        Limited(Real::atan(self.0))
    }

    fn atan2(self, other: Self) -> Self {
        Limited(Real::atan2(self.0, other.0))
    }

    /// Of the text only `PlineVertex::bulge_is_zero` asks this.
    fn fuzzy_eq_zero(self) -> bool {
        let limit = LIMIT
            .get()
            .expect("these numbers are used in `run_at` only");
        self.fuzzy_eq_eps(Self::zero(), Limited(limit))
    }
}

#[test]
fn a_limit_ends_with_its_call() {
    use std::panic::catch_unwind;
    let number = Limited(1e-6);
    let of_four = run_at(1e-3, || (number.fuzzy_eq_zero(), Limited(4.0).sqrt()));
    assert_eq!(of_four, ((true, Limited(2.0)), 1));
    assert!(catch_unwind(|| run_at(1e-3, || panic!("a call that panics"))).is_err());
    assert_eq!(run_at(1e-6, || number.fuzzy_eq_zero()), (false, 0));
    assert!(catch_unwind(|| number.fuzzy_eq_zero()).is_err());
    // Only the zero test has the limit.
    assert!(!run_at(1e-3, || number.fuzzy_eq(Limited(0.0))).0);
}
