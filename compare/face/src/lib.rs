//! The library that is judged: [`Bisquefern`] has the calls of [`oracle::Library`].
//!
//! The library is for x86-64. There it is linked; on another processor its calls go through the program `replay`.

#[cfg(target_arch = "x86_64")]
mod linked;
#[cfg(target_arch = "x86_64")]
pub use linked::Bisquefern;

#[cfg(not(target_arch = "x86_64"))]
mod replayed;
#[cfg(not(target_arch = "x86_64"))]
pub use replayed::Bisquefern;
