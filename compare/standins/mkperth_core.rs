//! The crate root over the four core modules; it has no code of its own.
mod calendar;
mod date;
mod holidays;
mod project;

pub use calendar::*;
pub use date::*;
pub use holidays::*;
pub use project::*;
