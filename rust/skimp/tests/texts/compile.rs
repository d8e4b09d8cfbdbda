//! Compile.

mod exhaustive;
pub mod limits;
mod names;
mod random_sources;
mod rooms;
