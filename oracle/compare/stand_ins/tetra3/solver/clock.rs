//! Stand-in: the clock that the search never asks.

pub use std::time::Instant;
