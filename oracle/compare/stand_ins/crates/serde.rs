//! Stand-in for serde: the two derives only.

pub use serde_derive::{Deserialize, Serialize};
