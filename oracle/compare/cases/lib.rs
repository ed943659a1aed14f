//! Cases from seeds: what the oracle is given and the port is lent, the comparison with the model, and the stored lists. The program `cases`,
//! the trials and the measuring of the search use it.

pub mod compare;
pub mod exact;
pub mod given;
pub mod hostile;
pub mod lists;
pub mod oracle;
pub mod others;
pub mod questions;
pub mod rng;
pub mod sheet;
pub mod sky;
pub mod story;
pub mod tables;
