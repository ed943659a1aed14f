//! An independent model of document 01, written from the paper. Plain and slow: one rounding an operation,
//! in the paper's order.

pub mod combinations;
pub mod complete;
pub mod float;
pub mod frame;
pub mod pattern;
pub mod replay;
pub mod run;
pub mod search;
pub mod sweep;
pub mod table;
