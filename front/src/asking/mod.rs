//! Asking the planner: the proved program run, level by level or for a given set, and its answer read back; and a try for
//! a patch beside it.

pub mod answer;
pub mod beside;
pub mod climb;
pub mod planner;
