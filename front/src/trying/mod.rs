//! Trying for a set that will do, beside the search and long before its end. The set may be larger than needed, and what
//! is met here counts for nothing until the proved program has wired it: a wrong idea can cost a patch, never a true
//! word.

pub mod board;
pub mod product;
pub mod set;
pub mod sizes;
#[cfg(test)]
pub mod systems;
