//! Drawing it: the patch of one set, laid out on a sheet and written as SVG.

pub mod label;
pub mod shapes;
pub mod sheet;
pub mod svg;
pub mod units;
