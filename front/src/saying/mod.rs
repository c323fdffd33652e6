//! Saying it: the answer in words for a person, and as JSON for other programs.

pub mod drawn;
pub mod export;
pub mod given;
pub mod help;
pub mod json;
pub mod numbers;
pub mod read;
pub mod report;
pub mod rule;
pub mod searched;
pub mod thinned;
pub mod unwired;
pub mod watch;
pub mod wired;
pub mod words;
pub mod works;
