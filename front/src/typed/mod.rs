//! What was typed: the command line, the equations with their names and the system that they are, and the set or the
//! listing that is given.

pub mod given;
pub mod lexer;
pub mod listing;
pub mod names;
pub mod options;
pub mod parser;
pub mod pasted;
pub mod settings;
pub mod system;
pub mod text;
