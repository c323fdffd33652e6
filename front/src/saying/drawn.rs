//! What became of the drawing.

use crate::drawing::sheet::{self, Heading};
use crate::drawing::svg::svg;
use crate::patch::Patch;

pub enum Drawn {
    NotAsked,
    In(String),
    NotWired(String),
    /// Nothing is wired, and the file has what was drawn while the search ran.
    Before(String),
    Failed(String, String),
}

impl Drawn {
    /// Draws a patch under its heading, over what the file had.
    pub fn draw(file: &str, patch: &Patch, heading: &Heading) -> Drawn {
        match std::fs::write(file, svg(&sheet::draw(patch, heading))) {
            Ok(()) => Drawn::In(file.into()),
            Err(why) => Drawn::Failed(file.into(), why.to_string()),
        }
    }

    pub fn words(&self) -> Option<String> {
        match self {
            Drawn::NotAsked => None,
            Drawn::In(file) => Some(format!("Drawn in {file}.")),
            Drawn::NotWired(file) => Some(format!("Not drawn: nothing is wired, and {file} was not written.")),
            Drawn::Before(file) => {
                Some(format!("Not drawn: nothing is wired. {file} has the patch that was met while the search ran."))
            }
            Drawn::Failed(file, why) => Some(format!("Not drawn: {file} cannot be written ({why}).")),
        }
    }
}
