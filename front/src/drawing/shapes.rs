//! What a drawing is made of.

use crate::drawing::label::width;

/// The size of names and numbers.
pub const SIZE: i32 = 14;

#[derive(Debug, Clone, Copy, PartialEq)]
pub struct Rect {
    pub x: i32,
    pub y: i32,
    pub w: i32,
    pub h: i32,
}

#[derive(Debug, Clone, PartialEq)]
pub enum Shape {
    /// Words without a frame, from the left end of their room, or up to its right end.
    Words {
        rect: Rect,
        text: String,
        size: i32,
        bold: bool,
        to_the_right: bool,
    },
    /// The named end of a wire: what goes in, or what comes out.
    In {
        rect: Rect,
        text: String,
    },
    Out {
        rect: Rect,
        text: String,
    },
    /// The number that a wire's signal is multiplied by.
    Gain {
        rect: Rect,
        text: String,
    },
    Wire {
        x: i32,
        y: i32,
        length: i32,
    },
    Multiplier(Rect),
    Sum(Rect),
    Integrator(Rect),
    /// A variable that never changes.
    Knob(Rect),
    /// A signal that is fed from outside.
    Socket(Rect),
}

/// Shapes that belong together, under a name: `multiplier`, `integrator`, `knob`, `socket`, `input` or
/// `words`.
#[derive(Debug, Clone, PartialEq)]
pub struct Part {
    pub name: &'static str,
    /// What it is, for a person who points at it.
    pub title: String,
    pub shapes: Vec<Shape>,
}

impl Shape {
    /// The same, elsewhere.
    pub fn shifted(mut self, dx: i32, dy: i32) -> Shape {
        match &mut self {
            Shape::Wire { x, y, .. } => {
                *x += dx;
                *y += dy;
            }
            Shape::Words { rect, .. }
            | Shape::In { rect, .. }
            | Shape::Out { rect, .. }
            | Shape::Gain { rect, .. }
            | Shape::Multiplier(rect)
            | Shape::Sum(rect)
            | Shape::Integrator(rect)
            | Shape::Knob(rect)
            | Shape::Socket(rect) => {
                rect.x += dx;
                rect.y += dy;
            }
        }
        self
    }
}

/// Words from x on, with their middle at a height.
pub fn words(x: i32, middle: i32, text: &str, size: i32, bold: bool) -> Shape {
    let rect = Rect { x, y: middle - size * 2 / 3, w: width(text, size, bold), h: size * 4 / 3 };
    Shape::Words { rect, text: text.into(), size, bold, to_the_right: false }
}
