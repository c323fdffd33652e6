//! The units of a patch, each laid out by itself. Wires are named at both ends instead of being drawn from end to end,
//! so nothing crosses: a multiplier has the names of what it takes and gives, an integrator the names of what it sums.
//! All wires run from left to right.

use crate::algebra;
use crate::drawing::label::width;
use crate::drawing::shapes::{words, Part, Rect, Shape, SIZE};
use crate::patch::{Feed, Patch, Row};

/// The size of remarks.
pub const SMALL: i32 = 12;
const TAG: i32 = 24;
/// A tag's room beside its text: more on the right, where it is pointed.
const TAG_SPARE: i32 = 22;
const STUB: i32 = 16;
/// From one input of an integrator to the next.
const INPUT: i32 = 32;
const UNIT: i32 = 64;

/// A unit with its upper left corner at 0, 0.
pub struct Unit {
    pub width: i32,
    pub height: i32,
    pub parts: Vec<Part>,
}

fn tag_width<'a>(texts: impl Iterator<Item = &'a str>, bold: bool) -> i32 {
    texts.map(|t| width(t, SIZE, bold)).max().unwrap_or(0).max(SIZE) + TAG_SPARE
}

fn tag(x: i32, middle: i32, w: i32) -> Rect {
    Rect { x, y: middle - TAG / 2, w, h: TAG }
}

fn wire(x: i32, y: i32, length: i32) -> Shape {
    Shape::Wire { x, y, length }
}

/// Two names in, one out.
pub fn multipliers(patch: &Patch) -> Vec<Unit> {
    const BOX: i32 = 40;
    let pairs = patch.multipliers();
    let name = |s: usize| patch.signals[s].as_str();
    let products: Vec<String> = pairs.iter().map(|&(a, b)| algebra::product(&patch.signals, a, b)).collect();
    let taken = tag_width(pairs.iter().flat_map(|&(a, b)| [name(a), name(b)]), false);
    let given = tag_width(products.iter().map(String::as_str), true);
    let unit = |(&(a, b), product): (&(usize, usize), &String)| {
        let (high, low, middle) = (UNIT / 2 - 16, UNIT / 2 + 16, UNIT / 2);
        let out = taken + STUB + BOX;
        let shapes = vec![
            Shape::In { rect: tag(0, high, taken), text: name(a).into() },
            wire(taken, high, STUB),
            Shape::In { rect: tag(0, low, taken), text: name(b).into() },
            wire(taken, low, STUB),
            Shape::Multiplier(Rect { x: taken + STUB, y: 2, w: BOX, h: UNIT - 4 }),
            wire(out, middle, STUB),
            Shape::Out { rect: tag(out + STUB, middle, given), text: product.clone() },
        ];
        let title = format!("{product} = {} times {}", name(a), name(b));
        Unit { width: out + STUB + given, height: UNIT, parts: vec![Part { name: "multiplier", title, shapes }] }
    };
    pairs.iter().zip(&products).map(unit).collect()
}

/// Widths that all integrators share, so that they stand under each other.
struct Widths {
    taken: i32,
    gain: i32,
    given: i32,
}

/// One for each signal of the patch.
pub fn integrators(patch: &Patch) -> Vec<Unit> {
    let wires = || patch.rows.iter().flat_map(|row| &row.wires);
    let products: Vec<String> = wires().map(|w| patch.product(w)).collect();
    let gains: Vec<String> = wires().map(|w| w.coefficient.to_string()).collect();
    let widths = Widths {
        taken: tag_width(products.iter().map(String::as_str), false),
        gain: gains.iter().map(|g| width(g, SIZE, false)).max().unwrap_or(0).max(SIZE) + 14,
        given: tag_width(patch.rows.iter().map(|r| patch.signals[r.signal].as_str()), true),
    };
    patch.rows.iter().map(|row| integrator(patch, row, &widths)).collect()
}

/// Named inputs, each with its number, summed, integrated; one name out. A knob or a socket stands where nothing is
/// integrated.
fn integrator(patch: &Patch, row: &Row, widths: &Widths) -> Unit {
    const SUM: i32 = 30;
    const POINTED: i32 = 44;
    let height = UNIT.max(INPUT * row.wires.len() as i32);
    let middle = height / 2;
    let name = patch.signals[row.signal].as_str();
    let mut parts = Vec::new();
    let first = middle - INPUT * (row.wires.len() as i32 - 1) / 2;
    let gained = widths.taken + STUB;
    let summed = gained + widths.gain + STUB;
    for (i, w) in row.wires.iter().enumerate() {
        let y = first + INPUT * i as i32;
        let (product, gain) = (patch.product(w), w.coefficient.to_string());
        let title = format!("{gain} times {product} into {name}");
        let shapes = vec![
            Shape::In { rect: tag(0, y, widths.taken), text: product },
            wire(widths.taken, y, STUB),
            Shape::Gain { rect: Rect { x: gained, y: y - 10, w: widths.gain, h: 20 }, text: gain },
            wire(gained + widths.gain, y, STUB),
        ];
        parts.push(Part { name: "input", title, shapes });
    }
    let new = patch.new_of(row.signal);
    let pointed = summed + SUM + STUB;
    let out = pointed + POINTED + STUB;
    let mut shapes = Vec::new();
    let body = Rect { x: pointed, y: middle - 26, w: POINTED, h: 52 };
    let feed = patch.feed(row);
    if row.wires.is_empty() {
        let silent = if feed == Feed::Socket { "from outside" } else { "never changes" };
        let mut silent = words(pointed - STUB - width(silent, SMALL, false), middle, silent, SMALL, false);
        if let Shape::Words { to_the_right, .. } = &mut silent {
            *to_the_right = true;
        }
        shapes.push(silent);
    } else {
        shapes.push(Shape::Sum(Rect { x: summed, y: 2, w: SUM, h: height - 4 }));
        shapes.push(wire(summed + SUM, middle, STUB));
    }
    let (kind, title, unit) = match feed {
        Feed::Knob => ("knob", format!("{name} never changes"), Shape::Knob(body)),
        Feed::Socket => ("socket", format!("{name} is fed from outside"), Shape::Socket(body)),
        Feed::Integrator => ("integrator", format!("the integrator of {name}"), Shape::Integrator(body)),
    };
    shapes.push(unit);
    shapes.push(wire(pointed + POINTED, middle, STUB));
    shapes.push(Shape::Out { rect: tag(out, middle, widths.given), text: name.into() });
    let mut right = out + widths.given;
    if let Some(monomial) = new {
        let start = format!("starts at {monomial}");
        right = right.max(out + width(&start, SMALL, false));
        shapes.push(words(out, middle + TAG / 2 + 10, &start, SMALL, false));
    }
    parts.push(Part { name: kind, title, shapes });
    Unit { width: right, height, parts }
}
