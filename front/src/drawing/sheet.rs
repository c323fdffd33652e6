//! The units on a sheet, between a heading and a legend.

use crate::drawing::label::{lines, width};
use crate::drawing::shapes::{words, Part, SIZE};
use crate::drawing::units::{integrators, multipliers, Unit, SMALL};
use crate::patch::{Feed, Patch};

const TITLE: i32 = 18;
const MARGIN: i32 = 24;
/// From one line of text to the next.
const LINE: i32 = 20;
const UNIT_GAP: i32 = 20;
const COLUMN_GAP: i32 = 56;
/// Columns are broken at the first of these heights that makes the sheet no wider than three halves of its height. A
/// unit that is taller has a column of its own.
const TALL: [i32; 5] = [760, 1000, 1300, 1700, 2200];
/// Lines of text are broken at this width, where the units are not wider.
const WIDE: i32 = 760;

#[derive(Debug, PartialEq)]
pub struct Drawing {
    pub width: i32,
    pub height: i32,
    pub parts: Vec<Part>,
}

/// How many columns the units take where none is higher than `tall`.
fn columns(units: &[Unit], tall: i32) -> i32 {
    let (mut columns, mut used) = (1, 0);
    for unit in units {
        if 0 < used && tall < used + unit.height {
            (columns, used) = (columns + 1, 0);
        }
        used += unit.height + UNIT_GAP;
    }
    columns
}

/// Sets units under each other, and columns beside each other, as even as their order allows. Gives the right and the
/// lower end.
fn place(units: Vec<Unit>, left: i32, top: i32, tall: i32, parts: &mut Vec<Part>) -> (i32, i32) {
    let tallest = units.iter().map(|u| u.height).max().unwrap_or(0);
    let fewest = columns(&units, tallest.max(tall));
    let tall = (tallest..).find(|&tall| columns(&units, tall) <= fewest).unwrap_or(tallest);
    let (mut x, mut y) = (left, top);
    let (mut right, mut low) = (left, top);
    for unit in units {
        if top < y && top + tall < y + unit.height {
            (x, y) = (right + COLUMN_GAP, top);
        }
        for mut part in unit.parts {
            part.shapes = part.shapes.into_iter().map(|s| s.shifted(x, y)).collect();
            parts.push(part);
        }
        right = right.max(x + unit.width);
        low = low.max(y + unit.height);
        y += unit.height + UNIT_GAP;
    }
    (right, low)
}

/// Lines of text under each other. Gives the right and the lower end.
fn write(texts: &[(String, i32, bool)], left: i32, top: i32, title: &str, parts: &mut Vec<Part>) -> (i32, i32) {
    let mut shapes = Vec::new();
    let (mut right, mut y) = (left, top);
    for (text, size, bold) in texts {
        let step = LINE.max(size * 3 / 2);
        shapes.push(words(left, y + step / 2, text, *size, *bold));
        right = right.max(left + width(text, *size, *bold));
        y += step;
    }
    parts.push(Part { name: "words", title: title.into(), shapes });
    (right, y)
}

const LEGEND: [&str; 4] = [
    "Every name is a wire: ends with the same name are joined. The name 1 is the constant 1.",
    "× multiplies its two inputs. Σ adds its inputs, each times the number on its wire.",
    "∫ integrates the sum; what comes out is the signal named on its right.",
    "A new signal starts at the value under its name; where the others start is free.",
];

/// What stands over a patch: the typed equations, the set where one was given, and which set this is.
pub struct Heading {
    pub equations: Vec<String>,
    pub given: Option<String>,
    pub which: String,
}

impl Heading {
    /// Its lines, none of them too wide, each text broken where it is read as broken.
    fn lines(&self) -> Vec<String> {
        let equations = self.equations.iter().map(|text| (text, &[" + ", " - "][..]));
        let given = self.given.as_ref().map(|text| format!("Given set: {text}"));
        let given = given.iter().map(|text| (text, &[" "][..]));
        let which = std::iter::once((&self.which, &[" w", " and"][..]));
        let texts = equations.chain(given).chain(which);
        texts.flat_map(|(text, separators)| lines(text, separators, SIZE, WIDE)).collect()
    }
}

/// Draws the patch under its heading.
pub fn draw(patch: &Patch, heading: &Heading) -> Drawing {
    let mut drawing = sheet(patch, heading, TALL[0]);
    for tall in TALL {
        drawing = sheet(patch, heading, tall);
        if 2 * drawing.width <= 3 * drawing.height {
            break;
        }
    }
    drawing
}

fn sheet(patch: &Patch, heading: &Heading, tall: i32) -> Drawing {
    let mut parts = Vec::new();
    let mut texts = vec![("Patch".to_string(), TITLE, true)];
    texts.extend(heading.lines().into_iter().map(|line| (line, SIZE, false)));
    let (mut right, top) = write(&texts, MARGIN, MARGIN, "what this is a patch of", &mut parts);
    let top = top + LINE;

    let (multipliers, integrators) = (multipliers(patch), integrators(patch));
    let mut counts = format!("Integrators: {}", patch.fed_by(Feed::Integrator).count());
    for (feed, name) in [(Feed::Knob, "knobs"), (Feed::Socket, "sockets")] {
        let count = patch.fed_by(feed).count();
        if 0 < count {
            counts += &format!(", {name}: {count}");
        }
    }
    let mut left = MARGIN;
    let mut low = top;
    for (text, units) in [(format!("Multipliers: {}", multipliers.len()), multipliers), (counts, integrators)] {
        if units.is_empty() {
            continue;
        }
        let (end, under) = write(&[(text, SIZE, true)], left, top, "how many", &mut parts);
        let (edge, lower) = place(units, left, under + LINE / 2, tall, &mut parts);
        left = end.max(edge) + COLUMN_GAP;
        right = right.max(end).max(edge);
        low = low.max(lower);
    }
    let legend: Vec<(String, i32, bool)> = LEGEND.iter().map(|line| (line.to_string(), SMALL, false)).collect();
    let (end, low) = write(&legend, MARGIN, low + LINE, "how to read it", &mut parts);
    Drawing { width: right.max(end) + MARGIN, height: low + MARGIN, parts }
}

#[cfg(test)]
pub mod tests {
    use super::*;
    use crate::drawing::shapes::{Rect, Shape};
    use crate::recorded;

    impl Shape {
        /// The room that it takes; nothing for a wire.
        fn rect(&self) -> Option<Rect> {
            match self {
                Shape::Wire { .. } => None,
                Shape::Words { rect, .. }
                | Shape::In { rect, .. }
                | Shape::Out { rect, .. }
                | Shape::Gain { rect, .. } => Some(*rect),
                Shape::Multiplier(rect)
                | Shape::Sum(rect)
                | Shape::Integrator(rect)
                | Shape::Knob(rect)
                | Shape::Socket(rect) => Some(*rect),
            }
        }
    }

    impl Rect {
        fn meets(&self, other: &Rect) -> bool {
            self.x < other.x + other.w
                && other.x < self.x + self.w
                && self.y < other.y + other.h
                && other.y < self.y + self.h
        }
    }

    /// Patches with their drawings: small ones, signals that never change, and the largest.
    pub fn drawings() -> Vec<(Patch, Drawing)> {
        recorded::patches()
            .into_iter()
            .map(|(system, patch)| {
                let heading = Heading {
                    equations: system.equations(&system.records().unwrap()),
                    given: None,
                    which: "Set 1 of the 2 smallest sets: w1 = x^2, w2 = x^3".into(),
                };
                let drawing = draw(&patch, &heading);
                (patch, drawing)
            })
            .collect()
    }

    fn shapes(drawing: &Drawing) -> Vec<&Shape> {
        drawing.parts.iter().flat_map(|part| &part.shapes).collect()
    }

    fn titles<'a>(drawing: &'a Drawing, name: &str) -> Vec<&'a str> {
        drawing.parts.iter().filter(|part| part.name == name).map(|part| part.title.as_str()).collect()
    }

    #[test]
    fn no_line_of_the_heading_is_too_wide() {
        let monomial = "x1^54*x2^54*x3^54*x4^54";
        let given = [monomial; 6].join(", ");
        let heading = |given| Heading { equations: vec!["x' = x".into()], given, which: "Nothing".into() };
        assert_eq!(heading(None).lines(), ["x' = x", "Nothing"]);
        let lines = heading(Some(given.clone())).lines();
        assert!(3 < lines.len() && lines.iter().all(|line| width(line, SIZE, false) <= WIDE), "{lines:?}");
        let words = |lines: &[String]| lines.join(" ").split_whitespace().map(String::from).collect::<Vec<_>>();
        assert_eq!(words(&lines[1..lines.len() - 1]), words(&["Given set:".into(), given]));
    }

    #[test]
    fn a_long_heading_is_broken_between_its_clauses() {
        let clauses = ["The smallest set among those that leave u outside the new signals and", "whose new signals .."];
        let lines = Heading { equations: vec![], given: None, which: clauses.join(" ") + &" ..".repeat(20) }.lines();
        assert_eq!(lines.len(), 2);
        assert!(lines.iter().zip(clauses).all(|(line, clause)| line.trim_start().starts_with(clause)), "{lines:?}");
    }

    #[test]
    fn every_wiring_record_is_one_input() {
        for (patch, drawing) in drawings() {
            let wires = patch.rows.iter().flat_map(|row| &row.wires);
            let expected: Vec<String> = wires
                .map(|w| format!("{} times {} into {}", w.coefficient, patch.product(w), patch.signals[w.left]))
                .collect();
            assert_eq!(titles(&drawing, "input"), expected);
        }
    }

    #[test]
    fn every_product_has_one_multiplier_and_every_signal_one_unit() {
        for (patch, drawing) in drawings() {
            assert_eq!(titles(&drawing, "multiplier").len(), patch.multipliers().len());
            let units = ["integrator", "knob", "socket"].map(|name| titles(&drawing, name).len());
            let feeds = [Feed::Integrator, Feed::Knob, Feed::Socket].map(|feed| patch.fed_by(feed).count());
            assert_eq!((units, units.iter().sum()), (feeds, patch.rows.len()));
        }
    }

    #[test]
    fn every_name_that_goes_in_comes_out_of_one_unit() {
        for (_, drawing) in drawings() {
            let mut given: Vec<&str> = Vec::new();
            for shape in shapes(&drawing) {
                if let Shape::Out { text, .. } = shape {
                    assert!(!given.contains(&text.as_str()), "{text} comes out twice");
                    given.push(text);
                }
            }
            for shape in shapes(&drawing) {
                if let Shape::In { text, .. } = shape {
                    assert!(text == "1" || given.contains(&text.as_str()), "{text} comes from nowhere");
                }
            }
        }
    }

    #[test]
    fn nothing_overlaps() {
        for (_, drawing) in drawings() {
            let rects: Vec<(Rect, &Shape)> =
                shapes(&drawing).into_iter().filter_map(|s| s.rect().map(|r| (r, s))).collect();
            for (i, (a, shape)) in rects.iter().enumerate() {
                for (b, other) in &rects[..i] {
                    assert!(!a.meets(b), "{shape:?} meets {other:?}");
                }
                assert!(0 <= a.x && 0 <= a.y && a.x + a.w <= drawing.width && a.y + a.h <= drawing.height);
            }
        }
    }

    #[test]
    fn wires_join_neighbours_and_cross_nothing() {
        for (_, drawing) in drawings() {
            let shapes = shapes(&drawing);
            let rects: Vec<Rect> = shapes.iter().filter_map(|s| s.rect()).collect();
            let at = |x, y| move |r: &&Rect| r.y < y && y < r.y + r.h && (r.x == x || r.x + r.w == x);
            let mut wires = Vec::new();
            for shape in &shapes {
                if let Shape::Wire { x, y, length } = **shape {
                    assert!(rects.iter().any(|r| at(x, y)(&r) && r.x + r.w == x), "{shape:?} begins nowhere");
                    assert!(rects.iter().any(|r| at(x + length, y)(&r) && r.x == x + length), "{shape:?} ends nowhere");
                    let room = Rect { x, y, w: length, h: 1 };
                    assert!(!rects.iter().any(|r| r.meets(&room)), "{shape:?} runs through something");
                    assert!(!wires.iter().any(|w: &Rect| w.meets(&room)), "{shape:?} meets another wire");
                    wires.push(room);
                }
            }
        }
    }

    #[test]
    fn names_fit_their_tags() {
        for (_, drawing) in drawings() {
            for shape in shapes(&drawing) {
                let (rect, text, bold) = match shape {
                    Shape::In { rect, text } | Shape::Gain { rect, text } => (rect, text, false),
                    Shape::Out { rect, text } => (rect, text, true),
                    _ => continue,
                };
                assert!(width(text, SIZE, bold) + 12 <= rect.w, "{shape:?}");
            }
        }
    }

    #[test]
    fn a_signal_without_inputs_says_so() {
        let mut seen = [0, 0];
        for (patch, drawing) in drawings() {
            let said = |words: &str| {
                let shapes = shapes(&drawing).into_iter();
                shapes.filter(|s| matches!(s, Shape::Words { text, .. } if text == words)).count()
            };
            let (silent, fed) = (said("never changes"), said("from outside"));
            assert_eq!(silent + fed, patch.rows.iter().filter(|row| row.wires.is_empty()).count());
            assert_eq!(fed, patch.outside.len());
            seen = [seen[0] + silent, seen[1] + fed];
        }
        assert!(0 < seen[0] && 0 < seen[1], "{seen:?}");
    }

    #[test]
    fn the_same_patch_is_drawn_the_same() {
        let (first, second) = (drawings(), drawings());
        assert!(first.iter().zip(&second).all(|(a, b)| a.1 == b.1));
    }
}
