//! A drawing as SVG. Readable in black and white.

use crate::drawing::label::{runs, Height, REDUCED};
use crate::drawing::shapes::{Part, Rect, Shape, SIZE};
use crate::drawing::sheet::Drawing;

const FONT: &str = "Helvetica, Arial, 'Liberation Sans', 'DejaVu Sans', sans-serif";

pub fn svg(drawing: &Drawing) -> String {
    let (w, h) = (drawing.width, drawing.height);
    let mut out = format!(
        "<svg xmlns=\"http://www.w3.org/2000/svg\" width=\"{w}\" height=\"{h}\" viewBox=\"0 0 {w} {h}\" \
         font-family=\"{FONT}\" font-size=\"{SIZE}\" fill=\"black\" stroke=\"none\">\n\
         <rect width=\"{w}\" height=\"{h}\" fill=\"white\"/>\n"
    );
    for part in &drawing.parts {
        out += &group(part);
    }
    out += "</svg>\n";
    out
}

fn group(part: &Part) -> String {
    let mut out = format!("<g class=\"{}\">\n<title>{}</title>\n", part.name, escaped(&part.title));
    for shape in &part.shapes {
        out += &drawn(shape);
    }
    out += "</g>\n";
    out
}

fn drawn(shape: &Shape) -> String {
    match shape {
        Shape::Words { rect, text, size, bold, to_the_right } => {
            let (x, anchor) = if *to_the_right { (rect.x + rect.w, "end") } else { (rect.x, "start") };
            label(text, x, middle(rect), *size, *bold, anchor)
        }
        Shape::In { rect, text } => tag(rect, text, "white", false),
        Shape::Out { rect, text } => tag(rect, text, "#dfe9f5", true),
        Shape::Gain { rect, text } => {
            framed(rect, 10, "white") + &label(text, rect.x + rect.w / 2, middle(rect), SIZE, false, "middle")
        }
        Shape::Wire { x, y, length } => {
            format!("<path d=\"M{x} {y}h{length}\" stroke=\"black\" stroke-width=\"1.5\"/>\n")
        }
        Shape::Multiplier(rect) => framed(rect, 3, "#fff3cf") + &sign("×", rect, 0),
        Shape::Sum(rect) => framed(rect, 3, "#f1f1f1") + &sign("Σ", rect, 0),
        Shape::Integrator(rect) => {
            let Rect { x, y, w, h } = rect;
            let half = h / 2;
            format!("<path d=\"M{x} {y}l{w} {half}l-{w} {half}z\" fill=\"#dff0df\" stroke=\"black\" stroke-width=\"1.5\"/>\n")
                + &sign("∫", rect, -7)
        }
        Shape::Knob(rect) => {
            let (x, y, r) = (rect.x + rect.w / 2, middle(rect), rect.w / 2);
            format!(
                "<circle cx=\"{x}\" cy=\"{y}\" r=\"{r}\" fill=\"white\" stroke=\"black\" stroke-width=\"1.5\"/>\n\
                 <path d=\"M{x} {y}l10 -14\" stroke=\"black\" stroke-width=\"2\"/>\n"
            )
        }
        Shape::Socket(rect) => {
            let (x, y, r) = (rect.x + rect.w / 2, middle(rect), rect.w / 2);
            let (ring, hole) = (r * 2 / 3, r / 3);
            format!(
                "<circle cx=\"{x}\" cy=\"{y}\" r=\"{r}\" fill=\"white\" stroke=\"black\" stroke-width=\"1.5\"/>\n\
                 <circle cx=\"{x}\" cy=\"{y}\" r=\"{ring}\" fill=\"#e4e4e4\" stroke=\"black\"/>\n\
                 <circle cx=\"{x}\" cy=\"{y}\" r=\"{hole}\"/>\n"
            )
        }
    }
}

fn middle(rect: &Rect) -> i32 {
    rect.y + rect.h / 2
}

fn framed(rect: &Rect, round: i32, fill: &str) -> String {
    let Rect { x, y, w, h } = rect;
    format!(
        "<rect x=\"{x}\" y=\"{y}\" width=\"{w}\" height=\"{h}\" rx=\"{round}\" fill=\"{fill}\" stroke=\"black\"/>\n"
    )
}

/// A flag that points the way the signal goes.
fn tag(rect: &Rect, text: &str, fill: &str, bold: bool) -> String {
    const POINT: i32 = 8;
    let (x, y, straight, half) = (rect.x, rect.y, rect.w - POINT, rect.h / 2);
    let frame = format!(
        "<path d=\"M{x} {y}h{straight}l{POINT} {half}l-{POINT} {half}h-{straight}z\" fill=\"{fill}\" stroke=\"black\"/>\n"
    );
    frame + &label(text, x + straight / 2 + 2, middle(rect), SIZE, bold, "middle")
}

fn sign(text: &str, rect: &Rect, shift: i32) -> String {
    label(text, rect.x + rect.w / 2 + shift, middle(rect), 20, false, "middle")
}

/// Text with its middle at y.
fn label(plain: &str, x: i32, y: i32, size: i32, bold: bool, anchor: &str) -> String {
    let base = f64::from(y) + 0.36 * f64::from(size);
    let weight = if bold { " font-weight=\"bold\"" } else { "" };
    let mut out = format!(
        "<text x=\"{x}\" y=\"{base:.1}\" font-size=\"{size}\" text-anchor=\"{anchor}\"{weight} xml:space=\"preserve\">"
    );
    // How far the runs so far have left the line.
    let mut left = 0.0;
    for run in runs(plain) {
        let text = escaped(&run.text);
        let (off, reduced) = match run.height {
            Height::Plain => (0.0, 1.0),
            Height::Raised => (-0.38 * f64::from(size), REDUCED),
            Height::Lowered => (0.18 * f64::from(size), REDUCED),
        };
        out += &match (off == left, reduced == 1.0) {
            (true, true) => text,
            (_, true) => format!("<tspan dy=\"{:.1}\">{text}</tspan>", off - left),
            (_, false) => {
                let smaller = reduced * f64::from(size);
                format!("<tspan dy=\"{:.1}\" font-size=\"{smaller:.1}\">{text}</tspan>", off - left)
            }
        };
        left = off;
    }
    out += "</text>\n";
    out
}

fn escaped(text: &str) -> String {
    text.replace('&', "&amp;").replace('<', "&lt;").replace('>', "&gt;")
}

#[cfg(test)]
mod tests {
    use super::*;
    use crate::drawing::sheet::tests::drawings;

    /// The names of the elements, each opened and closed in turn.
    fn balanced(text: &str) -> Vec<String> {
        let (mut open, mut seen) = (Vec::new(), Vec::new());
        for piece in text.split('<').skip(1) {
            let (tag, _) = piece.split_once('>').expect("an element ends");
            let name = tag.trim_start_matches('/').split([' ', '/']).next().unwrap().to_string();
            if tag.starts_with('/') {
                assert_eq!(open.pop(), Some(name));
            } else {
                assert_eq!(tag.matches('"').count() % 2, 0, "{tag}");
                seen.push(name.clone());
                if !tag.ends_with('/') {
                    open.push(name);
                }
            }
        }
        assert!(open.is_empty(), "{open:?}");
        seen
    }

    #[test]
    fn elements_are_closed_and_groups_are_parts() {
        for (patch, drawing) in drawings() {
            let text = svg(&drawing);
            let elements = balanced(&text);
            assert_eq!(elements.iter().filter(|e| *e == "g").count(), drawing.parts.len());
            let inputs = patch.rows.iter().map(|row| row.wires.len()).sum();
            assert_eq!(text.matches("<g class=\"input\">").count(), inputs);
            assert_eq!(
                text.matches('∫').count(),
                text.matches("<g class=\"integrator\">").count() + 1,
                "one in the legend"
            );
        }
    }

    #[test]
    fn a_run_goes_back_to_the_line() {
        let label = label("x^2*y", 0, 0, 10, false, "start");
        assert!(
            label.contains("x<tspan dy=\"-3.8\" font-size=\"7.2\">2</tspan><tspan dy=\"3.8\">·y</tspan>"),
            "{label}"
        );
        for (_, drawing) in drawings() {
            for text in super::svg(&drawing).split("<text ").skip(1) {
                let text = text.split("</text>").next().unwrap();
                let steps = text.split("dy=\"").skip(1).map(|s| s.split('"').next().unwrap().parse::<f64>().unwrap());
                let off: f64 = steps.sum();
                assert!(off.abs() < 7.0, "{text}");
            }
        }
    }

    #[test]
    fn signs_of_markup_are_escaped() {
        assert_eq!(escaped("a < b & c > d"), "a &lt; b &amp; c &gt; d");
    }
}
