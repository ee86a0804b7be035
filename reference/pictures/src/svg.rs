//! A small writer of SVG. Lengths are whole tenths of a pixel, so that every
//! machine writes the same bytes.

use std::fmt::Write;

/// A length in tenths of a pixel.
pub type Tenths = i64;

pub const fn px(pixels: i64) -> Tenths {
    10 * pixels
}

const NAMESPACE: &str = "http://www.w3.org/2000/svg";
const FONT: &str = "Helvetica, Arial, 'DejaVu Sans', sans-serif";

pub struct Svg {
    text: String,
    depth: usize,
}

/// How a text stands to its point.
#[derive(Clone, Copy, PartialEq, Eq, Debug)]
pub enum Anchor {
    Start,
    Middle,
    End,
}

impl Svg {
    /// A picture on white, so that it is readable in a dark viewer too. The
    /// description is for those who cannot see it.
    pub fn new(width: Tenths, height: Tenths, title: &str, description: &str) -> Svg {
        let mut svg = Svg { text: String::new(), depth: 0 };
        let (w, h) = (number(width), number(height));
        let size = format!(r#"width="{w}" height="{h}" viewBox="0 0 {w} {h}""#);
        let head = format!(r#"xmlns="{NAMESPACE}" {size} role="img" font-family="{FONT}""#);
        svg.line_of(&format!("<svg {head}>"));
        svg.depth = 1;
        svg.line_of(&format!("<title>{}</title>", escaped(title)));
        svg.line_of(&format!("<desc>{}</desc>", escaped(description)));
        svg.group(r##"fill="#ffffff""##, |svg| svg.rect(0, 0, width, height));
        svg
    }

    /// Elements that share their attributes.
    pub fn group(&mut self, attributes: &str, draw: impl FnOnce(&mut Svg)) {
        self.line_of(&format!("<g {attributes}>"));
        self.depth += 1;
        draw(self);
        self.depth -= 1;
        self.line_of("</g>");
    }

    pub fn rect(&mut self, x: Tenths, y: Tenths, width: Tenths, height: Tenths) {
        let (x, y, width, height) = (number(x), number(y), number(width), number(height));
        self.line_of(&format!(r#"<rect x="{x}" y="{y}" width="{width}" height="{height}"/>"#));
    }

    pub fn line(&mut self, from: (Tenths, Tenths), to: (Tenths, Tenths)) {
        let (x1, y1, x2, y2) = (number(from.0), number(from.1), number(to.0), number(to.1));
        self.line_of(&format!(r#"<line x1="{x1}" y1="{y1}" x2="{x2}" y2="{y2}"/>"#));
    }

    /// A line through points, its steps level or upright.
    pub fn steps(&mut self, points: &[(Tenths, Tenths)]) {
        let mut path = String::new();
        let mut last = None;
        for &(x, y) in points {
            match last {
                None => write!(path, "M{} {}", number(x), number(y)),
                Some((_, before)) if before == y => write!(path, "H{}", number(x)),
                Some((before, _)) if before == x => write!(path, "V{}", number(y)),
                Some(_) => write!(path, "L{} {}", number(x), number(y)),
            }
            .expect("a string takes all");
            last = Some((x, y));
        }
        self.line_of(&format!(r#"<path d="{path}"/>"#));
    }

    pub fn text(&mut self, x: Tenths, y: Tenths, anchor: Anchor, words: &str) {
        let anchor = match anchor {
            Anchor::Start => "",
            Anchor::Middle => r#" text-anchor="middle""#,
            Anchor::End => r#" text-anchor="end""#,
        };
        let (x, y, words) = (number(x), number(y), escaped(words));
        self.line_of(&format!(r#"<text x="{x}" y="{y}"{anchor}>{words}</text>"#));
    }

    pub fn finish(mut self) -> String {
        self.depth = 0;
        self.line_of("</svg>");
        self.text
    }

    fn line_of(&mut self, element: &str) {
        self.text.extend(std::iter::repeat_n(' ', self.depth));
        self.text.push_str(element);
        self.text.push('\n');
    }
}

/// Tenths as pixels, with no zero at the end.
fn number(tenths: Tenths) -> String {
    let sign = if tenths < 0 { "-" } else { "" };
    let (whole, part) = (tenths.abs() / 10, tenths.abs() % 10);
    if part == 0 {
        format!("{sign}{whole}")
    } else {
        format!("{sign}{whole}.{part}")
    }
}

fn escaped(words: &str) -> String {
    words.replace('&', "&amp;").replace('<', "&lt;").replace('>', "&gt;")
}

#[cfg(test)]
mod tests {
    use super::*;

    #[test]
    fn numbers_are_short() {
        assert_eq!([0, 5, 10, -5, -123].map(number), ["0", "0.5", "1", "-0.5", "-12.3"]);
    }

    #[test]
    fn words_are_escaped() {
        assert_eq!(escaped("a < b & c"), "a &lt; b &amp; c");
    }

    #[test]
    fn steps_are_level_or_upright() {
        let mut svg = Svg { text: String::new(), depth: 0 };
        svg.steps(&[(0, 10), (20, 10), (20, 30), (40, 50)]);
        assert_eq!(svg.text, "<path d=\"M0 1H2V3L4 5\"/>\n");
    }
}
