//! SVG, as text: elements, and what may stand in them.

use crate::names;
use std::fmt::Write;

/// Names and sentences as they may stand in a text or an attribute.
pub fn escaped(text: &str) -> String {
    let mut told = String::with_capacity(text.len());
    for character in text.chars() {
        match character {
            '&' => told.push_str("&amp;"),
            '<' => told.push_str("&lt;"),
            '>' => told.push_str("&gt;"),
            '"' => told.push_str("&quot;"),
            // XML has no place for these two.
            '\u{fffe}' | '\u{ffff}' => {
                for byte in character.encode_utf8(&mut [0; 4]).bytes() {
                    told.push_str("\\x");
                    told.push_str(&names::hex(&[byte]));
                }
            }
            character => told.push(character),
        }
    }
    told
}

/// A length, to a hundredth.
pub fn length(value: f64) -> String {
    let text = format!("{value:.2}");
    let text = text.trim_end_matches('0').trim_end_matches('.');
    text.to_string()
}

#[derive(Clone, Copy)]
pub struct Rectangle {
    pub x: f64,
    pub y: f64,
    pub width: f64,
    pub height: f64,
}

impl Rectangle {
    /// Its lowest part, as a share of its height.
    pub fn lowest(self, share: f64) -> Rectangle {
        Rectangle {
            y: self.y + self.height * (1.0 - share),
            height: self.height * share,
            ..self
        }
    }
}

/// What is drawn so far.
#[derive(Default)]
pub struct Svg(String);

impl Svg {
    /// A line of markup as it is.
    pub fn raw(&mut self, markup: &str) {
        self.0.push_str(markup);
        self.0.push('\n');
    }

    pub fn rectangle(&mut self, place: Rectangle, attributes: &str) {
        let Rectangle {
            x,
            y,
            width,
            height,
        } = place;
        let [x, y, width, height] = [x, y, width, height].map(length);
        let _ = writeln!(
            self.0,
            r#"<rect x="{x}" y="{y}" width="{width}" height="{height}" {attributes}/>"#
        );
    }

    /// A text that begins at a place, or with `attributes` ends or is centred there.
    pub fn text(&mut self, x: f64, y: f64, attributes: &str, text: &str) {
        let [x, y] = [x, y].map(length);
        let text = escaped(text);
        let _ = writeln!(self.0, r#"<text x="{x}" y="{y}"{attributes}>{text}</text>"#);
    }

    pub fn line(&mut self, from: (f64, f64), to: (f64, f64), attributes: &str) {
        let [x1, y1, x2, y2] = [from.0, from.1, to.0, to.1].map(length);
        let _ = writeln!(self.0, r#"<path d="M{x1} {y1}L{x2} {y2}"{attributes}/>"#);
    }

    /// Some elements that have one title, which browsers show under the pointer.
    pub fn titled(&mut self, title: &str, draw: impl FnOnce(&mut Svg)) {
        let _ = writeln!(
            self.0,
            r#"<g class="part"><title>{}</title>"#,
            escaped(title)
        );
        draw(self);
        self.raw("</g>");
    }

    pub fn markup(self) -> String {
        self.0
    }
}

#[cfg(test)]
mod tests {
    use super::*;

    #[test]
    fn texts_are_escaped() {
        assert_eq!(escaped("a<b>&\"c\"'"), "a&lt;b&gt;&amp;&quot;c&quot;'");
        assert_eq!(escaped("\u{ffff}"), "\\xef\\xbf\\xbf");
    }
}
