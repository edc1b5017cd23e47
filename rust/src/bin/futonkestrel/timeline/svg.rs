//! The elements of an SVG picture as text.

use std::fmt::{Display, Write};

#[derive(Default)]
pub struct Svg {
    text: String,
}

impl Svg {
    fn put(&mut self, line: impl Display) {
        writeln!(self.text, "{line}").expect("a string has room");
    }

    pub fn rect(&mut self, class: &str, x: i32, y: i32, width: i32, height: i32) {
        self.put(format_args!(
            r#"<rect class="{class}" x="{x}" y="{y}" width="{width}" height="{height}"/>"#
        ));
    }

    pub fn line(&mut self, class: &str, from: (i32, i32), to: (i32, i32)) {
        let ((x1, y1), (x2, y2)) = (from, to);
        self.put(format_args!(
            r#"<line class="{class}" x1="{x1}" y1="{y1}" x2="{x2}" y2="{y2}"/>"#
        ));
    }

    pub fn circle(&mut self, class: &str, x: i32, y: i32, radius: i32) {
        self.put(format_args!(
            r#"<circle class="{class}" cx="{x}" cy="{y}" r="{radius}"/>"#
        ));
    }

    pub fn path(&mut self, class: &str, path: &str) {
        self.put(format_args!(r#"<path class="{class}" d="{path}"/>"#));
    }

    pub fn text(&mut self, class: &str, x: i32, y: i32, text: &str) {
        let text = escaped(text);
        self.put(format_args!(
            r#"<text class="{class}" x="{x}" y="{y}">{text}</text>"#
        ));
    }

    /// Text that runs upwards from a point.
    pub fn upwards(&mut self, class: &str, x: i32, y: i32, text: &str) {
        let text = escaped(text);
        self.put(format_args!(
            r#"<text class="{class}" transform="translate({x} {y}) rotate(-90)">{text}</text>"#
        ));
    }

    /// What `draw` adds; a browser shows the words where the mouse is over it.
    pub fn titled(&mut self, words: &str, draw: impl FnOnce(&mut Svg)) {
        let words = escaped(words);
        self.put(format_args!("<g><title>{words}</title>"));
        draw(self);
        self.put("</g>");
    }

    /// All that was drawn so far.
    pub fn drawn(&self) -> &str {
        &self.text
    }

    /// A whole file of this size; `head` stands before all that was drawn.
    pub fn file(&self, width: i32, height: i32, title: &str, head: &str) -> String {
        let (title, drawn) = (escaped(title), &self.text);
        format!(
            r#"<?xml version="1.0" encoding="UTF-8"?>
<svg xmlns="http://www.w3.org/2000/svg" width="{width}" height="{height}" viewBox="0 0 {width} {height}" role="img">
<title>{title}</title>
{head}{drawn}</svg>
"#
        )
    }
}

/// Text as XML has it; characters that XML has no place for are replaced.
fn escaped(text: &str) -> String {
    let mut escaped = String::new();
    for character in text.chars() {
        match character {
            '&' => escaped.push_str("&amp;"),
            '<' => escaped.push_str("&lt;"),
            '>' => escaped.push_str("&gt;"),
            '"' => escaped.push_str("&quot;"),
            '\t' => escaped.push(' '),
            '\u{fffe}' | '\u{ffff}' => escaped.push('\u{fffd}'),
            _ if character.is_control() => escaped.push('\u{fffd}'),
            _ => escaped.push(character),
        }
    }
    escaped
}
