//! Pictures as SVG: lines, shapes and words in black and grey, on white.

use std::fmt::Write;

/// The sizes of words, in pixels.
pub const SMALL: f64 = 12.0;
pub const LARGE: f64 = 15.0;

pub const BLACK: &str = r##"fill="none" stroke="#000""##;
pub const GREY: &str = r##"fill="none" stroke="#bbb""##;
pub const FILLED: &str = r##"fill="#000""##;

#[derive(Clone, Copy, Debug, PartialEq, Eq)]
pub enum Anchor {
    Start,
    Middle,
    End,
}

/// A picture that grows downward as things are drawn.
pub struct Svg {
    /// What the picture shows, for readers who do not see it.
    words: String,
    width: f64,
    height: f64,
    body: String,
}

/// About how wide words are, in the widest of the usual fonts.
pub fn width_of(words: &str, size: f64) -> f64 {
    let letter = |letter: char| match letter {
        ' ' | ',' | '.' | ':' | ';' | 'i' | 'l' | 'j' | '(' | ')' | 'f' | 't' | 'r' => 0.41,
        '#' | '+' | '−' | '=' | '<' | '>' | 'm' | 'w' | 'M' | 'W' | 'N' => 0.9,
        letter if letter.is_uppercase() => 0.75,
        _ => 0.64,
    };
    size * words.chars().map(letter).sum::<f64>()
}

fn escaped(words: &str) -> String {
    let mut safe = String::new();
    for letter in words.chars() {
        match letter {
            '&' => safe.push_str("&amp;"),
            '<' => safe.push_str("&lt;"),
            '>' => safe.push_str("&gt;"),
            letter if letter.is_control() => safe.push('?'),
            letter => safe.push(letter),
        }
    }
    safe
}

impl Svg {
    pub fn new(width: f64) -> Svg {
        Svg { words: String::new(), width, height: 0.0, body: String::new() }
    }

    /// Adds to the words that stand for the picture.
    pub fn describe(&mut self, words: &str) {
        let gap = if self.words.is_empty() { "" } else { " " };
        self.words += &format!("{gap}{words}");
    }

    /// The picture reaches down to here at least.
    pub fn reach(&mut self, height: f64) {
        self.height = self.height.max(height);
    }

    fn words(&mut self, attributes: &str, words: &str) {
        let _ = writeln!(self.body, "<text {attributes}>{}</text>", escaped(words));
    }

    pub fn text(&mut self, (x, y): (f64, f64), anchor: Anchor, words: &str) {
        let anchor = match anchor {
            Anchor::Start => "start",
            Anchor::Middle => "middle",
            Anchor::End => "end",
        };
        let place = format!(r#"x="{x:.1}" y="{y:.1}" font-size="{SMALL}""#);
        self.words(&format!(r#"{place} text-anchor="{anchor}""#), words);
    }

    pub fn heading(&mut self, (x, y): (f64, f64), words: &str) {
        let place = format!(r#"x="{x:.1}" y="{y:.1}" font-size="{LARGE}" text-anchor="start""#);
        self.words(&format!(r#"{place} font-weight="bold""#), words);
    }

    /// Words that run upward, with their middle at a point.
    pub fn upward(&mut self, (x, y): (f64, f64), words: &str) {
        let turn = format!(r#"transform="translate({x:.1} {y:.1}) rotate(-90)""#);
        self.words(&format!(r#"{turn} font-size="{SMALL}" text-anchor="middle""#), words);
    }

    pub fn path(&mut self, class: &str, style: &str, data: &str) {
        if !data.is_empty() {
            let _ = writeln!(self.body, r#"<path class="{class}" {style} d="{data}"/>"#);
        }
    }

    pub fn frame(&mut self, (x, y): (f64, f64), (right, bottom): (f64, f64)) {
        let data = format!("M{x:.1} {y:.1}H{right:.1}V{bottom:.1}H{x:.1}Z");
        self.path("frame", BLACK, &data);
    }

    fn element(&self, namespace: &str) -> String {
        let (width, height) = (self.width, self.height.ceil());
        format!(
            "<svg{namespace} role=\"img\" aria-label=\"{}\" viewBox=\"0 0 {width} {height}\" width=\"{width}\" height=\"{height}\" \
             font-family=\"DejaVu Sans, Verdana, sans-serif\">\n\
             <rect width=\"{width}\" height=\"{height}\" fill=\"#fff\"/>\n{}</svg>\n",
            escaped(&self.words).replace('"', "&quot;"),
            self.body
        )
    }

    /// A file of its own.
    pub fn document(&self) -> String {
        self.element(" xmlns=\"http://www.w3.org/2000/svg\"")
    }

    /// A part of a page.
    pub fn inline(&self) -> String {
        self.element("")
    }
}

#[cfg(test)]
mod tests {
    use super::*;

    #[test]
    fn words_are_safe() {
        let mut svg = Svg::new(10.0);
        svg.text((1.0, 2.0), Anchor::Middle, "a<b> & \u{7}");
        assert!(svg.document().contains(">a&lt;b&gt; &amp; ?</text>"));
    }
}
