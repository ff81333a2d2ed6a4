//! A small writer of SVG: shapes and words, each of a class that a style sheet paints.

use std::fmt::{self, Display};

/// A drawing under way.
#[derive(Default)]
pub struct Svg {
    body: String,
}

impl Svg {
    /// A rectangle with round corners.
    pub fn rect(&mut self, class: &str, [x, y]: [usize; 2], [width, height]: [usize; 2]) {
        self.add(format_args!(
            r#"<rect class="{class}" x="{x}" y="{y}" width="{width}" height="{height}" rx="4"/>"#
        ));
    }

    /// A line through some points.
    pub fn line(&mut self, class: &str, points: &[[usize; 2]]) {
        let points: Vec<String> = points.iter().map(|[x, y]| format!("{x},{y}")).collect();
        self.add(format_args!(
            r#"<polyline class="{class}" points="{}"/>"#,
            points.join(" ")
        ));
    }

    /// Words; the class says how they stand to the point.
    pub fn text(&mut self, class: &str, [x, y]: [usize; 2], words: impl Display) {
        let words = escape(&words.to_string());
        self.add(format_args!(
            r#"<text class="{class}" x="{x}" y="{y}">{words}</text>"#
        ));
    }

    /// Shapes that belong together, of one class.
    pub fn group(&mut self, class: &str, draw: impl FnOnce(&mut Svg)) {
        self.add(format_args!(r#"<g class="{class}">"#));
        draw(self);
        self.add(format_args!("</g>"));
    }

    /// The whole document.
    pub fn document(
        self,
        [width, height]: [usize; 2],
        title: &str,
        style: &str,
        marks: &str,
    ) -> String {
        let title = escape(title);
        format!(
            "<?xml version=\"1.0\" encoding=\"UTF-8\"?>\n\
             <svg xmlns=\"http://www.w3.org/2000/svg\" viewBox=\"0 0 {width} {height}\" \
             width=\"{width}\" height=\"{height}\" role=\"img\">\n\
             <title>{title}</title>\n<style>\n{style}</style>\n<defs>\n{marks}</defs>\n{}</svg>\n",
            self.body
        )
    }

    fn add(&mut self, shape: fmt::Arguments<'_>) {
        self.body.push_str(&shape.to_string());
        self.body.push('\n');
    }
}

/// Words as XML and HTML have them, in quotes too.
pub fn escape(words: &str) -> String {
    words
        .replace('&', "&amp;")
        .replace('<', "&lt;")
        .replace('>', "&gt;")
        .replace('"', "&quot;")
}

#[cfg(test)]
mod tests {
    use super::Svg;

    #[test]
    fn words_are_escaped() {
        let mut svg = Svg::default();
        svg.text("plain", [1, 2], "a < b & c");
        let document = svg.document([3, 4], "t > u", "", "");
        assert!(document.contains(r#"<text class="plain" x="1" y="2">a &lt; b &amp; c</text>"#));
        assert!(document.contains("<title>t &gt; u</title>"));
    }
}
