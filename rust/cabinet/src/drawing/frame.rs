//! What all pictures have in common: width, paper, letters, title and legend.

use crate::drawing::svg::Svg;

pub const WIDTH: usize = 960;
pub const EDGE: usize = 56;
pub const INNER: usize = WIDTH - 2 * EDGE;

/// Where a picture's own part begins, below title and legend.
pub const TOP: usize = 132;

const LEGEND: usize = 92;

const STYLE: &str = "\
text { font-family: system-ui, 'DejaVu Sans', Helvetica, Arial, sans-serif; fill: #24323f; }
text { font-size: 14px; }
.paper { fill: #ffffff; }
.title { font-size: 24px; font-weight: bold; }
.small { font-size: 13px; fill: #51606d; }
.middle { text-anchor: middle; }
.end { text-anchor: end; }
";

/// Paper with a title and a line of words below it.
pub fn begin(height: usize, title: &str, words: &str) -> Svg {
    let mut svg = Svg::default();
    svg.rect("paper", [0, 0], [WIDTH, height]);
    svg.text("title", [EDGE, 48], title);
    svg.text("small", [EDGE, 74], words);
    svg
}

/// The legend: classes, their words and the room for each. Gives where the next would stand.
pub fn legend(entries: &[(&str, &str, usize)], svg: &mut Svg) -> [usize; 2] {
    let mut x = EDGE;
    for (class, words, width) in entries {
        svg.rect(class, [x, LEGEND], [16, 16]);
        svg.text("small", [x + 23, LEGEND + 13], words);
        x += width;
    }
    [x, LEGEND]
}

/// The whole document.
pub fn end(svg: Svg, height: usize, title: &str, style: &str, marks: &str) -> String {
    svg.document([WIDTH, height], title, &format!("{STYLE}{style}"), marks)
}
