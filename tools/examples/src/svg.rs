//! Pictures as SVG text: a card with its own ground, so that they can be read on light and dark pages alike.

use std::fmt::Write;

const LIGHT: &str = "\
text { font-family: 'DejaVu Sans', Verdana, sans-serif; font-size: 14px; fill: #1f2933; }
.soft { fill: #4b5563; font-size: 12.5px; }
.strong { font-weight: bold; }
.card { fill: #ffffff; stroke: #c5ccd6; }
.person { fill: #ffffff; stroke: #1f2933; stroke-width: 2; }
.base { stroke: #1f2933; stroke-width: 3; }
.combination { stroke: #1f2933; stroke-width: 3; stroke-dasharray: 3 6; }
.branch { stroke: #6b7280; stroke-width: 1.5; }
.cut { fill: none; stroke: #b42318; stroke-width: 2.5; stroke-dasharray: 9 5; }
.area0 { fill: #cfe1ff; }
.area1 { fill: #fbe0b8; }
.area2 { fill: #cdeed3; }
.area3 { fill: #e6d6f7; }
.leaf { fill: none; stroke: #9aa5b1; }
";

const DARK: &str = "\
text { fill: #e8edf3; }
.soft { fill: #b6c2cf; }
.card { fill: #161b22; stroke: #3d4753; }
.person { fill: #161b22; stroke: #e8edf3; }
.base, .combination { stroke: #e8edf3; }
.branch { stroke: #9aa5b1; }
.cut { stroke: #ff9b8f; }
.area0 { fill: #1f4273; }
.area1 { fill: #63470f; }
.area2 { fill: #1e5330; }
.area3 { fill: #4d3570; }
.leaf { stroke: #5d6977; }
";

/// How many colours there are for areas.
pub const AREAS: usize = 4;

pub struct Picture {
    body: String,
    width: i32,
    height: i32,
}

/// Corner, width and height.
#[derive(Clone, Copy)]
pub struct Frame {
    pub x: i32,
    pub y: i32,
    pub width: i32,
    pub height: i32,
}

impl Picture {
    pub fn new(width: i32, height: i32) -> Picture {
        let mut picture = Picture { body: String::new(), width, height };
        let frame = Frame { x: 1, y: 1, width: width - 2, height: height - 2 };
        picture.frame("card", frame, 10);
        picture
    }

    pub fn frame(&mut self, class: &str, frame: Frame, round: i32) {
        let Frame { x, y, width, height } = frame;
        let _ = writeln!(
            self.body,
            r#"<rect class="{class}" x="{x}" y="{y}" width="{width}" height="{height}" rx="{round}"/>"#
        );
    }

    pub fn line(&mut self, class: &str, from: (i32, i32), to: (i32, i32)) {
        let ((x1, y1), (x2, y2)) = (from, to);
        let _ = writeln!(
            self.body,
            r#"<line class="{class}" x1="{x1}" y1="{y1}" x2="{x2}" y2="{y2}"/>"#
        );
    }

    pub fn circle(&mut self, class: &str, at: (i32, i32), radius: i32) {
        let (x, y) = at;
        let _ = writeln!(self.body, r#"<circle class="{class}" cx="{x}" cy="{y}" r="{radius}"/>"#);
    }

    /// Text that starts there.
    pub fn text(&mut self, class: &str, at: (i32, i32), text: &str) {
        self.put(class, at, "start", text);
    }

    /// Text with its middle there.
    pub fn centred(&mut self, class: &str, at: (i32, i32), text: &str) {
        self.put(class, at, "middle", text);
    }

    fn put(&mut self, class: &str, at: (i32, i32), anchor: &str, text: &str) {
        let (x, y) = at;
        let text = escaped(text);
        let _ = writeln!(
            self.body,
            r#"<text class="{class}" x="{x}" y="{y}" text-anchor="{anchor}">{text}</text>"#
        );
    }

    pub fn finish(self, title: &str) -> String {
        let Picture { body, width, height } = self;
        let title = escaped(title);
        format!(
            "<svg xmlns=\"http://www.w3.org/2000/svg\" viewBox=\"0 0 {width} {height}\" width=\"{width}\" height=\"{height}\" role=\"img\">\n\
             <title>{title}</title>\n<style>\n{LIGHT}@media (prefers-color-scheme: dark) {{\n{DARK}}}\n</style>\n{body}</svg>\n"
        )
    }
}

fn escaped(text: &str) -> String {
    text.replace('&', "&amp;").replace('<', "&lt;").replace('>', "&gt;")
}
