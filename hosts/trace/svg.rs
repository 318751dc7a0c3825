//! Elements of a picture as text. Coordinates have one decimal.

/// The picture's classes. Shades differ in grayscale too; red is for records that differ alone. Backgrounds let the lines of ticks through.
pub const STYLE: &str = "\
text{font-family:system-ui,sans-serif;font-size:11px;fill:#222}
.title{font-size:15px;font-weight:bold}
.group{font-weight:bold}
.name,.small{text-anchor:end}
.small,.inside,.inside-dark{font-size:9px;fill:#555}
.inside{fill:#222}
.inside-dark{fill:#fff}
.label{font-size:10px;text-anchor:middle}
.edge{stroke:#888;fill:none}
.grid{stroke:#bbb;stroke-dasharray:2 3;fill:none}
.crisp{shape-rendering:crispEdges}
.capacity{fill:#1f4e79;fill-opacity:.12}
.words-most{fill:#8fb4dc}
.words{fill:#1f4e79}
.exists{fill:#38761d;fill-opacity:.1}
.messages-most{fill:#a9cf98}
.messages{fill:#38761d}
.sending{fill:#1f4e79;stroke:#1f4e79}
.receiving{fill:#cfe0f2;stroke:#1f4e79}
.at-mailbox{fill:url(#hatch);stroke:#38761d}
.sending-columns{fill:#1f4e79}
.receiving-columns{fill:#a6c8ea}
.at-mailbox-columns{fill:#5d9a43}
.time-out{fill:#fff;stroke:#111;stroke-width:1.8}
.release{fill:#e08a1e;stroke:#111;stroke-width:.8}
.halo{fill:none;stroke:#fff;stroke-width:5}
.delete{fill:none;stroke:#7030a0;stroke-width:2.4}
.row-time-out{fill:#111}
.row-release{fill:#d0740a}
.row-delete{fill:#7030a0}
.differs{fill:#c00000}
.not-run{fill:#ff9a8d;stroke:#c00000;stroke-width:.8}
.line-differs{stroke:#c00000;stroke-width:1.2;stroke-opacity:.7;fill:none}
.line-not-run{stroke:#ff7a6a;stroke-width:1.6;stroke-dasharray:5 4;fill:none}
.pointed{fill:none;pointer-events:all}";

/// Stripes, so that waits at mailboxes are told from the others without colours.
pub const HATCH: &str = "<pattern id=\"hatch\" width=\"5\" height=\"5\" patternUnits=\"userSpaceOnUse\" patternTransform=\"rotate(45)\">\
<rect width=\"5\" height=\"5\" fill=\"#dcebd4\"/><rect width=\"2\" height=\"5\" fill=\"#6ea456\"/></pattern>";

pub fn escaped(text: &str) -> String {
    text.replace('&', "&amp;").replace('<', "&lt;").replace('>', "&gt;").replace('"', "&quot;")
}

/// A coordinate.
pub fn at(number: f64) -> String {
    let text = format!("{number:.1}");
    text.strip_suffix(".0").unwrap_or(&text).to_string()
}

/// About how wide a text is, rather too much than too little.
pub fn width_of(text: &str, size: f64) -> f64 {
    text.chars().count() as f64 * size * 0.62
}

#[derive(Default)]
pub struct Svg {
    pub text: String,
}

impl Svg {
    pub fn line(&mut self, element: &str) {
        self.text.push_str(element);
        self.text.push('\n');
    }

    pub fn text(&mut self, class: &str, x: f64, y: f64, content: &str) {
        self.line(&format!("<text class=\"{class}\" x=\"{}\" y=\"{}\">{}</text>", at(x), at(y), escaped(content)));
    }

    /// With a title, which a viewer shows where the element is pointed at; empty for none.
    fn element(&mut self, name: &str, attributes: &str, title: &str) {
        let start = format!("<{name} {attributes}");
        if title.is_empty() {
            self.line(&format!("{start}/>"));
        } else {
            self.line(&format!("{start}><title>{}</title></{name}>", escaped(title)));
        }
    }

    pub fn rect(&mut self, class: &str, (x, y): (f64, f64), (width, height): (f64, f64), title: &str) {
        let place = format!("x=\"{}\" y=\"{}\" width=\"{}\" height=\"{}\"", at(x), at(y), at(width), at(height));
        self.element("rect", &format!("class=\"{class}\" {place}"), title);
    }

    /// Nothing where the path is empty.
    pub fn path(&mut self, class: &str, path: &str, title: &str) {
        if !path.is_empty() {
            self.element("path", &format!("class=\"{class}\" d=\"{path}\""), title);
        }
    }

    pub fn circle(&mut self, class: &str, (x, y): (f64, f64), radius: f64, title: &str) {
        let place = format!("cx=\"{}\" cy=\"{}\" r=\"{}\"", at(x), at(y), at(radius));
        self.element("circle", &format!("class=\"{class}\" {place}"), title);
    }
}

/// A filled rectangle as part of a path.
pub fn block(left: f64, right: f64, top: f64, bottom: f64) -> String {
    format!("M{} {}V{}H{}V{}z", at(left), at(bottom), at(top), at(right), at(bottom))
}

#[cfg(test)]
mod tests {
    use super::*;

    #[test]
    fn coordinates_and_escapes() {
        assert_eq!((at(3.0), at(3.25), at(0.04)), ("3".to_string(), "3.2".to_string(), "0".to_string()));
        assert_eq!(escaped("a<b & \"c\">"), "a&lt;b &amp; &quot;c&quot;&gt;");
        let mut svg = Svg::default();
        svg.rect("x", (1.0, 2.0), (3.0, 4.5), "1 < 2");
        svg.path("x", "", "");
        assert_eq!(svg.text, "<rect class=\"x\" x=\"1\" y=\"2\" width=\"3\" height=\"4.5\"><title>1 &lt; 2</title></rect>\n");
    }
}
