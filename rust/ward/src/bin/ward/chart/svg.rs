//! Elements of SVG as text.

/// The width of a letter of the fonts in use, which are those of fixed width, with some room.
pub const LETTER: f64 = 6.7;

const STYLE: &str = "text{font:11px 'DejaVu Sans Mono','Liberation Mono',Menlo,Consolas,monospace;fill:#222222}\
    .title{font-size:15px}.quiet{fill:#555555}.grid{stroke:#dddddd}.edge{stroke:#888888}\
    .line{fill:none;stroke:#222222;stroke-width:1.5}.link{stroke:#555555}.bar{stroke:#222222;stroke-width:0.5}";

/// A picture of a size, with a white ground.
pub fn document(width: f64, height: f64, body: &str) -> String {
    format!(
        "<svg xmlns=\"http://www.w3.org/2000/svg\" width=\"{width:.0}\" height=\"{height:.0}\" viewBox=\"0 0 {width:.0} {height:.0}\">\n\
         <style>{STYLE}</style>\n<rect width=\"{width:.0}\" height=\"{height:.0}\" fill=\"#ffffff\"/>\n{body}</svg>\n"
    )
}

/// Text with its base line at a height, from a place on, or, by its anchor, around it or up to it.
pub fn text(x: f64, y: f64, attributes: &str, text: &str) -> String {
    format!("<text x=\"{x:.2}\" y=\"{y:.2}\" {attributes}>{}</text>\n", escaped(text))
}

pub fn rect(x: f64, y: f64, width: f64, height: f64, attributes: &str) -> String {
    format!("<rect x=\"{x:.2}\" y=\"{y:.2}\" width=\"{width:.2}\" height=\"{height:.2}\" {attributes}/>\n")
}

pub fn line([x1, y1]: [f64; 2], [x2, y2]: [f64; 2], attributes: &str) -> String {
    format!("<line x1=\"{x1:.2}\" y1=\"{y1:.2}\" x2=\"{x2:.2}\" y2=\"{y2:.2}\" {attributes}/>\n")
}

/// Text as it stands in XML, without the characters that XML has no place for.
pub fn escaped(text: &str) -> String {
    let one = |c: char| match c {
        '&' => String::from("&amp;"),
        '<' => String::from("&lt;"),
        '>' => String::from("&gt;"),
        '"' => String::from("&quot;"),
        '\u{fffe}' | '\u{ffff}' => String::from(char::REPLACEMENT_CHARACTER),
        c if c.is_control() => String::from(char::REPLACEMENT_CHARACTER),
        c => String::from(c),
    };
    text.chars().map(one).collect()
}
