//! Shapes of an SVG picture, written one after the other.

/// The font size of most texts.
pub const SIZE: f64 = 13.0;
/// That of texts with little room.
pub const SMALL: f64 = 11.0;

pub struct Svg {
    text: String,
}

impl Svg {
    pub fn new(width: f64, height: f64, title: &str) -> Svg {
        let text = format!(
            "<svg xmlns=\"http://www.w3.org/2000/svg\" width=\"{width}\" height=\"{height}\" viewBox=\"0 0 {width} {height}\" \
             font-family=\"sans-serif\" font-size=\"{SIZE}\">\n<title>{}</title>\n<rect width=\"{width}\" height=\"{height}\" fill=\"white\"/>\n",
            escaped(title)
        );
        Svg { text }
    }

    pub fn finish(self) -> String {
        self.text + "</svg>\n"
    }

    /// A rectangle with a text that a viewer shows under the mouse; no text where it is empty.
    pub fn rect(&mut self, [left, top, right, bottom]: [f64; 4], style: &str, hint: &str) {
        let (width, height) = (right - left, bottom - top);
        let shape = format!("<rect x=\"{left:.1}\" y=\"{top:.1}\" width=\"{width:.1}\" height=\"{height:.1}\" {style}");
        self.text += &match hint {
            "" => format!("{shape}/>\n"),
            _ => format!("{shape}><title>{}</title></rect>\n", escaped(hint)),
        };
    }

    pub fn line(&mut self, [x1, y1, x2, y2]: [f64; 4], style: &str) {
        self.text += &format!("<path d=\"M{x1:.1} {y1:.1}L{x2:.1} {y2:.1}\" {style}/>\n");
    }

    /// A path with a text that a viewer shows under the mouse; no text where it is empty, and nothing at all for an empty path.
    pub fn path(&mut self, path: &str, style: &str, hint: &str) {
        match (path, hint) {
            ("", _) => {}
            (_, "") => self.text += &format!("<path d=\"{path}\" {style}/>\n"),
            _ => self.text += &format!("<path d=\"{path}\" {style}><title>{}</title></path>\n", escaped(hint)),
        }
    }

    pub fn text(&mut self, x: f64, y: f64, style: &str, content: &str) {
        self.text += &format!("<text x=\"{x:.1}\" y=\"{y:.1}\" {style}>{}</text>\n", escaped(content));
    }

    /// A text that is cut where it is wider than its room; a viewer then shows all of it under the mouse.
    pub fn text_within(&mut self, [x, y]: [f64; 2], size: f64, room: f64, style: &str, content: &str) {
        let shown = fitted(content, size, room);
        let hint = if shown == content {
            String::new()
        } else {
            format!("<title>{}</title>", escaped(content))
        };
        self.text += &format!(
            "<text x=\"{x:.1}\" y=\"{y:.1}\" font-size=\"{size}\" {style}>{hint}{}</text>\n",
            escaped(&shown)
        );
    }
}

/// About how wide a text is, in a wide font: which one a viewer takes is not known, and a text should rather be cut than run over.
pub fn text_width(content: &str, size: f64) -> f64 {
    content.chars().map(|c| character_width(c) * size).sum()
}

/// In parts of the font size.
fn character_width(c: char) -> f64 {
    match c {
        'f' | 'i' | 'j' | 'l' | 'r' | 't' | 'I' | ' ' | '.' | ',' | ':' | ';' | '\'' | '|' | '!' | '(' | ')' | '-' | '/' => 0.4,
        'm' | 'w' | 'M' | 'W' | '@' | '%' | '&' | '<' | '>' | '=' | '+' | '~' | '#' => 1.0,
        'A'..='Z' => 0.78,
        ' '..='~' => 0.64,
        // Accents need less and some signs more than this, which is what most other scripts need at most.
        _ => 1.0,
    }
}

/// As much of the start and the end of a text as has room, with an ellipsis between them: names often differ in their last letters.
pub fn fitted(content: &str, size: f64, room: f64) -> String {
    if text_width(content, size) <= room {
        return content.to_string();
    }
    let letters: Vec<char> = content.chars().collect();
    let (mut start, mut end) = (0, letters.len());
    let mut width = text_width("…", size);
    while start < end {
        let from_start = start <= letters.len() - end;
        width += character_width(letters[if from_start { start } else { end - 1 }]) * size;
        if width > room {
            break;
        }
        match from_start {
            true => start += 1,
            false => end -= 1,
        }
    }
    let part = |letters: &[char]| letters.iter().collect::<String>();
    format!("{}…{}", part(&letters[..start]).trim_end(), part(&letters[end..]).trim_start())
}

/// The text as it may stand in XML 1.0, which has no place for most control characters, not even escaped. Marks that turn the direction of
/// writing go too: the digits of a level behind such a name would stand in reverse.
fn escaped(content: &str) -> String {
    let mut escaped = String::with_capacity(content.len());
    for c in content.chars() {
        match c {
            '&' => escaped += "&amp;",
            '<' => escaped += "&lt;",
            '>' => escaped += "&gt;",
            '"' => escaped += "&quot;",
            '\t' | '\n' | '\r' => escaped.push(' '),
            '\0'..='\u{1f}' | '\u{fffe}' | '\u{ffff}' | '\u{202a}'..='\u{202e}' | '\u{2066}'..='\u{2069}' => {
                escaped.push(char::REPLACEMENT_CHARACTER)
            }
            _ => escaped.push(c),
        }
    }
    escaped
}

#[cfg(test)]
mod tests {
    use super::*;

    #[test]
    fn texts_are_cut_to_their_room() {
        assert_eq!(fitted("worn", SIZE, 60.0), "worn");
        for content in [
            "a name that is long, too long",
            "WWWWWWWWWWWW",
            "ein längerer Name äöüß",
            "摩耗したベルトの状態を示す名前",
        ] {
            let cut = fitted(content, SIZE, 80.0);
            let (start, end) = cut.split_once('…').expect("an ellipsis");
            assert!(content.starts_with(start) && content.ends_with(end), "{cut}");
            assert!(start.chars().count().abs_diff(end.chars().count()) <= 2, "{cut}");
            assert!(cut.chars().count() > 4 && text_width(&cut, SIZE) <= 80.0, "{cut}");
        }
        assert_eq!(fitted("anything", SIZE, 0.0), "…");
    }

    #[test]
    fn only_characters_of_xml() {
        assert_eq!(
            escaped("a\0b\u{1b}c\u{fffe}d\te\n\u{85}\u{7f}ä"),
            "a\u{fffd}b\u{fffd}c\u{fffd}d e \u{85}\u{7f}ä"
        );
        assert_eq!(escaped("\u{202e}78"), "\u{fffd}78");
        assert_eq!(escaped("<a & \"b\">"), "&lt;a &amp; &quot;b&quot;&gt;");
    }
}
