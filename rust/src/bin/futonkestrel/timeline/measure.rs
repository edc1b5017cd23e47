//! How wide text is, about: browsers have different fonts, so rather too wide.

/// The width of a text in bold letters.
pub fn bold_width(text: &str, size: i32) -> i32 {
    width(text, size) * 9 / 8
}

/// The width of a text in a font of this size.
pub fn width(text: &str, size: i32) -> i32 {
    let thousandths: i32 = text.chars().map(thousandths).sum();
    (thousandths * size + 999) / 1000
}

/// The width of a character in thousandths of the font's size.
fn thousandths(character: char) -> i32 {
    match character {
        'i' | 'j' | 'l' | 'I' | '.' | ',' | ':' | ';' | '|' | '!' | '\'' | ' ' => 300,
        'm' | 'w' | 'M' | 'W' | '@' | '%' => 920,
        'A'..='Z' => 720,
        '0'..='9' | 'a'..='z' => 630,
        // Letters of other alphabets, and signs that may be as wide as high.
        '\u{80}'..='\u{10FF}' => 750,
        _ if character.is_ascii() => 600,
        _ => 1050,
    }
}

/// The text, or its start and three dots, or nothing where there is no room.
pub fn fitted(text: &str, size: i32, room: i32) -> Option<String> {
    if width(text, size) <= room {
        return Some(text.to_string());
    }
    let mut start = String::new();
    for character in text.chars() {
        let longer = format!("{start}{character}");
        if width(&format!("{longer}…"), size) > room {
            break;
        }
        start = longer;
    }
    let kept = start.trim_end();
    (kept.chars().count() >= 3).then(|| format!("{kept}…"))
}
