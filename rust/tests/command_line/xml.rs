//! A reader of XML, as far as pictures need it: it panics where a text is not
//! well formed.

#[derive(Debug, Default)]
pub struct Element {
    pub name: String,
    pub attributes: Vec<(String, String)>,
    /// The text right within it.
    pub text: String,
}

impl Element {
    pub fn attribute(&self, name: &str) -> &str {
        let found = self.attributes.iter().find(|(own, _)| own == name);
        found.map_or("", |(_, value)| value.as_str())
    }
}

/// All elements in the order of their first tags.
pub fn elements(text: &str) -> Vec<Element> {
    let declaration = r#"<?xml version="1.0" encoding="UTF-8"?>"#;
    let mut rest = text.strip_prefix(declaration).expect("it says what it is");
    let mut elements: Vec<Element> = Vec::new();
    let mut open: Vec<usize> = Vec::new();
    while let Some(at) = rest.find('<') {
        let (before, tag) = rest.split_at(at);
        say(&mut elements, open.last(), before);
        let end = tag.find('>').expect("a tag has an end");
        let inner = &tag[1..end];
        rest = &tag[end + 1..];
        if let Some(name) = inner.strip_prefix('/') {
            let closed = open.pop().expect("only what is open is closed");
            assert_eq!(elements[closed].name, name);
            continue;
        }
        assert!(!open.is_empty() || elements.is_empty(), "one root");
        if !inner.ends_with('/') {
            open.push(elements.len());
        }
        elements.push(element(inner.trim_end_matches('/')));
    }
    say(&mut elements, None, rest);
    assert!(open.is_empty(), "all is closed: {open:?}");
    elements
}

/// Text within an element; outside of all there is none.
fn say(elements: &mut [Element], within: Option<&usize>, text: &str) {
    match within {
        Some(element) => elements[*element].text += &plain(text),
        None => assert_eq!(text.trim(), ""),
    }
}

/// A name, then attributes in quotation marks.
fn element(tag: &str) -> Element {
    let (name, mut rest) = tag.split_once(' ').unwrap_or((tag, ""));
    let mut attributes: Vec<(String, String)> = Vec::new();
    while !rest.is_empty() {
        let (own, value) = rest.split_once("=\"").expect("an attribute has a value");
        let (value, others) = value.split_once('"').expect("a value has an end");
        assert!(!attributes.iter().any(|(other, _)| other == own), "twice");
        attributes.push((own.to_string(), plain(value)));
        rest = others.trim_start();
    }
    let letters = |name: &str| name.chars().all(|c| c.is_ascii_alphanumeric() || c == '-');
    assert!(letters(name) && attributes.iter().all(|(own, _)| letters(own)));
    Element {
        name: name.to_string(),
        attributes,
        text: String::new(),
    }
}

/// Text with its entities resolved; it has no characters that XML forbids.
fn plain(text: &str) -> String {
    let allowed = |c: char| c == '\n' || (c >= ' ' && c != '\u{fffe}' && c != '\u{ffff}');
    assert!(text.chars().all(|c| allowed(c) && c != '<'), "{text:?}");
    let mut pieces = text.split('&');
    let mut plain = pieces.next().unwrap_or("").to_string();
    for piece in pieces {
        let (entity, rest) = piece.split_once(';').expect("an entity has an end");
        plain += match entity {
            "amp" => "&",
            "lt" => "<",
            "gt" => ">",
            "quot" => "\"",
            _ => panic!("no entity {entity}"),
        };
        plain += rest;
    }
    plain
}
