//! A strict reader of the markup that the programs write: XML without a prolog, of which HTML pages are written too.

/// An element's beginning.
#[derive(Clone, Debug, PartialEq, Eq)]
pub struct Element {
    pub name: String,
    pub attributes: Vec<(String, String)>,
    /// The text up to the next mark.
    pub text: String,
}

impl Element {
    pub fn attribute(&self, name: &str) -> Option<&str> {
        self.attributes.iter().find(|(known, _)| known == name).map(|(_, value)| value.as_str())
    }
}

/// Every element of a text, in its order. Panics where it is not well formed: a tag that is not closed or closes another, an
/// attribute without quotes or twice, an id twice, an ampersand that begins no known entity, a bare sign.
pub fn elements(text: &str) -> Vec<Element> {
    let mut found: Vec<Element> = Vec::new();
    let mut open: Vec<String> = Vec::new();
    let mut rest = text;
    while let Some(at) = rest.find('<') {
        let before = plain(&rest[..at]);
        match found.last_mut() {
            Some(last) if last.text.is_empty() => last.text = before,
            _ => assert!(!open.is_empty() || before.trim().is_empty(), "text outside: {before:?}"),
        }
        let end = at + rest[at..].find('>').expect("a tag's end");
        let tag = &rest[at + 1..end];
        rest = &rest[end + 1..];
        if let Some(closed) = tag.strip_prefix('/') {
            assert_eq!(open.pop().as_deref(), Some(closed), "an element's end");
            continue;
        }
        let (tag, empty) = tag.strip_suffix('/').map_or((tag, false), |tag| (tag, true));
        let (name, attributes) = tag.split_once([' ', '\n']).unwrap_or((tag, ""));
        assert!(!name.is_empty() && name.bytes().all(|c| c.is_ascii_alphanumeric()), "an element's name: {name:?}");
        if !empty {
            open.push(name.to_string());
        }
        found.push(Element { name: name.to_string(), attributes: read(attributes), text: String::new() });
    }
    assert!(plain(rest).trim().is_empty() && open.is_empty(), "not closed: {open:?} {rest:?}");
    let mut ids: Vec<&str> = found.iter().filter_map(|element| element.attribute("id")).collect();
    ids.sort_unstable();
    ids.windows(2).for_each(|two| assert_ne!(two[0], two[1], "an id twice"));
    found
}

fn read(mut rest: &str) -> Vec<(String, String)> {
    let mut attributes: Vec<(String, String)> = Vec::new();
    loop {
        rest = rest.trim_start();
        if rest.is_empty() {
            return attributes;
        }
        let (name, value) = rest.split_once("=\"").unwrap_or_else(|| panic!("an attribute's quotes: {rest:?}"));
        let allowed = |c: u8| c.is_ascii_alphanumeric() || b"-:".contains(&c);
        assert!(!name.is_empty() && name.bytes().all(allowed), "an attribute's name: {name:?}");
        assert!(attributes.iter().all(|(known, _)| known != name), "{name} twice");
        let end = value.find('"').unwrap_or_else(|| panic!("an attribute's end: {value:?}"));
        attributes.push((name.to_string(), plain(&value[..end])));
        rest = &value[end + 1..];
    }
}

/// Text with its entities read.
fn plain(text: &str) -> String {
    assert!(!text.contains(['<', '>']), "a bare sign: {text:?}");
    assert!(text.chars().all(|c| c == '\n' || c == '\t' || !c.is_control()), "a control code: {text:?}");
    let mut read = String::new();
    let mut rest = text;
    while let Some(at) = rest.find('&') {
        read += &rest[..at];
        let end = at + rest[at..].find(';').unwrap_or_else(|| panic!("an entity's end: {rest:?}"));
        read.push(match &rest[at..=end] {
            "&amp;" => '&',
            "&lt;" => '<',
            "&gt;" => '>',
            "&quot;" => '"',
            "&#39;" => '\'',
            other => panic!("no entity: {other}"),
        });
        rest = &rest[end + 1..];
    }
    read + rest
}
