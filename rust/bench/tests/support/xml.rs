//! A look at XML: whether it is well-formed, and its elements. Of what XML has, only elements,
//! attributes and text may come.

pub struct Element {
    pub name: String,
    attributes: Vec<(String, String)>,
    /// The text right behind the opening tag.
    pub text: String,
}

impl Element {
    pub fn attribute(&self, name: &str) -> Option<&str> {
        let found = self.attributes.iter().find(|(known, _)| known == name)?;
        Some(&found.1)
    }

    pub fn number(&self, name: &str) -> i64 {
        let value = self.attribute(name).expect("an attribute");
        value.parse().expect("a number")
    }
}

/// The elements in the order of their opening tags; panics where the text is not well-formed.
pub fn elements(text: &str) -> Vec<Element> {
    let mut found: Vec<Element> = Vec::new();
    let mut open: Vec<&str> = Vec::new();
    let mut rest = text;
    while let Some((before, after)) = rest.split_once('<') {
        assert!(
            !open.is_empty() || before.is_empty(),
            "text outside: {before}"
        );
        check_text(before);
        let (tag, behind) = after.split_once('>').expect("an end of a tag");
        rest = behind;
        if let Some(name) = tag.strip_prefix('/') {
            assert_eq!(open.pop(), Some(name), "the closing tag");
            continue;
        }
        assert!(!open.is_empty() || found.is_empty(), "a second root");
        let inner = tag.strip_suffix('/');
        let (name, attributes) = opening(inner.unwrap_or(tag));
        let text = rest.split('<').next().unwrap_or_default().to_string();
        found.push(Element {
            name: name.to_string(),
            attributes,
            text,
        });
        if inner.is_none() {
            open.push(name);
        }
    }
    assert!(open.is_empty() && !found.is_empty(), "not closed: {open:?}");
    assert!(rest.trim().is_empty(), "text at the end: {rest}");
    found
}

/// The name and the attributes of an opening tag.
fn opening(tag: &str) -> (&str, Vec<(String, String)>) {
    let (name, mut rest) = tag.split_once(' ').unwrap_or((tag, ""));
    check_name(name);
    let mut attributes: Vec<(String, String)> = Vec::new();
    while !rest.trim_start().is_empty() {
        let (key, value) = rest.trim_start().split_once("=\"").expect("a value");
        let (value, behind) = value.split_once('"').expect("a closing quotation mark");
        assert!(behind.is_empty() || behind.starts_with(' '), "{tag}");
        check_name(key);
        check_text(value);
        assert!(
            attributes.iter().all(|(known, _)| known != key),
            "{key} twice"
        );
        attributes.push((key.to_string(), value.to_string()));
        rest = behind;
    }
    (name, attributes)
}

fn check_name(name: &str) {
    let good = name.starts_with(|c: char| c.is_ascii_alphabetic())
        && name.chars().all(|c| c.is_ascii_alphanumeric() || c == '-');
    assert!(good, "{name:?} is no name");
}

/// An ampersand begins one of the known references, and no sign is a control character.
fn check_text(text: &str) {
    for part in text.split('&').skip(1) {
        let known = ["amp;", "lt;", "gt;", "quot;"];
        assert!(known.iter().any(|name| part.starts_with(name)), "&{part}");
    }
    assert!(!text.contains('>') && text.chars().all(|c| c == '\n' || !c.is_control()));
}
