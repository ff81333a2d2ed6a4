//! A small test that a document is well-formed XML: tags that match, quoted attributes, known
//! entities, one root.

/// Fails unless the document is well formed.
pub fn assert_well_formed(document: &str) {
    let body = document
        .strip_prefix("<?xml version=\"1.0\" encoding=\"UTF-8\"?>\n")
        .expect("the document begins with its declaration");
    let mut open: Vec<&str> = Vec::new();
    let mut roots = 0;
    let mut rest = body;
    while let Some(at) = rest.find('<') {
        let (text, from) = rest.split_at(at);
        assert!(
            !open.is_empty() || text.trim().is_empty(),
            "text outside the root: {text}"
        );
        assert_entities(text);
        let end = from.find('>').expect("a tag ends");
        let tag = &from[1..end];
        rest = &from[end + 1..];
        if let Some(name) = tag.strip_prefix('/') {
            assert_eq!(open.pop(), Some(name), "an end tag without its start");
            continue;
        }
        roots += usize::from(open.is_empty());
        let (tag, empty) = match tag.strip_suffix('/') {
            Some(tag) => (tag, true),
            None => (tag, false),
        };
        let (name, attributes) = tag.split_once(char::is_whitespace).unwrap_or((tag, ""));
        assert_name(name);
        assert_attributes(attributes);
        if !empty {
            open.push(name);
        }
    }
    assert!(rest.trim().is_empty(), "text after the root: {rest}");
    assert!(open.is_empty(), "tags left open: {open:?}");
    assert_eq!(roots, 1, "one root");
}

fn assert_name(name: &str) {
    let mut letters = name.chars();
    assert!(
        letters
            .next()
            .is_some_and(|letter| letter.is_ascii_alphabetic()),
        "name {name}"
    );
    assert!(
        letters.all(|letter| letter.is_ascii_alphanumeric() || letter == '-'),
        "name {name}"
    );
}

/// Attributes of different names, each in double quotes.
fn assert_attributes(attributes: &str) {
    let mut names = Vec::new();
    let mut rest = attributes.trim();
    while !rest.is_empty() {
        let (name, value) = rest
            .split_once("=\"")
            .expect("an attribute has a quoted value");
        assert_name(name);
        assert!(!names.contains(&name), "attribute {name} is given twice");
        names.push(name);
        let (value, after) = value.split_once('"').expect("an attribute's value ends");
        assert_entities(value);
        assert!(
            after.is_empty() || after.starts_with(char::is_whitespace),
            "a space between attributes"
        );
        rest = after.trim_start();
    }
}

fn assert_entities(text: &str) {
    for part in text.split('&').skip(1) {
        let known = ["amp;", "lt;", "gt;", "quot;", "apos;"];
        assert!(
            known.iter().any(|entity| part.starts_with(entity)),
            "entity in {text}"
        );
    }
}

#[test]
fn what_is_not_well_formed_is_noticed() {
    let cases = [
        "<a><b></a></b>",
        "<a>",
        "<a/><b/>",
        "<a x=1/>",
        "<a x=\"1\" x=\"2\"/>",
        "<a>R&D</a>",
        "<a></a>more",
    ];
    for case in cases {
        let document = format!("<?xml version=\"1.0\" encoding=\"UTF-8\"?>\n{case}");
        let passed = std::panic::catch_unwind(|| assert_well_formed(&document)).is_ok();
        assert!(!passed, "{case} passed");
    }
}
