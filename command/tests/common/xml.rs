//! A strict reader of the XML that the pictures are: one root element, elements closed in order, attributes quoted and not repeated,
//! the five entities, no control characters. Anything else panics.

use std::collections::BTreeMap;

#[derive(Debug, Default)]
pub struct Element {
    pub name: String,
    pub attributes: BTreeMap<String, String>,
    pub children: Vec<Element>,
    /// The text directly in it.
    pub text: String,
}

impl Element {
    pub fn attribute(&self, name: &str) -> &str {
        let found = self.attributes.get(name);
        found.unwrap_or_else(|| panic!("{} has no {name}", self.name))
    }

    /// Itself and all elements in it.
    pub fn all(&self) -> Vec<&Element> {
        let mut list = vec![self];
        for child in &self.children {
            list.extend(child.all());
        }
        list
    }

    /// The one element with this id.
    pub fn by_id(&self, id: &str) -> &Element {
        let all = self.all().into_iter();
        let found: Vec<&Element> = all
            .filter(|e| e.attributes.get("id").is_some_and(|i| i == id))
            .collect();
        assert_eq!(found.len(), 1, "elements with the id {id}");
        found[0]
    }

    /// The text of every text element.
    pub fn texts(&self) -> Vec<String> {
        let all = self.all().into_iter().filter(|e| e.name == "text");
        all.map(|e| e.text.replace('\u{a0}', " ")).collect()
    }
}

struct Reader<'a> {
    rest: &'a str,
}

/// The root element of a document, every reference in which leads somewhere.
pub fn parse(text: &str) -> Element {
    let bad = |c: char| c.is_control() && c != '\n';
    assert!(!text.contains(bad), "a control character");
    let mut reader = Reader { rest: text };
    let root = reader.element();
    assert_eq!(reader.rest.trim(), "", "something behind the root element");
    let all = root.all();
    let ids: Vec<&String> = all.iter().filter_map(|e| e.attributes.get("id")).collect();
    for (i, id) in ids.iter().enumerate() {
        assert!(!ids[..i].contains(id), "the id {id} twice");
    }
    for e in &all {
        let href = e.attributes.get("href").and_then(|h| h.strip_prefix('#'));
        let fill = e.attributes.get("fill");
        let url = fill.and_then(|f| f.strip_prefix("url(#")?.strip_suffix(')'));
        for id in href.iter().chain(url.iter()) {
            assert!(ids.iter().any(|i| i == id), "no element with the id {id}");
        }
    }
    root
}

impl Reader<'_> {
    fn take(&mut self, what: &str) -> bool {
        let found = self.rest.strip_prefix(what);
        self.rest = found.unwrap_or(self.rest);
        found.is_some()
    }

    fn expect(&mut self, what: &str) {
        let near: String = self.rest.chars().take(40).collect();
        assert!(self.take(what), "expected {what}, found {near}");
    }

    fn name(&mut self) -> String {
        let letter = |c: char| c.is_ascii_alphanumeric() || c == '-' || c == ':' || c == '_';
        let end = self.rest.find(|c| !letter(c)).expect("a name that ends");
        let (name, rest) = self.rest.split_at(end);
        assert!(
            name.starts_with(|c: char| c.is_ascii_alphabetic()),
            "a name, found {name:?}"
        );
        self.rest = rest;
        name.to_string()
    }

    fn blanks(&mut self) -> bool {
        let trimmed = self.rest.trim_start();
        let some = trimmed.len() < self.rest.len();
        self.rest = trimmed;
        some
    }

    fn element(&mut self) -> Element {
        self.expect("<");
        let mut element = Element {
            name: self.name(),
            ..Element::default()
        };
        loop {
            let apart = self.blanks();
            if self.take("/>") {
                return element;
            }
            if self.take(">") {
                self.content(&mut element);
                return element;
            }
            assert!(apart, "no blank before an attribute of {}", element.name);
            let name = self.name();
            self.expect("=\"");
            let end = self.rest.find('"').expect("an attribute that ends");
            let (value, rest) = self.rest.split_at(end);
            self.rest = &rest[1..];
            let before = element.attributes.insert(name, unescaped(value));
            assert_eq!(before, None, "an attribute of {} twice", element.name);
        }
    }

    fn content(&mut self, element: &mut Element) {
        loop {
            let end = self.rest.find('<').expect("an element that ends");
            let (text, rest) = self.rest.split_at(end);
            element.text += &unescaped(text);
            self.rest = rest;
            if self.take("</") {
                self.expect(&format!("{}>", element.name));
                return;
            }
            element.children.push(self.element());
        }
    }
}

fn unescaped(text: &str) -> String {
    assert!(!text.contains('<'), "< in {text:?}");
    let mut parts = text.split('&');
    let mut out = parts.next().unwrap_or_default().to_string();
    for part in parts {
        let (entity, rest) = part.split_once(';').expect("an entity that ends");
        out.push(match entity {
            "amp" => '&',
            "lt" => '<',
            "gt" => '>',
            "quot" => '"',
            "apos" => '\'',
            other => panic!("no entity {other}"),
        });
        out += rest;
    }
    out
}

#[test]
#[should_panic(expected = "expected b>")]
fn elements_that_cross_are_refused() {
    parse("<a><b></a></b>");
}

#[test]
#[should_panic(expected = "an entity that ends")]
fn a_bare_ampersand_is_refused() {
    parse("<a>x & y</a>");
}

#[test]
#[should_panic(expected = "no element with the id")]
fn a_reference_to_nothing_is_refused() {
    parse("<a><use href=\"#b\"/></a>");
}
