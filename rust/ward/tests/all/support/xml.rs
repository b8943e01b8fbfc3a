//! Reads XML, strictly: elements that close in order, attributes in double quotes, each once, characters that XML allows, and the five entities that it
//! has. There is no declaration, comment or section in what is read here, so they are refused.

#[derive(Debug, Default)]
pub struct Element {
    pub name: String,
    attributes: Vec<(String, String)>,
    pub children: Vec<Element>,
    /// The text directly in it.
    pub text: String,
}

impl Element {
    /// The one element of a document.
    pub fn read(text: &str) -> Element {
        let allowed = |c: char| matches!(c, '\n' | '\t' | '\r' | ' '..='\u{d7ff}' | '\u{e000}'..='\u{fffd}' | '\u{10000}'..);
        assert!(text.chars().all(allowed), "a character that XML has not");
        let mut rest = text;
        let element = element(&mut rest);
        assert_eq!(rest.trim(), "", "nothing after the element");
        element
    }

    pub fn has(&self, name: &str) -> bool {
        self.attributes.iter().any(|attribute| attribute.0 == name)
    }

    pub fn at(&self, name: &str) -> &str {
        let found = self.attributes.iter().find(|attribute| attribute.0 == name);
        &found.unwrap_or_else(|| panic!("no {name} in {self:?}")).1
    }

    pub fn number(&self, name: &str) -> f64 {
        self.at(name).parse().unwrap_or_else(|_| panic!("{name} is no number in {self:?}"))
    }

    /// Whether it is of a class.
    pub fn is(&self, class: &str) -> bool {
        self.has("class") && self.at("class").split(' ').any(|one| one == class)
    }

    /// It and all elements in it.
    pub fn all(&self) -> Vec<&Element> {
        let below = self.children.iter().flat_map(|child| child.all());
        std::iter::once(self).chain(below).collect()
    }

    /// Those of a class in it.
    pub fn of(&self, class: &str) -> Vec<&Element> {
        self.all().into_iter().filter(|element| element.is(class)).collect()
    }
}

fn take<'a>(rest: &mut &'a str, text: &str) -> Option<&'a str> {
    let after = rest.strip_prefix(text)?;
    *rest = after;
    Some(after)
}

fn expect(rest: &mut &str, text: &str) {
    assert!(take(rest, text).is_some(), "{text} before {}", &rest.chars().take(60).collect::<String>());
}

fn name(rest: &mut &str) -> String {
    let end = rest.find(|c: char| !(c.is_ascii_alphanumeric() || c == '-')).unwrap_or(rest.len());
    assert!(rest.starts_with(|c: char| c.is_ascii_alphabetic()), "a name before {}", &rest.chars().take(60).collect::<String>());
    let (name, after) = rest.split_at(end);
    *rest = after;
    name.to_string()
}

fn element(rest: &mut &str) -> Element {
    expect(rest, "<");
    let mut element = Element { name: name(rest), ..Element::default() };
    while rest.starts_with(' ') {
        *rest = rest.trim_start_matches(' ');
        if rest.starts_with(['/', '>']) {
            break;
        }
        let attribute = name(rest);
        expect(rest, "=\"");
        let (value, after) = rest.split_once('"').expect("the end of a value");
        *rest = after;
        assert!(!element.has(&attribute), "{attribute} twice");
        element.attributes.push((attribute, plain(value)));
    }
    if take(rest, "/>").is_some() {
        return element;
    }
    expect(rest, ">");
    content(rest, &mut element);
    expect(rest, "</");
    assert_eq!(name(rest), element.name, "the end of an element");
    expect(rest, ">");
    element
}

fn content(rest: &mut &str, parent: &mut Element) {
    loop {
        let (text, _) = rest.split_once('<').expect("the end of an element");
        parent.text += &plain(text);
        *rest = &rest[text.len()..];
        if rest.starts_with("</") {
            return;
        }
        parent.children.push(element(rest));
    }
}

/// Text with its entities as the characters that they are.
fn plain(text: &str) -> String {
    assert!(!text.contains(['<', '>']), "a bracket in {text}");
    let mut pieces = text.split('&');
    let mut plain = pieces.next().unwrap_or("").to_string();
    for piece in pieces {
        let (entity, after) = piece.split_once(';').expect("the end of an entity");
        let all = [("amp", '&'), ("lt", '<'), ("gt", '>'), ("quot", '"'), ("apos", '\'')];
        plain.push(all.iter().find(|one| one.0 == entity).unwrap_or_else(|| panic!("no entity {entity}")).1);
        plain += after;
    }
    plain
}
