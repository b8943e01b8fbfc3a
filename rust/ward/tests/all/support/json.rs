//! Reads JSON, as its standard (RFC 8259) writes it but for numbers, of which those that are natural are read, and escapes in strings, which no answer has.

#[derive(Debug, PartialEq)]
pub enum Json {
    Null,
    Bool(bool),
    Number(usize),
    Text(String),
    List(Vec<Json>),
    Object(Vec<(String, Json)>),
}

impl Json {
    /// The one value that a text has, with one newline after it.
    pub fn read(text: &str) -> Json {
        let mut rest = text.strip_suffix('\n').expect("a newline at the end");
        let value = value(&mut rest);
        assert_eq!(rest, "", "nothing after the value");
        value
    }

    /// The field of an object, which has just one of that name.
    pub fn at(&self, name: &str) -> &Json {
        let Json::Object(fields) = self else { panic!("no object: {self:?}") };
        let found: Vec<&Json> = fields.iter().filter(|field| field.0 == name).map(|field| &field.1).collect();
        assert_eq!(found.len(), 1, "{name} in {self:?}");
        found[0]
    }

    /// The names of an object's fields.
    pub fn names(&self) -> Vec<&str> {
        let Json::Object(fields) = self else { panic!("no object: {self:?}") };
        fields.iter().map(|field| field.0.as_str()).collect()
    }

    pub fn number(&self) -> usize {
        let Json::Number(number) = self else { panic!("no number: {self:?}") };
        *number
    }

    pub fn list(&self) -> &[Json] {
        let Json::List(list) = self else { panic!("no list: {self:?}") };
        list
    }

    pub fn numbers(&self) -> Vec<usize> {
        self.list().iter().map(Json::number).collect()
    }
}

fn take(rest: &mut &str, text: &str) -> bool {
    let after = rest.strip_prefix(text);
    *rest = after.unwrap_or(rest);
    after.is_some()
}

fn value(rest: &mut &str) -> Json {
    if take(rest, "null") {
        return Json::Null;
    } else if take(rest, "true") {
        return Json::Bool(true);
    } else if take(rest, "false") {
        return Json::Bool(false);
    } else if take(rest, "[") {
        return Json::List(items(rest, "]", value));
    } else if take(rest, "{") {
        return Json::Object(items(rest, "}", field));
    } else if rest.starts_with('"') {
        return Json::Text(string(rest));
    }
    let end = rest.find(|c: char| !c.is_ascii_digit()).unwrap_or(rest.len());
    let digits = &rest[..end];
    assert!(digits == "0" || !digits.starts_with('0'), "a number: {digits}");
    *rest = &rest[end..];
    Json::Number(digits.parse().expect("a number"))
}

fn items<T>(rest: &mut &str, end: &str, item: impl Fn(&mut &str) -> T) -> Vec<T> {
    let mut items = Vec::new();
    if take(rest, end) {
        return items;
    }
    loop {
        items.push(item(rest));
        if take(rest, end) {
            return items;
        }
        assert!(take(rest, ","), "a comma before {rest}");
    }
}

fn field(rest: &mut &str) -> (String, Json) {
    let name = string(rest);
    assert!(take(rest, ":"), "a colon before {rest}");
    (name, value(rest))
}

fn string(rest: &mut &str) -> String {
    assert!(take(rest, "\""), "a string before {rest}");
    let (text, after) = rest.split_once('"').expect("the end of a string");
    assert!(!text.contains('\\') && text.chars().all(|c| c >= ' '), "a string without escapes: {text}");
    *rest = after;
    text.to_string()
}
