//! A reader of JSON, strict enough to see that what the program writes is JSON.

/// A JSON value.
#[derive(Debug, Clone, PartialEq)]
pub enum Json {
    /// Not given.
    Null,
    /// Yes or no.
    Truth(bool),
    /// A whole number.
    Number(i64),
    /// A text.
    Text(String),
    /// Values in order.
    List(Vec<Json>),
    /// Members in order.
    Object(Vec<(String, Json)>),
}

impl Json {
    /// A member of an object.
    pub fn get(&self, name: &str) -> &Json {
        match self {
            Json::Object(members) => &members.iter().find(|(member, _)| member == name).expect(name).1,
            other => panic!("{:?} has no {}", other, name),
        }
    }

    /// The number that a member of an object is, if it has that member.
    pub fn number_of(&self, name: &str) -> Option<i64> {
        self.names().contains(&name).then(|| self.get(name).number())
    }

    /// The names of an object's members.
    pub fn names(&self) -> Vec<&str> {
        match self {
            Json::Object(members) => members.iter().map(|(name, _)| name.as_str()).collect(),
            other => panic!("{:?} is no object", other),
        }
    }

    /// The values of a list.
    pub fn list(&self) -> &[Json] {
        match self {
            Json::List(values) => values,
            other => panic!("{:?} is no list", other),
        }
    }

    /// The value of a number.
    pub fn number(&self) -> i64 {
        match self {
            Json::Number(number) => *number,
            other => panic!("{:?} is no number", other),
        }
    }

    /// The value of a text.
    pub fn text(&self) -> &str {
        match self {
            Json::Text(text) => text,
            other => panic!("{:?} is no text", other),
        }
    }
}

/// Reads one value and nothing after it.
pub fn parse(text: &str) -> Json {
    let mut rest = text.trim_end();
    let value = value(&mut rest);
    assert_eq!(rest, "");
    value
}

fn take(rest: &mut &str, token: &str) -> bool {
    match rest.strip_prefix(token) {
        Some(after) => {
            *rest = after;
            true
        }
        None => false,
    }
}

fn value(rest: &mut &str) -> Json {
    if take(rest, "null") {
        Json::Null
    } else if take(rest, "true") {
        Json::Truth(true)
    } else if take(rest, "false") {
        Json::Truth(false)
    } else if take(rest, "{") {
        Json::Object(members(rest, "}", |rest| {
            assert!(take(rest, "\""));
            let name = string(rest);
            assert!(take(rest, ":"));
            (name, value(rest))
        }))
    } else if take(rest, "[") {
        Json::List(members(rest, "]", value))
    } else if take(rest, "\"") {
        Json::Text(string(rest))
    } else {
        number(rest)
    }
}

fn members<T>(rest: &mut &str, end: &str, mut member: impl FnMut(&mut &str) -> T) -> Vec<T> {
    let mut found = Vec::new();
    while !take(rest, end) {
        assert!(found.is_empty() || take(rest, ","));
        found.push(member(rest));
    }
    found
}

fn number(rest: &mut &str) -> Json {
    let end = rest.find(|c: char| c != '-' && !c.is_ascii_digit()).unwrap_or(rest.len());
    let (digits, after) = rest.split_at(end);
    *rest = after;
    Json::Number(digits.parse().unwrap())
}

/// No text of these tests needs an escape; the program's own tests look at those.
fn string(rest: &mut &str) -> String {
    let (text, after) = rest.split_once('"').unwrap();
    assert!(!text.contains('\\'));
    *rest = after;
    text.to_string()
}
