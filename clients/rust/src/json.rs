//! JSON of requests and answers, as far as they have it.
use std::iter::{self, Peekable};
use std::str::Chars;

/// JSON of a request. Only the functions below make it, so each text in it is escaped.
pub struct Json(String);

impl Json {
    pub fn text(text: &str) -> Json {
        let mut json = String::from('"');
        for one in text.chars() {
            match one {
                '"' | '\\' => json.extend(['\\', one]),
                '\0'..='\x1f' => json.push_str(&format!("\\u{:04x}", one as u32)),
                _ => json.push(one),
            }
        }
        json.push('"');
        Json(json)
    }

    pub fn number(number: u64) -> Json {
        Json(number.to_string())
    }

    pub fn list(parts: impl IntoIterator<Item = Json>) -> Json {
        Json(format!("[{}]", joined(parts.into_iter().map(|one| one.0))))
    }

    pub fn texts<T: AsRef<str>>(texts: &[T]) -> Json {
        Json::list(texts.iter().map(|one| Json::text(one.as_ref())))
    }

    pub fn object<'a>(members: impl IntoIterator<Item = (&'a str, Json)>) -> Json {
        let members = members.into_iter().map(|(name, value)| format!("{}:{}", Json::text(name).0, value.0));
        Json(format!("{{{}}}", joined(members)))
    }

    pub fn line(&self) -> String {
        format!("{}\n", self.0)
    }
}

fn joined(parts: impl Iterator<Item = String>) -> String {
    parts.collect::<Vec<_>>().join(",")
}

/// A part of an answer. A word is a number, `true`, `false` or `null`.
pub enum Part {
    Word(String),
    Text(String),
    List(Vec<Part>),
    Object(Vec<(String, Part)>),
}

/// Reads a line, in which at most `deep` parts stand within one another. An answer has no white space.
pub fn read(line: &str, deep: u8) -> Option<Part> {
    let mut rest = line.chars().peekable();
    read_part(&mut rest, deep).filter(|_| rest.peek().is_none())
}

fn read_part(rest: &mut Peekable<Chars>, deep: u8) -> Option<Part> {
    let deep = deep.checked_sub(1)?;
    Some(match rest.next()? {
        '"' => Part::Text(read_text(rest)?),
        '[' => Part::List(read_list(rest, ']', |rest| read_part(rest, deep))?),
        '{' => Part::Object(read_list(rest, '}', |rest| {
            rest.next_if_eq(&'"')?;
            let name = read_text(rest)?;
            rest.next_if_eq(&':')?;
            Some((name, read_part(rest, deep)?))
        })?),
        first => {
            let more = iter::from_fn(|| rest.next_if(char::is_ascii_alphanumeric));
            Part::Word(iter::once(first).chain(more).collect())
        }
    })
}

/// Reads the text after its first quote. An answer escapes nothing but `"` and `\`.
fn read_text(rest: &mut Peekable<Chars>) -> Option<String> {
    let mut text = String::new();
    loop {
        match rest.next()? {
            '"' => return Some(text),
            '\\' => text.push(rest.next_if(|next| "\"\\".contains(*next))?),
            one => text.push(one),
        }
    }
}

/// Reads what stands between an opening and its `end`, with commas between.
fn read_list<T>(
    rest: &mut Peekable<Chars>,
    end: char,
    mut one: impl FnMut(&mut Peekable<Chars>) -> Option<T>,
) -> Option<Vec<T>> {
    let mut list = Vec::new();
    while rest.next_if_eq(&end).is_none() {
        if !list.is_empty() {
            rest.next_if_eq(&',')?;
        }
        list.push(one(rest)?);
    }
    Some(list)
}

impl Part {
    /// The value of a member, where there is one.
    pub fn get(&self, name: &str) -> Option<&Part> {
        let Part::Object(members) = self else { return None };
        members.iter().find(|(other, _)| other == name).map(|(_, value)| value)
    }

    pub fn text(&self) -> Option<String> {
        match self {
            Part::Text(text) => Some(text.clone()),
            _ => None,
        }
    }

    pub fn number(&self) -> Option<u64> {
        match self {
            Part::Word(word) => word.parse().ok(),
            _ => None,
        }
    }

    pub fn truth(&self) -> Option<bool> {
        match self {
            Part::Word(word) => word.parse().ok(),
            _ => None,
        }
    }

    /// What each part of a list is read as, where all of them are.
    pub fn list<T>(&self, one: impl Fn(&Part) -> Option<T>) -> Option<Vec<T>> {
        match self {
            Part::List(parts) => parts.iter().map(one).collect(),
            _ => None,
        }
    }
}
