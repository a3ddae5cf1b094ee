// JSON, so far as requests have it: no text has an escape.
use std::collections::BTreeMap;

pub type Members = BTreeMap<String, Value>;

pub enum Value {
    Text(String),
    Number(u64),
    List(Vec<Value>),
    Object(Members),
}

impl Value {
    pub fn as_str(&self) -> Option<&str> {
        if let Value::Text(text) = self { Some(text) } else { None }
    }

    pub fn as_u64(&self) -> Option<u64> {
        if let Value::Number(number) = self { Some(*number) } else { None }
    }

    pub fn as_array(&self) -> Option<&Vec<Value>> {
        if let Value::List(list) = self { Some(list) } else { None }
    }

    pub fn as_object(&self) -> Option<&Members> {
        if let Value::Object(members) = self { Some(members) } else { None }
    }
}

pub fn read(line: &[u8]) -> Option<Value> {
    let mut reader = Reader(line);
    let value = reader.value()?;
    reader.next().is_none().then_some(value)
}

struct Reader<'a>(&'a [u8]);

impl Reader<'_> {
    fn next(&mut self) -> Option<u8> {
        while let [b' ' | b'\t' | b'\r' | b'\n', rest @ ..] = self.0 {
            self.0 = rest;
        }
        self.0.first().copied()
    }

    fn takes(&mut self, byte: u8) -> Option<()> {
        if self.next()? != byte {
            return None;
        }
        self.0 = &self.0[1..];
        Some(())
    }

    fn text(&mut self) -> Option<String> {
        self.takes(b'"')?;
        let end = self.0.iter().position(|byte| *byte == b'"' || *byte == b'\\')?;
        let text = std::str::from_utf8(&self.0[..end]).ok()?.to_string();
        self.0 = &self.0[end..];
        self.takes(b'"')?;
        Some(text)
    }

    fn number(&mut self) -> Option<u64> {
        let end = self.0.iter().position(|byte| !byte.is_ascii_digit()).unwrap_or(self.0.len());
        let number = std::str::from_utf8(&self.0[..end]).ok()?.parse().ok()?;
        self.0 = &self.0[end..];
        Some(number)
    }

    fn members<T>(&mut self, end: u8, one: impl Fn(&mut Self) -> Option<T>) -> Option<Vec<T>> {
        self.0 = &self.0[1..];
        let mut found = Vec::new();
        while self.takes(end).is_none() {
            if !found.is_empty() {
                self.takes(b',')?;
            }
            found.push(one(self)?);
        }
        Some(found)
    }

    fn pair(&mut self) -> Option<(String, Value)> {
        let name = self.text()?;
        self.takes(b':')?;
        Some((name, self.value()?))
    }

    fn value(&mut self) -> Option<Value> {
        match self.next()? {
            b'"' => self.text().map(Value::Text),
            b'[' => self.members(b']', Self::value).map(Value::List),
            b'{' => self.members(b'}', Self::pair).map(|pairs| Value::Object(pairs.into_iter().collect())),
            _ => self.number().map(Value::Number),
        }
    }
}
