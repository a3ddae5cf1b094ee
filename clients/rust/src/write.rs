use crate::json::Json;

/// The changes of a write, and its conditions.
#[derive(Clone, Debug, Default)]
pub struct Write {
    touched: Vec<String>,
    deleted: Vec<String>,
    /// Each is of a tuple, and has the name and the value of a member.
    conditions: Vec<(String, &'static str, String)>,
}

impl Write {
    pub fn new() -> Write {
        Write::default()
    }

    pub fn touch(mut self, tuple: &str) -> Write {
        self.touched.push(tuple.to_string());
        self
    }

    pub fn delete(mut self, tuple: &str) -> Write {
        self.deleted.push(tuple.to_string());
        self
    }

    /// If no write after the token's place has changed the tuple.
    pub fn since(self, tuple: &str, token: &str) -> Write {
        self.condition(tuple, "since", token)
    }

    pub fn exists(self, tuple: &str) -> Write {
        self.condition(tuple, "want", "exists")
    }

    pub fn absent(self, tuple: &str) -> Write {
        self.condition(tuple, "want", "absent")
    }

    fn condition(mut self, tuple: &str, name: &'static str, value: &str) -> Write {
        self.conditions.push((tuple.to_string(), name, value.to_string()));
        self
    }

    /// Whether it stands once at most where it was sent twice.
    pub(crate) fn is_once(&self) -> bool {
        self.conditions.iter().any(|(tuple, name, _)| *name == "since" && self.touched.contains(tuple))
    }

    pub(crate) fn request(&self) -> Json {
        let change = |op, tuple: &String| Json::object([("op", Json::text(op)), ("tuple", Json::text(tuple))]);
        let touched = self.touched.iter().map(|tuple| change("touch", tuple));
        let deleted = self.deleted.iter().map(|tuple| change("delete", tuple));
        let conditions = self.conditions.iter();
        let conditions = conditions
            .map(|(tuple, name, value)| Json::object([("tuple", Json::text(tuple)), (*name, Json::text(value))]));
        Json::object([
            ("op", Json::text("write")),
            ("changes", Json::list(touched.chain(deleted))),
            ("conditions", Json::list(conditions)),
        ])
    }
}
