use crate::json::Json;
use crate::{Fault, Store, Watched};
use std::thread::sleep;
use std::time::Duration;

const LIMIT: u64 = 256;

/// Lists of events, each once and in their order. An empty list is a pause. After a fault, such as a server that is gone for longer than the tries of the
/// store, `next` goes on where the last list ended.
pub struct Watch<'a> {
    store: &'a mut Store,
    token: String,
    namespaces: Vec<String>,
    /// How long to wait where there are no events.
    pub pause: Duration,
    is_at_end: bool,
}

impl<'a> Watch<'a> {
    pub(crate) fn new<T: AsRef<str>>(store: &'a mut Store, token: &str, namespaces: &[T]) -> Watch<'a> {
        let namespaces = namespaces.iter().map(|one| one.as_ref().to_string()).collect();
        Watch { store, token: token.to_string(), namespaces, pause: Duration::from_secs(1), is_at_end: false }
    }

    /// The token from which it goes on.
    pub fn token(&self) -> &str {
        &self.token
    }

    fn request(&self) -> Json {
        Json::object([
            ("op", Json::text("watch")),
            ("from", Json::text(&self.token)),
            ("limit", Json::number(LIMIT)),
            ("namespaces", Json::texts(&self.namespaces)),
        ])
    }
}

impl Iterator for Watch<'_> {
    type Item = Result<Watched, Fault>;

    fn next(&mut self) -> Option<Self::Item> {
        if self.is_at_end {
            sleep(self.pause);
        }
        let found: Result<Watched, Fault> = self.store.one("watch", self.request(), true);
        if let Ok(watched) = &found {
            self.token.clone_from(&watched.heartbeat);
            self.is_at_end = watched.events.is_empty();
        }
        Some(found)
    }
}
