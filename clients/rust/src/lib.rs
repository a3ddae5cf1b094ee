//! A client of zanstore, which needs no other crate.
//!
//! ```no_run
//! use zanstore::{tuple, Fault, Freshness, Store, Who, Write};
//!
//! fn main() -> Result<(), Fault> {
//!     let mut store = Store::new("127.0.0.1", 7700);
//!     let viewer = tuple("doc:plan", "viewer", Who::User("ann"))?;
//!     let token = store.write(&Write::new().touch(&viewer))?;
//!     assert!(store.check(&viewer, Freshness::AtLeast(&token))?.member);
//!     Ok(())
//! }
//! ```
mod answer;
mod connection;
mod fault;
mod json;
mod store;
mod texts;
mod watch;
mod write;

pub use answer::{Change, Checked, CheckedMany, Event, Read, Watched, Why};
pub use fault::Fault;
pub use store::{Freshness, Store};
pub use texts::{newest, place, start, tuple, Who};
pub use watch::Watch;
pub use write::Write;
