//! Differential tests: every entry beside the independent reference.
//!
//! What is tried has the entries. With the feature `proved` it is the proved library through its wrapper; without, the fast version stands in.
//! The trials are functions of a seed and a size: the tests of this crate run them with fixed ones, and the command `difftest` for as long as it is told.

pub mod entries;
pub mod front_trials;
pub mod held;
pub mod held_trials;
pub mod lent;
pub mod tally;
pub mod ticket_trials;
pub mod tickets;
pub mod trial;
pub mod trials;

pub use entries::{chosen, Entries};
pub use tally::Tally;
pub use trial::Trial;
