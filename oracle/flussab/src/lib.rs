//! What flussab-cnf needs of flussab, written from document 01's first five token rules and from
//! the calls that flussab-cnf makes. Nothing is taken from the published crate.
//!
//! A text is held whole. Reading a part of it means looking at bytes in front of the place and then
//! advancing the place.

mod parsed;
mod reader;
pub mod text;
pub mod write;

pub use parsed::Parsed;
pub use reader::{last_mark, DeferredReader};
pub use write::DeferredWriter;
