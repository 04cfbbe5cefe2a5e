//! The counter program: document 01 written plainly, as a source of independent expected values.

pub mod answers;
pub mod bytes;
pub mod calls;
pub mod desk;
pub mod gen;
pub mod model;
pub mod notation;
pub mod vectors;
