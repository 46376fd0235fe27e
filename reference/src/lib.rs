//! What the tests hold the proved library to, and how.
//!
//! `second` is the second implementation and stands by itself. `library` is the proved library through its C boundary, in memory
//! that `fence` fences; `both` makes each call by both and compares; `random` makes inputs, `draw` makes random calls of them, for
//! the differential test and for `soak`; `force` takes small sets by all their fillings; `repository` finds the repository's own files.

pub mod second;

pub mod both;
pub mod draw;
pub mod fence;
pub mod force;
pub mod library;
pub mod random;
pub mod repository;
