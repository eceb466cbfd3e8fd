//! The proved engine and the twin behind the same rows: a list of calls, over an image, is answered by either of them.
//!
//! [`rows`] is what crosses to the proved engine, [`original`] calls it, [`twins`] does the same with the twin's types, and
//! [`lists`] makes lists and images from seeds.

pub mod lists;
pub mod original;
pub mod rows;
pub mod twins;
