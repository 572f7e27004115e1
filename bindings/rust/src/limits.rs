//! The limits of an image. Every other file takes them from here.

/// How many records an image has at most.
pub const RECORDS: usize = 2048;
/// How deep a record may stand; the root's depth is 1.
pub const DEPTH: usize = 256;
/// How many fields a schema, or both inputs of a join together, may have.
pub const FIELDS: usize = 64;
/// How many conjuncts a Filter or a join's filter may have, and how many filters a scan.
pub const LIST: usize = 128;
