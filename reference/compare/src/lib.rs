//! What the benchmark uses too: the proved functions, through the archive, and
//! where real notes stand.

pub mod files;
pub mod proved;
