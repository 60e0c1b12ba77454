//! The reference's answers in the terms of 01: the document call, the
//! single-link call, the names and references that the claim about appended
//! tails speaks of, the parsers one by one, and the pieces of the bytes layer.
//! Beside them stand the documents to compare on: cases, generated ones, all
//! short ones, limits; and the recorded answers.

pub mod cases;
pub mod document;
pub mod exhaustive;
pub mod forms;
pub mod generate;
pub mod items;
pub mod limits;
pub mod names;
pub mod parsers;
pub mod pieces;
pub mod random;
pub mod record;
pub mod recorded;
pub mod show;
pub mod single;
