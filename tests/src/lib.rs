//! An independent full ranking written from the document, the proved engine behind safe calls, and what tests share.

pub mod board;
pub mod compare;
pub mod engine;
pub mod paper;
pub mod random;
pub mod source;
