//! Random calls of the engine, compared byte by byte with the interpreter.
//!
//! The harness is generic over [`calls::Calls`], so that it can be tried on the interpreter itself
//! and on versions of it that are wrong on purpose.

pub mod calls;
pub mod compare;
pub mod coverage;
pub mod exhaustive;
pub mod generate;
pub mod harness;
pub mod random;
pub mod replay;
pub mod roll;
pub mod scenario;
pub mod shrink;
pub mod tree;
