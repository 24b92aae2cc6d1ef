//! A second, naive implementation of the meter, made to the rules in the documents without a look at the code of the engine.
//!
//! It is meant to be read and to be compared with, not to run in a meter: it allocates, and it does everything in the plainest way.

pub mod bytes;
pub mod head;
pub mod image;
pub mod logs;
pub mod meter;
pub mod procedures;
pub mod refusal;
pub mod request;
pub mod script;
pub mod staging;
pub mod tables;
pub mod time;
