//! What the tools share: the choice of cases, frames and streams, why a decoder refuses, and over the Rust original the log of a stream, the
//! reader of its lines and their bill, the counts of its last noise reports, and the acks of its spans. Nothing here calls the proved library.
pub mod acks;
pub mod bill;
pub mod causes;
pub mod choice;
pub mod counts;
pub mod frames;
pub mod lines;
pub mod log;
pub mod settings;
pub mod streams;
pub mod window;
