//! Tests of the program's private parts, over a system in memory.

mod engines;
mod fake;
mod lines;
mod refused_requests;
mod refusing;
mod runs;
mod streams;
