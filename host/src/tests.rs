//! Tests. The list of the reference's own answers is replayed through the functions of c.rs, which take what C takes;
//! the rest goes through the public types.

mod cells;
mod header;
mod journal;
mod misuse;
mod refusals;
mod replay;
mod update;
mod waits;
