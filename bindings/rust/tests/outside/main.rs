//! Tests of the memory manager from outside, through the safe wrapper: scripts that the program `play` has answered are replayed,
//! and rows are compared with those that the tests in C have left.
mod calls;
mod damaged;
mod edges;
mod replay;
mod scripts;
