//! The points that document 02 leaves open, each on an input that tells readings apart.

mod bases;
mod finding;
mod records;
