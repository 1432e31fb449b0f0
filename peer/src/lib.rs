//! A second, independent implementation of document 01 with change requests K1 to K7, for differential tests.
#![forbid(unsafe_code)]

pub mod cli;
pub mod damage;
pub mod dump;
pub mod dump_vectors;
pub mod gen;
pub mod ground_vectors;
pub mod handover;
pub mod image;
pub mod image_gen;
pub mod image_vectors;
pub mod page;
pub mod rig;
pub mod rules;
pub mod stored;
pub mod svg;
pub mod trace;
pub mod vectors;
pub mod wall;
