//! Inputs for comparison: plans and cases as values, and tables, random
//! ones, damaged ones, smaller ones, and the vector format.

pub mod amounts;
pub mod broken_tables;
pub mod build;
pub mod calls;
pub mod classes;
pub mod families;
pub mod generate;
pub mod households;
pub mod list_vectors;
pub mod mutate;
pub mod persons;
pub mod pool_vectors;
pub mod random;
pub mod samples;
pub mod shrink;
pub mod smallest;
pub mod table_vectors;
pub mod tables;
pub mod vectors;
pub mod village;
pub mod wire;
