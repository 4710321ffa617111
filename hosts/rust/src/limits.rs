//! The limits of a plan and a case.

/// Persons are numbered from 0.
pub const PERSONS: usize = 64;
/// Nobody is in two units.
pub const UNITS: usize = PERSONS;
pub const FACTS: usize = 64;
pub const NODES: usize = 256;
pub const EDGES: usize = 64;
pub const CUTS: usize = 16;
pub const ATTACHMENTS: usize = 32;
pub const BARS: usize = 32;
pub const STATUSES: usize = 32;
/// Unresolved decisions of a plan.
pub const UNRESOLVED: usize = 16;
/// Persons in the tuple of a relation.
pub const TUPLE: usize = 4;
/// Children of an And or an Or, defeaters of an edge.
pub const CHILDREN: usize = 16;

pub const FAMILIES: usize = 16;
/// Boolean records of a case.
pub const BOOLEANS: usize = 64;
/// Observations of one boolean fact.
pub const OBSERVATIONS: usize = 16;
/// Relation records of a case.
pub const RELATIONS: usize = 256;
pub const CONSTRAINTS: usize = 16;
/// The most worlds that a heading can allow.
pub const WORLDS: u16 = 4096;

/// The highest citation and the highest piece of evidence.
pub const CITATION: u8 = 63;
