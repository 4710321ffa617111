//! Document 01 with plain masks: a third voice beside the Rust and the port,
//! the yardstick of speed, and the source of expected refusals. Of document
//! 02: income pooled by unit, plans made from tables, and the lister's text
//! with its count of households.

pub mod circle;
pub mod expressions;
pub mod fields;
pub mod lister;
pub mod pool;
pub mod records;
pub mod report;
pub mod table;
pub mod world;

pub use circle::circles;
pub use pool::{PoolOutcome, Unit, pool};
pub use report::{Citing, Outcome, answer, answer_citing, check, show, show_citing};
pub use table::{Made, import};
