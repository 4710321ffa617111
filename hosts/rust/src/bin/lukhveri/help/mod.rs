//! What the program says of itself. The man page is made from these texts: lines flow, but those that begin with four blanks are a list, where two
//! blanks part a label from its text, or stay as they are.

pub const MAIN: &str = include_str!("main.txt");
pub const CHECK: &str = include_str!("check.txt");
pub const IMPORT: &str = include_str!("import.txt");
pub const LIST: &str = include_str!("list.txt");
pub const EXPLAIN: &str = include_str!("explain.txt");
pub const SHOW: &str = include_str!("show.txt");
pub const CIRCLE: &str = include_str!("circle.txt");
pub const POOL: &str = include_str!("pool.txt");
pub const BATCH: &str = include_str!("batch.txt");
