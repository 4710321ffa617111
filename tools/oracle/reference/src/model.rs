//! Types that types.rs names in records of no concern here.

#[derive(Clone, Debug, PartialEq, Eq)]
pub struct Interval;

#[derive(Clone, Debug, PartialEq, Eq)]
pub struct ScalarValue;
