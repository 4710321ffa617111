//! Numbers that stand for something outside the bytes. Each sort has a type of its own, so that none is taken for another.

use std::fmt;

macro_rules! number {
    ($name:ident, $about:literal) => {
        #[doc = $about]
        #[derive(Clone, Copy, Debug, PartialEq, Eq, PartialOrd, Ord, Hash)]
        pub struct $name(pub u8);

        impl fmt::Display for $name {
            fn fmt(&self, to: &mut fmt::Formatter) -> fmt::Result {
                write!(to, "{}", self.0)
            }
        }
    };
}

number!(Citation, "A paragraph of the rule book, 0 to 63.");
number!(Actor, "Somebody who may elect, 1 to 255.");
number!(Paper, "A paper in the office's folder, 0 to 63: the evidence of what a case says.");
