//! Handles: what a plan gives for a thing of its own. A handle stays good while its thing stands, whatever else is added or removed, and no
//! handle ever names anything else: not in another plan, and not in another builder that was opened from the same plan.

use std::fmt;
use std::hash::{Hash, Hasher};
use std::sync::atomic::{AtomicU64, Ordering};

/// Tells each handle from every other one.
#[derive(Clone, Copy, Debug, PartialEq, Eq, Hash)]
pub(crate) struct Serial(u64);

impl Serial {
    fn next() -> Serial {
        static LAST: AtomicU64 = AtomicU64::new(0);
        Serial(LAST.fetch_add(1, Ordering::Relaxed))
    }
}

/// What all handles have.
pub(crate) trait Handle: Copy {
    /// What it is a handle of.
    const WHAT: &'static str;
    fn of(serial: Serial, number: u8) -> Self;
    fn serial(self) -> Serial;
}

/// The number is that of the record in the plan that gave the handle. A handle that a builder gave may have another one by the time the plan
/// is finished, so it is no part of what the handle is.
macro_rules! handle {
    ($name:ident, $what:literal, $about:literal) => {
        #[doc = $about]
        #[derive(Clone, Copy)]
        pub struct $name {
            pub(crate) serial: Serial,
            pub(crate) number: u8,
        }

        impl Handle for $name {
            const WHAT: &'static str = $what;

            fn of(serial: Serial, number: u8) -> $name {
                $name { serial, number }
            }

            fn serial(self) -> Serial {
                self.serial
            }
        }

        impl fmt::Debug for $name {
            fn fmt(&self, to: &mut fmt::Formatter) -> fmt::Result {
                write!(to, "{} {}", $what, self.number)
            }
        }

        impl PartialEq for $name {
            fn eq(&self, other: &$name) -> bool {
                self.serial == other.serial
            }
        }

        impl Eq for $name {}

        impl Hash for $name {
            fn hash<H: Hasher>(&self, state: &mut H) {
                self.serial.hash(state);
            }
        }
    };
}

handle!(BooleanId, "fact", "A boolean fact of a plan.");
handle!(RelationId, "fact", "A relation fact of a plan.");
handle!(FactId, "fact", "A fact of a plan, boolean or relation.");
handle!(NodeId, "node", "A node of a plan: a condition.");
handle!(EdgeId, "edge", "An edge of a plan.");
handle!(CutId, "cut", "A cut of a plan.");
handle!(AttachmentId, "attachment", "An attachment of a plan.");
handle!(BarId, "bar", "A bar of a plan.");
handle!(StatusId, "status", "A status of a plan.");

impl From<BooleanId> for FactId {
    fn from(fact: BooleanId) -> FactId {
        FactId::of(fact.serial, fact.number)
    }
}

impl From<RelationId> for FactId {
    fn from(fact: RelationId) -> FactId {
        FactId::of(fact.serial, fact.number)
    }
}

/// A rule of a plan.
#[derive(Clone, Copy, Debug, PartialEq, Eq, Hash)]
pub enum RuleId {
    Edge(EdgeId),
    Cut(CutId),
    Attachment(AttachmentId),
    Bar(BarId),
    Status(StatusId),
}

/// The handles of one sort, in the order of the things they name.
#[derive(Clone, Debug, Default)]
pub(crate) struct Given {
    serials: Vec<Serial>,
}

impl Given {
    /// Handles for so many things.
    pub(crate) fn fresh(count: usize) -> Given {
        Given { serials: (0..count).map(|_| Serial::next()).collect() }
    }

    /// The handle of one more thing.
    pub(crate) fn push<H: Handle>(&mut self, number: u8) -> H {
        let serial = Serial::next();
        self.serials.push(serial);
        H::of(serial, number)
    }

    /// Where the thing stands that a handle names; none if it is not here.
    pub(crate) fn place<H: Handle>(&self, handle: H) -> Option<usize> {
        self.serials.iter().position(|serial| *serial == handle.serial())
    }

    /// The handle of what stands there.
    pub(crate) fn at<H: Handle>(&self, place: usize) -> Option<H> {
        let number = u8::try_from(place).ok()?;
        self.serials.get(place).map(|serial| H::of(*serial, number))
    }

    /// Only those at the places that are to be kept.
    pub(crate) fn keep(&mut self, kept: &[bool]) {
        let mut places = kept.iter();
        self.serials.retain(|_| places.next().copied().unwrap_or(true));
    }

    pub(crate) fn remove(&mut self, place: usize) {
        if place < self.serials.len() {
            self.serials.remove(place);
        }
    }
}

/// All handles of a plan.
#[derive(Clone, Debug, Default)]
pub(crate) struct Handles {
    pub(crate) facts: Given,
    pub(crate) nodes: Given,
    pub(crate) edges: Given,
    pub(crate) cuts: Given,
    pub(crate) attachments: Given,
    pub(crate) bars: Given,
    pub(crate) statuses: Given,
}
