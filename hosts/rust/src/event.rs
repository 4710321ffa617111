//! Events: which rules acted, over all admissible worlds.

use crate::persons::{Numbers, Persons};

/// Bytes of an event.
pub const EVENT: usize = 12;

/// Pieces of evidence, numbered from 0 to 63.
#[derive(Clone, Copy, Debug, Default, PartialEq, Eq, Hash)]
pub struct Evidence(u64);

impl Evidence {
    pub const fn mask(self) -> u64 {
        self.0
    }

    /// Rising.
    pub fn iter(self) -> Numbers {
        Numbers::of(self.0)
    }
}

impl IntoIterator for Evidence {
    type Item = u8;
    type IntoIter = Numbers;

    fn into_iter(self) -> Numbers {
        self.iter()
    }
}

/// What happened in some admissible world. Rules and facts go by their numbers in the plan's file.
#[derive(Clone, Copy, Debug, PartialEq, Eq)]
pub enum Event {
    /// An edge took effect.
    Frozen { edge: u8, left: u8, right: u8 },
    /// A cut took effect; no actor where it has no election.
    Applied { cut: u8, actor: Option<u8>, evidence: Evidence },
    /// An edge blocked a cut.
    Blocked { cut: u8, edge: u8, actor: Option<u8>, evidence: Evidence },
    /// The sets of two cuts overlap.
    Overlap { earlier: u8, later: u8 },
    /// An attachment took effect.
    Attached { attachment: u8, anchor: u8, actor: u8, evidence: Evidence },
    /// A bar took effect.
    Barred { bar: u8 },
    /// A status took effect.
    Excluded { status: u8, person: u8 },
    /// A fact took the default of its election.
    Default { fact: u8, actor: u8, value: bool, citation: u8 },
    /// A chain of Base edges was left to discretion.
    Discretion { persons: Persons },
}

fn actor_of(byte: u8) -> Option<u8> {
    (byte != 0).then_some(byte)
}

impl Event {
    /// None for bytes that no operation writes.
    pub fn of(bytes: &[u8; EVENT]) -> Option<Event> {
        let (head, rest) = bytes.split_first_chunk::<4>()?;
        let mask = u64::from_le_bytes(*rest.first_chunk::<8>()?);
        let ([kind, a, b, c], evidence) = (*head, Evidence(mask));
        Some(match kind {
            1 => Event::Frozen { edge: a, left: b, right: c },
            2 => Event::Applied { cut: a, actor: actor_of(b), evidence },
            3 => Event::Blocked { cut: a, edge: b, actor: actor_of(c), evidence },
            4 => Event::Overlap { earlier: a, later: b },
            5 => Event::Attached { attachment: a, anchor: b, actor: c, evidence },
            6 => Event::Barred { bar: a },
            7 => Event::Excluded { status: a, person: b },
            8 => {
                let citation = u8::try_from(mask).ok()?;
                Event::Default { fact: a, actor: b, value: c != 0, citation }
            }
            9 => Event::Discretion { persons: Persons::from_mask(mask) },
            _ => return None,
        })
    }

    /// Kind, a, b, c and mask.
    fn parts(&self) -> ([u8; 4], u64) {
        match *self {
            Event::Frozen { edge, left, right } => ([1, edge, left, right], 0),
            Event::Applied { cut, actor, evidence } => {
                ([2, cut, actor.unwrap_or(0), 0], evidence.0)
            }
            Event::Blocked { cut, edge, actor, evidence } => {
                ([3, cut, edge, actor.unwrap_or(0)], evidence.0)
            }
            Event::Overlap { earlier, later } => ([4, earlier, later, 0], 0),
            Event::Attached { attachment, anchor, actor, evidence } => {
                ([5, attachment, anchor, actor], evidence.0)
            }
            Event::Barred { bar } => ([6, bar, 0, 0], 0),
            Event::Excluded { status, person } => ([7, status, person, 0], 0),
            Event::Default { fact, actor, value, citation } => {
                ([8, fact, actor, u8::from(value)], u64::from(citation))
            }
            Event::Discretion { persons } => ([9, 0, 0, 0], persons.mask()),
        }
    }

    /// The bytes that it was read from.
    pub fn bytes(&self) -> Vec<u8> {
        let (head, mask) = self.parts();
        let mut bytes = head.to_vec();
        bytes.extend(mask.to_le_bytes());
        bytes
    }
}
