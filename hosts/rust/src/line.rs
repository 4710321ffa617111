//! Lines: what is said of each person of a roster.

use crate::persons::{Numbers, Persons};

/// Bytes of a line.
pub const LINE: usize = 29;

/// What a line says about the person's block.
#[derive(Clone, Copy, Debug, PartialEq, Eq, Hash)]
pub enum LineKind {
    /// Block and role are the same in every world.
    Decided,
    /// The block differs between worlds.
    Membership,
    /// The block is the same in every world, the role is not.
    Role,
    /// Cuts overlap.
    Overlap,
    /// A chain of Base edges is left to discretion.
    Discretion,
    /// The roster is not complete.
    RosterIncomplete,
    /// No world is admissible.
    Inconsistent,
}

impl LineKind {
    const ALL: [LineKind; 7] = [
        LineKind::Decided,
        LineKind::Membership,
        LineKind::Role,
        LineKind::Overlap,
        LineKind::Discretion,
        LineKind::RosterIncomplete,
        LineKind::Inconsistent,
    ];

    fn of(byte: u8) -> Option<LineKind> {
        LineKind::ALL.get(usize::from(byte)).copied()
    }

    /// The number in the line's bytes.
    pub fn number(self) -> u8 {
        self as u8
    }
}

/// How a person belongs to the block.
#[derive(Clone, Copy, Debug, PartialEq, Eq, Hash)]
pub enum Role {
    /// No role, or none that is the same in every world.
    None,
    Member,
    Excluded,
    Barred,
}

impl Role {
    const ALL: [Role; 4] = [Role::None, Role::Member, Role::Excluded, Role::Barred];

    fn of(byte: u8) -> Option<Role> {
        Role::ALL.get(usize::from(byte)).copied()
    }

    /// The number in the line's bytes.
    pub fn number(self) -> u8 {
        self as u8
    }
}

/// What is said of one person.
#[derive(Clone, Copy, Debug, PartialEq, Eq)]
pub struct Line {
    pub person: u8,
    pub kind: LineKind,
    pub role: Role,
    /// Everyone counted together, the person too; nobody where it is open.
    pub block: Persons,
    open_facts: u64,
    open_decisions: u16,
    citations: u64,
}

impl Line {
    /// None for bytes that no operation writes.
    pub fn of(bytes: &[u8; LINE]) -> Option<Line> {
        let (head, rest) = bytes.split_first_chunk::<3>()?;
        let (block, rest) = rest.split_first_chunk::<8>()?;
        let (open_facts, rest) = rest.split_first_chunk::<8>()?;
        let (open_decisions, rest) = rest.split_first_chunk::<2>()?;
        let citations = rest.first_chunk::<8>()?;
        let [person, kind, role] = *head;
        Some(Line {
            person,
            kind: LineKind::of(kind)?,
            role: Role::of(role)?,
            block: Persons::from_mask(u64::from_le_bytes(*block)),
            open_facts: u64::from_le_bytes(*open_facts),
            open_decisions: u16::from_le_bytes(*open_decisions),
            citations: u64::from_le_bytes(*citations),
        })
    }

    /// The bytes that it was read from.
    pub fn bytes(&self) -> Vec<u8> {
        let mut bytes = vec![self.person, self.kind.number(), self.role.number()];
        bytes.extend(self.block.mask().to_le_bytes());
        bytes.extend(self.open_facts.to_le_bytes());
        bytes.extend(self.open_decisions.to_le_bytes());
        bytes.extend(self.citations.to_le_bytes());
        bytes
    }

    /// The open facts whose influence holds the person, by their numbers in the plan's file.
    pub fn open_facts(&self) -> Numbers {
        Numbers::of(self.open_facts)
    }

    /// The unresolved decisions whose influence holds the person, by their places in [`Plan::decisions`](crate::Plan::decisions).
    pub fn open_decisions(&self) -> Numbers {
        Numbers::of(u64::from(self.open_decisions))
    }

    /// The same line with these unresolved decisions.
    pub(crate) fn with_open_decisions(&self, places: impl Iterator<Item = u8>) -> Line {
        let open_decisions =
            places.filter(|place| *place < 16).fold(0, |all, place| all | 1 << place);
        Line { open_decisions, ..*self }
    }

    /// The citations of the rules that made the block.
    pub fn citations(&self) -> Numbers {
        Numbers::of(self.citations)
    }

    /// Whether the person's amount goes into the pool of the block: decided, and not excluded. Every other amount is unplaced.
    pub fn is_pooled(&self) -> bool {
        self.kind == LineKind::Decided && self.role != Role::Excluded
    }

    /// Whether the person makes the block a household: the role is open, or the line is decided and not excluded. One such person is enough; a block
    /// without any, as everybody in it is excluded, draws no service and is no household.
    pub fn makes_household(&self) -> bool {
        self.kind == LineKind::Role || self.is_pooled()
    }

    /// Those with whom the person is counted together.
    pub fn others(&self) -> Persons {
        self.block.without(Persons::of(&[self.person]).unwrap_or(Persons::NOBODY))
    }
}
