//! What the records of a case say, by the plan's file numbers.

use crate::persons::Persons;
use crate::read::{File, Reader, Record};
use crate::write::{Writer, write_boolean, write_constraint, write_family, write_relation};

/// What is told of a family.
#[derive(Clone, Copy, Debug, PartialEq, Eq)]
pub struct FamilyRecord {
    pub number: u8,
    /// 0 is empty.
    pub scope: u8,
    pub complete: Option<u8>,
}

/// What is told of a boolean fact.
#[derive(Clone, Debug, PartialEq, Eq)]
pub struct BooleanRecord {
    pub fact: u8,
    /// The evidence of an explicit unknown.
    pub unknown: Option<u8>,
    /// Values and evidence.
    pub observations: Vec<(bool, u8)>,
}

/// An observation of a relation fact.
#[derive(Clone, Copy, Debug, PartialEq, Eq)]
pub struct RelationRecord {
    pub fact: u8,
    pub value: bool,
    pub evidence: u8,
}

/// All records of a case. They are read as they stand; whether they are right an answer tells.
#[derive(Clone, Debug, Default, PartialEq, Eq)]
pub struct CaseRecords {
    pub relation: u8,
    /// 0 is empty.
    pub scope: u8,
    pub segment: u8,
    pub segment_complete: bool,
    pub roster: Persons,
    pub complete: Option<u8>,
    pub most_worlds: u16,
    pub families: Vec<FamilyRecord>,
    pub booleans: Vec<BooleanRecord>,
    pub relations: Vec<RelationRecord>,
    /// Numbers of nodes.
    pub constraints: Vec<u8>,
}

impl CaseRecords {
    /// None where the bytes are no records of a case; never for a case that was answered.
    pub fn read(bytes: &[u8]) -> Option<CaseRecords> {
        let mut case = CaseRecords::default();
        let mut reader = Reader::new(File::Case, bytes);
        for record in reader.by_ref() {
            case.add(&record)?;
        }
        reader.rest().is_empty().then_some(case)
    }

    /// What case.bin holds: these records, one after another. A scope or a segment of 0 is left out.
    pub fn bytes(&self) -> Vec<u8> {
        let mut bytes = Vec::new();
        self.write_heading().finish(&mut bytes);
        for family in &self.families {
            write_family(family.number, given(family.scope), family.complete).finish(&mut bytes);
        }
        for boolean in &self.booleans {
            write_boolean(boolean.fact, boolean.unknown, &boolean.observations).finish(&mut bytes);
        }
        for relation in &self.relations {
            write_relation(relation.fact, relation.value, relation.evidence).finish(&mut bytes);
        }
        self.constraints.iter().for_each(|node| write_constraint(*node).finish(&mut bytes));
        bytes
    }

    pub(crate) fn write_heading(&self) -> Writer {
        Writer::new(1)
            .byte(0, self.relation)
            .optional(1, given(self.scope))
            .optional(2, given(self.segment))
            .flag(3, self.segment_complete)
            .bytes(4, &self.roster.mask().to_le_bytes())
            .optional(5, self.complete)
            .bytes(6, &self.most_worlds.to_le_bytes())
    }

    fn add(&mut self, record: &Record) -> Option<()> {
        match record.kind {
            1 => self.heading(record)?,
            2 => self.families.push(FamilyRecord {
                number: record.byte(0)?,
                scope: record.byte(1).unwrap_or(0),
                complete: record.byte(2),
            }),
            3 => self.booleans.push(BooleanRecord {
                fact: record.byte(0)?,
                unknown: record.byte(1),
                observations: pairs(record.bytes(2)),
            }),
            4 => self.relations.push(RelationRecord {
                fact: record.byte(0)?,
                value: record.byte(1)? == 1,
                evidence: record.byte(2)?,
            }),
            _ => self.constraints.push(record.byte(0)?),
        }
        Some(())
    }

    fn heading(&mut self, record: &Record) -> Option<()> {
        self.relation = record.byte(0)?;
        self.scope = record.byte(1).unwrap_or(0);
        self.segment = record.byte(2).unwrap_or(0);
        self.segment_complete = record.has(3);
        self.roster = Persons::from_mask(record.mask(4)?);
        self.complete = record.byte(5);
        self.most_worlds = u16::from_le_bytes(*record.field(6)?.first_chunk()?);
        Some(())
    }
}

/// None for 0, which is empty.
fn given(number: u8) -> Option<u8> {
    Some(number).filter(|number| *number != 0)
}

fn pairs(bytes: &[u8]) -> Vec<(bool, u8)> {
    let pairs = bytes.chunks_exact(2).filter_map(|pair| pair.first_chunk::<2>());
    pairs.map(|&[value, evidence]| (value == 1, evidence)).collect()
}
