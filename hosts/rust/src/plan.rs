//! A plan that the check accepts.

use crate::handles::{
    AttachmentId, BarId, BooleanId, CutId, EdgeId, FactId, Given, Handle, Handles, NodeId,
    RelationId, StatusId,
};
use crate::operations::check;
use crate::plan_reader;
use crate::records::{Decision, Fact, Records};
use crate::refusal::{Reason, Refusal};
use crate::renumber::renumber;
use crate::write::{fact_numbers, plan_bytes};

/// A finished plan: its bytes, what its records say, and which number each of its things has got in the file.
#[derive(Clone, Debug)]
pub struct Plan {
    handles: Handles,
    records: Records,
    /// For each fact in the order of [`Records::facts`], its number in the file.
    numbers: Vec<u8>,
    bytes: Vec<u8>,
}

impl Plan {
    pub(crate) fn of(handles: Handles, mut records: Records) -> Plan {
        let numbers = fact_numbers(&records.facts);
        renumber(&mut records, &handles, &numbers);
        let bytes = plan_bytes(&records);
        Plan { handles, records, numbers, bytes }
    }

    /// Checks a plan's bytes and reads them; they stay as they are.
    pub fn read(bytes: &[u8]) -> Result<Plan, Refusal> {
        check(bytes)?;
        // It never comes: an accepted plan can be read.
        let unreadable = Refusal::nowhere(Reason::Other(0));
        let (handles, records) = plan_reader::read(bytes).ok_or(unreadable)?;
        let numbers = fact_numbers(&records.facts);
        Ok(Plan { handles, records, numbers, bytes: bytes.to_vec() })
    }

    /// What plan.bin holds.
    pub fn bytes(&self) -> &[u8] {
        &self.bytes
    }

    /// What its records say.
    pub fn records(&self) -> &Records {
        &self.records
    }

    pub(crate) fn handles(&self) -> &Handles {
        &self.handles
    }

    /// The number of a fact in the file, by which lines and events name it; none for a fact of another plan.
    pub fn fact_number(&self, fact: impl Into<FactId>) -> Option<u8> {
        let place = self.handles.facts.place(fact.into())?;
        self.numbers.get(place).copied()
    }

    /// The fact that has this number in the file.
    pub fn fact(&self, number: u8) -> Option<(FactId, &Fact)> {
        let place = self.numbers.iter().position(|has| *has == number)?;
        let FactId { serial, .. } = self.handles.facts.at(place)?;
        Some((FactId { serial, number }, self.records.facts.get(place)?))
    }

    /// The boolean fact that has this number in the file.
    pub fn boolean(&self, number: u8) -> Option<BooleanId> {
        let (FactId { serial, number }, fact) = self.fact(number)?;
        (*fact == Fact::Boolean).then_some(BooleanId { serial, number })
    }

    /// The relation fact that has this number in the file.
    pub fn relation(&self, number: u8) -> Option<RelationId> {
        let (FactId { serial, number }, fact) = self.fact(number)?;
        (*fact != Fact::Boolean).then_some(RelationId { serial, number })
    }

    /// The unresolved decisions in the order of a line's open decisions: by cut, then edge.
    pub fn decisions(&self) -> Vec<(CutId, EdgeId)> {
        let cuts = self.records.cuts.iter().zip(0..);
        let all = cuts.filter_map(|(cut, number)| {
            let cut_id: CutId = self.cut(number)?;
            let open = cut.decisions.iter().filter(|(_, said)| *said == Decision::Unresolved);
            Some(open.map(move |&(edge, _)| (cut_id, edge)))
        });
        let mut all: Vec<(CutId, EdgeId)> = all.flatten().collect();
        all.sort_by_key(|(cut, edge)| (cut.number, edge.number));
        all
    }

    /// The family of a relation fact of this plan.
    pub(crate) fn family_of(&self, relation: RelationId) -> Option<u8> {
        match self.records.facts.get(self.handles.facts.place(relation)?)? {
            Fact::Relation { family, .. } => Some(*family),
            Fact::Boolean => None,
        }
    }
}

/// From numbers to handles and back: records of a kind are numbered from 0.
macro_rules! numbered {
    ($name:ident, $number:ident, $list:ident, $id:ident) => {
        impl Plan {
            /// What has this number in the file; none where there are not so many.
            pub fn $name(&self, number: u8) -> Option<$id> {
                self.handles.$list.at(usize::from(number))
            }

            /// Its number in the file; none if it is not of this plan.
            pub fn $number(&self, handle: $id) -> Option<u8> {
                number_of(&self.handles.$list, handle)
            }
        }
    };
}

numbered!(node, node_number, nodes, NodeId);
numbered!(edge, edge_number, edges, EdgeId);
numbered!(cut, cut_number, cuts, CutId);
numbered!(attachment, attachment_number, attachments, AttachmentId);
numbered!(bar, bar_number, bars, BarId);
numbered!(status, status_number, statuses, StatusId);

fn number_of(given: &Given, handle: impl Handle) -> Option<u8> {
    given.place(handle).and_then(|place| u8::try_from(place).ok())
}

impl AsRef<[u8]> for Plan {
    fn as_ref(&self) -> &[u8] {
        &self.bytes
    }
}
