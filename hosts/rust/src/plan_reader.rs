//! The records of a plan that the check has accepted, as values.

use crate::handles::{BooleanId, EdgeId, FactId, Given, Handles, NodeId};
use crate::numbers::{Actor, Citation};
use crate::persons::Persons;
use crate::read::{File, Reader, Record};
use crate::records::{
    Attachment, Bar, Cut, Decision, Edge, Election, Fact, Node, Policy, Records, Status,
};

/// All records and their handles; none where the bytes are no accepted plan.
pub(crate) fn read(bytes: &[u8]) -> Option<(Handles, Records)> {
    let handles = handles(bytes);
    let mut records = Records::new(0);
    let mut reader = Reader::new(File::Plan, bytes);
    for record in reader.by_ref() {
        Taken { handles: &handles, record }.add_to(&mut records)?;
    }
    reader.rest().is_empty().then_some((handles, records))
}

/// A handle for each record, so that those may be named that come later.
fn handles(bytes: &[u8]) -> Handles {
    let mut counts = [0; 9];
    for record in Reader::new(File::Plan, bytes) {
        if let Some(count) = counts.get_mut(usize::from(record.kind)) {
            *count += 1;
        }
    }
    let [_, _, facts, nodes, edges, cuts, attachments, bars, statuses] = counts.map(Given::fresh);
    Handles { facts, nodes, edges, cuts, attachments, bars, statuses }
}

/// A record of the plan whose handles are there.
struct Taken<'a> {
    handles: &'a Handles,
    record: Record<'a>,
}

impl Taken<'_> {
    fn add_to(&self, records: &mut Records) -> Option<()> {
        match self.record.kind {
            1 => {
                records.relation = self.record.byte(0)?;
                records.chain = self.citation(1);
            }
            2 => records.facts.push(self.fact()?),
            3 => records.nodes.push(self.node()?),
            4 => records.edges.push(self.edge()?),
            5 => records.cuts.push(self.cut()?),
            6 => records.attachments.push(self.attachment()?),
            7 => records.bars.push(self.bar()?),
            8 => records.statuses.push(self.status()?),
            _ => return None,
        }
        Some(())
    }

    fn node_id(&self, number: u8) -> Option<NodeId> {
        self.handles.nodes.at(usize::from(number))
    }

    fn node_at(&self, bit: usize) -> Option<NodeId> {
        self.node_id(self.record.byte(bit)?)
    }

    fn nodes(&self, bytes: &[u8]) -> Option<Vec<NodeId>> {
        bytes.iter().map(|&number| self.node_id(number)).collect()
    }

    fn citation(&self, bit: usize) -> Option<Citation> {
        self.record.byte(bit).map(Citation)
    }

    fn fact_id(&self, number: u8) -> Option<FactId> {
        self.handles.facts.at(usize::from(number))
    }

    fn members(&self) -> Option<Persons> {
        self.record.mask(0).map(Persons::from_mask)
    }

    fn fact(&self) -> Option<Fact> {
        match (self.record.byte(0), self.record.field(1)) {
            (None, None) => Some(Fact::Boolean),
            (Some(family), Some(tuple)) => Some(Fact::Relation { family, tuple: tuple.to_vec() }),
            _ => None,
        }
    }

    fn node(&self) -> Option<Node> {
        let record = &self.record;
        let literal = || record.byte(0).map(|value| Node::Literal(value == 1));
        let fact = || self.fact_id(record.byte(1)?).map(Node::Fact);
        let and = || self.nodes(record.field(2)?).map(Node::And);
        let or = || self.nodes(record.field(3)?).map(Node::Or);
        let not = || self.node_at(4).map(Node::Not);
        literal().or_else(fact).or_else(and).or_else(or).or_else(not)
    }

    fn edge(&self) -> Option<Edge> {
        Some(Edge {
            left: self.record.byte(0)?,
            right: self.record.byte(1)?,
            condition: self.node_at(2)?,
            citation: self.citation(3)?,
            defeaters: self.nodes(self.record.bytes(4))?,
            combination: self.record.has(5),
        })
    }

    fn cut(&self) -> Option<Cut> {
        let precedes = self.record.bytes(5).iter();
        Some(Cut {
            members: self.members()?,
            condition: self.node_at(1)?,
            citation: self.citation(2)?,
            election: self.election(3)?,
            decisions: self.decisions()?,
            precedes: precedes
                .map(|&number| self.handles.cuts.at(usize::from(number)))
                .collect::<Option<Vec<_>>>()?,
        })
    }

    fn decisions(&self) -> Option<Vec<(EdgeId, Decision)>> {
        let pairs = self.record.bytes(4).chunks_exact(2);
        pairs.map(|pair| self.decision(*pair.first_chunk()?)).collect()
    }

    fn decision(&self, [number, said]: [u8; 2]) -> Option<(EdgeId, Decision)> {
        let decision = match said {
            1 => Decision::Blocked,
            2 => Decision::Overrides,
            3 => Decision::Unresolved,
            _ => return None,
        };
        Some((self.handles.edges.at(usize::from(number))?, decision))
    }

    /// An election is there or not; none for one that cannot be read.
    fn election(&self, bit: usize) -> Option<Option<Election>> {
        let Some(bytes) = self.record.field(bit) else {
            return Some(None);
        };
        let &[number, actor, policy, citation] = bytes.first_chunk()?;
        let policy = match policy {
            0 => Policy::Unknown,
            1 => Policy::DefaultFalse,
            2 => Policy::DefaultTrue,
            _ => return None,
        };
        let FactId { serial, number } = self.fact_id(number)?;
        let fact = BooleanId { serial, number };
        Some(Some(Election { fact, actor: Actor(actor), policy, citation: Citation(citation) }))
    }

    fn attachment(&self) -> Option<Attachment> {
        Some(Attachment {
            members: self.members()?,
            anchor: self.record.byte(1)?,
            condition: self.node_at(2)?,
            citation: self.citation(3)?,
            actor: Actor(self.record.byte(4)?),
            election: self.election(5)?,
        })
    }

    fn bar(&self) -> Option<Bar> {
        let (condition, citation) = (self.node_at(1)?, self.citation(2)?);
        Some(Bar { members: self.members()?, condition, citation })
    }

    fn status(&self) -> Option<Status> {
        let (condition, citation) = (self.node_at(1)?, self.citation(2)?);
        Some(Status { person: self.record.byte(0)?, condition, citation })
    }
}
