//! Records as bytes.

use crate::records::{
    Attachment, Bar, Cut, Decision, Edge, Election, Fact, Node, Policy, Records, Status,
};

/// A record that is being written: a field sets its bit.
pub(crate) struct Writer {
    kind: u8,
    bits: u8,
    fields: Vec<u8>,
}

impl Writer {
    pub(crate) fn new(kind: u8) -> Writer {
        Writer { kind, bits: 0, fields: Vec::new() }
    }

    /// A bit without a field.
    pub(crate) fn flag(mut self, bit: u8, stands: bool) -> Writer {
        self.bits |= u8::from(stands) << bit;
        self
    }

    pub(crate) fn bytes(mut self, bit: u8, bytes: &[u8]) -> Writer {
        self.fields.extend_from_slice(bytes);
        self.flag(bit, true)
    }

    pub(crate) fn byte(self, bit: u8, byte: u8) -> Writer {
        self.bytes(bit, &[byte])
    }

    pub(crate) fn optional(self, bit: u8, byte: Option<u8>) -> Writer {
        match byte {
            Some(byte) => self.byte(bit, byte),
            None => self,
        }
    }

    /// A list of entries of any length; builders keep counts below 256.
    pub(crate) fn list<const N: usize>(self, bit: u8, entries: &[[u8; N]]) -> Writer {
        let mut bytes = vec![entries.len() as u8];
        bytes.extend(entries.iter().flatten());
        self.bytes(bit, &bytes)
    }

    /// A list that is left out if it is empty.
    pub(crate) fn some<const N: usize>(self, bit: u8, entries: &[[u8; N]]) -> Writer {
        if entries.is_empty() { self } else { self.list(bit, entries) }
    }

    fn election(self, bit: u8, election: Option<Election>) -> Writer {
        match election {
            Some(election) => self.bytes(bit, &election_bytes(election)),
            None => self,
        }
    }

    pub(crate) fn finish(self, to: &mut Vec<u8>) {
        to.extend([self.kind, self.bits]);
        to.extend(self.fields);
    }
}

fn election_bytes(election: Election) -> [u8; 4] {
    let policy = match election.policy {
        Policy::Unknown => 0,
        Policy::DefaultFalse => 1,
        Policy::DefaultTrue => 2,
    };
    [election.fact.number, election.actor.0, policy, election.citation.0]
}

/// The places of facts in the file's order: booleans first, then rising family and tuple. At `place[n]` stands the fact that came n-th.
pub(crate) fn fact_numbers(facts: &[Fact]) -> Vec<u8> {
    let mut order: Vec<(&Fact, usize)> = facts.iter().zip(0..).collect();
    order.sort();
    let mut numbers: Vec<(usize, u8)> =
        order.iter().zip(0..).map(|(&(_, came), number)| (came, number)).collect();
    numbers.sort_unstable();
    numbers.into_iter().map(|(_, number)| number).collect()
}

/// The bytes of a plan whose handles have the numbers of the file.
pub(crate) fn plan_bytes(records: &Records) -> Vec<u8> {
    let mut bytes = Vec::new();
    let heading = Writer::new(1)
        .byte(0, records.relation)
        .optional(1, records.chain.map(|citation| citation.0));
    heading.finish(&mut bytes);
    let mut facts: Vec<&Fact> = records.facts.iter().collect();
    facts.sort();
    facts.into_iter().for_each(|fact| write_fact(fact).finish(&mut bytes));
    records.nodes.iter().for_each(|node| write_node(node).finish(&mut bytes));
    records.edges.iter().for_each(|edge| write_edge(edge).finish(&mut bytes));
    records.cuts.iter().for_each(|cut| write_cut(cut).finish(&mut bytes));
    records.attachments.iter().for_each(|rule| write_attachment(rule).finish(&mut bytes));
    records.bars.iter().for_each(|bar| write_bar(bar).finish(&mut bytes));
    records.statuses.iter().for_each(|status| write_status(status).finish(&mut bytes));
    bytes
}

fn write_fact(fact: &Fact) -> Writer {
    match fact {
        Fact::Boolean => Writer::new(2),
        Fact::Relation { family, tuple } => {
            let tuple: Vec<[u8; 1]> = tuple.iter().map(|&person| [person]).collect();
            Writer::new(2).byte(0, *family).list(1, &tuple)
        }
    }
}

fn write_node(node: &Node) -> Writer {
    let writer = Writer::new(3);
    let children = |list: &[crate::NodeId]| -> Vec<[u8; 1]> {
        list.iter().map(|child| [child.number]).collect()
    };
    match node {
        Node::Literal(value) => writer.byte(0, u8::from(*value)),
        Node::Fact(fact) => writer.byte(1, fact.number),
        Node::And(list) => writer.list(2, &children(list)),
        Node::Or(list) => writer.list(3, &children(list)),
        Node::Not(child) => writer.byte(4, child.number),
    }
}

fn write_edge(edge: &Edge) -> Writer {
    let defeaters: Vec<[u8; 1]> = edge.defeaters.iter().map(|node| [node.number]).collect();
    Writer::new(4)
        .byte(0, edge.left)
        .byte(1, edge.right)
        .byte(2, edge.condition.number)
        .byte(3, edge.citation.0)
        .some(4, &defeaters)
        .flag(5, edge.combination)
}

fn write_cut(cut: &Cut) -> Writer {
    let decisions: Vec<[u8; 2]> =
        cut.decisions.iter().map(|&(edge, said)| [edge.number, decision_byte(said)]).collect();
    let precedes: Vec<[u8; 1]> = cut.precedes.iter().map(|other| [other.number]).collect();
    Writer::new(5)
        .bytes(0, &cut.members.mask().to_le_bytes())
        .byte(1, cut.condition.number)
        .byte(2, cut.citation.0)
        .election(3, cut.election)
        .some(4, &decisions)
        .some(5, &precedes)
}

fn decision_byte(decision: Decision) -> u8 {
    match decision {
        Decision::Blocked => 1,
        Decision::Overrides => 2,
        Decision::Unresolved => 3,
    }
}

fn write_attachment(rule: &Attachment) -> Writer {
    Writer::new(6)
        .bytes(0, &rule.members.mask().to_le_bytes())
        .byte(1, rule.anchor)
        .byte(2, rule.condition.number)
        .byte(3, rule.citation.0)
        .byte(4, rule.actor.0)
        .election(5, rule.election)
}

fn write_bar(bar: &Bar) -> Writer {
    Writer::new(7)
        .bytes(0, &bar.members.mask().to_le_bytes())
        .byte(1, bar.condition.number)
        .byte(2, bar.citation.0)
}

fn write_status(status: &Status) -> Writer {
    Writer::new(8)
        .byte(0, status.person)
        .byte(1, status.condition.number)
        .byte(2, status.citation.0)
}

pub(crate) fn write_family(number: u8, scope: Option<u8>, complete: Option<u8>) -> Writer {
    Writer::new(2).byte(0, number).optional(1, scope).optional(2, complete)
}

pub(crate) fn write_boolean(fact: u8, unknown: Option<u8>, told: &[(bool, u8)]) -> Writer {
    let pairs: Vec<[u8; 2]> =
        told.iter().map(|&(value, evidence)| [u8::from(value), evidence]).collect();
    Writer::new(3).byte(0, fact).optional(1, unknown).some(2, &pairs)
}

pub(crate) fn write_relation(fact: u8, value: bool, evidence: u8) -> Writer {
    Writer::new(4).byte(0, fact).byte(1, u8::from(value)).byte(2, evidence)
}

pub(crate) fn write_constraint(node: u8) -> Writer {
    Writer::new(5).byte(0, node)
}
