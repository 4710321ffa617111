//! Small pieces for plans and cases written by hand.

use crate::wire::*;

/// The set of the given persons.
pub fn set(persons: &[u8]) -> u64 {
    persons.iter().fold(0, |set, person| set | 1 << person)
}

pub fn base(left: u8, right: u8, condition: u8) -> Edge {
    Edge { left, right, condition, citation: 1, defeaters: None, combination: false }
}

pub fn combination(left: u8, right: u8, condition: u8) -> Edge {
    Edge { combination: true, citation: 2, ..base(left, right, condition) }
}

pub fn cut(members: &[u8], condition: u8) -> Cut {
    Cut {
        members: set(members),
        condition,
        citation: 3,
        election: None,
        decisions: None,
        precedes: None,
    }
}

pub fn attachment(members: &[u8], anchor: u8, condition: u8) -> Attachment {
    Attachment { members: set(members), anchor, condition, citation: 4, actor: 1, election: None }
}

pub fn bar(members: &[u8], condition: u8) -> Bar {
    Bar { members: set(members), condition, citation: 5 }
}

pub fn status(person: u8, condition: u8) -> Status {
    Status { person, condition, citation: 6 }
}

/// Node 0 is true.
pub fn plan() -> Plan {
    Plan { nodes: vec![Node::Literal(1)], ..Plan::default() }
}

/// A complete roster under relation 0, scope 1, segment 1.
pub fn case(roster: u64) -> Case {
    Case {
        scope: Some(1),
        segment: Some(1),
        segment_complete: true,
        roster,
        complete: Some(0),
        most_worlds: 4096,
        ..Case::default()
    }
}

pub fn observe(fact: u8, observations: &[(u8, u8)]) -> Boolean {
    Boolean { fact, unknown: None, observations: Some(observations.to_vec()) }
}

pub fn unknown(fact: u8, evidence: u8) -> Boolean {
    Boolean { fact, unknown: Some(evidence), observations: None }
}

/// Every kind of record with every field, accepted by both sides.
pub fn whole_plan() -> Plan {
    let election = Election { fact: 0, actor: 9, policy: 2, citation: 7 };
    Plan {
        relation: 5,
        chain: None,
        facts: vec![None, None, Some((3, vec![])), Some((3, vec![1, 2])), Some((4, vec![40]))],
        nodes: vec![
            Node::Literal(1),
            Node::Fact(0),
            Node::Fact(2),
            Node::Fact(3),
            Node::And(vec![1, 2]),
            Node::Or(vec![3, 1, 0]),
            Node::Not(4),
            Node::Fact(1),
        ],
        edges: vec![
            Edge { defeaters: Some(vec![6, 7]), ..base(0, 1, 0) },
            Edge { defeaters: Some(vec![]), citation: 63, ..combination(1, 2, 5) },
            base(2, 63, 3),
        ],
        cuts: vec![
            Cut {
                election: Some(election),
                decisions: Some(vec![(1, UNRESOLVED)]),
                precedes: Some(vec![1]),
                ..cut(&[0, 1], 1)
            },
            Cut { decisions: Some(vec![(1, BLOCKED)]), citation: 8, ..cut(&[1], 4) },
        ],
        attachments: vec![Attachment {
            actor: 9,
            election: Some(election),
            ..attachment(&[2], 0, 1)
        }],
        bars: vec![bar(&[0, 63], 3)],
        statuses: vec![status(63, 7)],
    }
}

pub fn whole_case() -> Case {
    Case {
        relation: 5,
        most_worlds: 64,
        families: vec![
            Family { number: 3, scope: Some(1), complete: Some(2) },
            Family { number: 4, scope: Some(7), complete: None },
        ],
        booleans: vec![unknown(1, 4), observe(0, &[(1, 3), (1, 5)])],
        relations: vec![
            Relation { fact: 3, value: 1, evidence: 1 },
            Relation { fact: 4, value: 0, evidence: 1 },
            Relation { fact: 3, value: 0, evidence: 2 },
        ],
        constraints: vec![0, 5],
        ..case(set(&[0, 1, 2, 63]))
    }
}
