//! Every person in each place where a person's mask is made or a person is sought in one: small plans over an ordered pair of persons and the next
//! two, so that no mask can stand for another without being seen.

use crate::build::{attachment, bar, base, case, combination, cut, set, status};
use crate::generate::Input;
use crate::wire::{Attachment, BLOCKED, Cut, Edge, Node, OVERRIDES, Plan, Status, UNRESOLVED};

/// Numbers of persons.
pub const PERSONS: u8 = 64;

/// Nodes of every plan here: true, false, and two facts of which nothing is known.
const ALWAYS: u8 = 0;
const NEVER: u8 = 1;
const FIRST: u8 = 2;
const SECOND: u8 = 3;

/// A family that no case has a record of.
const FAMILY: u8 = 7;

/// The ordered pair, and two others.
type Four = [u8; 4];

pub struct Place {
    pub name: &'static str,
    plan: fn(Four) -> Plan,
    /// What its inputs are refused with where all are on the roster, 0 for nothing.
    refusal: u8,
}

/// An input, and what it is made for.
pub struct Placed {
    pub input: Input,
    /// 0 for none.
    pub refusal: u8,
    /// Whether just those named are on the roster.
    pub only_named: bool,
}

const fn answered(name: &'static str, plan: fn(Four) -> Plan) -> Place {
    Place { name, plan, refusal: 0 }
}

const fn undecided(name: &'static str, plan: fn(Four) -> Plan) -> Place {
    Place { name, plan, refusal: 6 }
}

pub const PLACES: [Place; 35] = [
    answered("ends of a Base edge", |[p, q, ..]| edges(&[base(p, q, ALWAYS)])),
    answered("ends of a Combination edge", |four| combined(four, Some(0))),
    answered("ends of a Combination edge at a chain", |four| combined(four, None)),
    answered("ends of an open edge", |[p, q, ..]| edges(&[base(p, q, FIRST)])),
    answered("ends of an edge with an open defeater", defeated),
    answered("chain", |[p, q, r, _]| edges(&[base(p, q, ALWAYS), base(q, r, ALWAYS)])),
    answered("chain, perhaps", |[p, q, r, _]| edges(&[base(p, q, ALWAYS), base(q, r, FIRST)])),
    answered("clique", clique),
    answered("mark that spreads by a tuple", spread),
    answered("anchor", |[p, q, ..]| attachments(&[attachment(&[q], p, ALWAYS)])),
    answered("open anchor", |[p, q, ..]| attachments(&[attachment(&[q], p, FIRST)])),
    answered("anchor that moves", moved),
    answered("anchor that is barred", barred_anchor),
    answered("status", |[p, q, ..]| Plan { statuses: vec![status(p, ALWAYS)], ..joined(p, q) }),
    answered("bar", |[p, q, ..]| Plan { bars: vec![bar(&[p], ALWAYS)], ..joined(p, q) }),
    answered("bar and status", barred_and_excluded),
    answered("open status", |[p, q, ..]| Plan { statuses: vec![status(p, FIRST)], ..joined(p, q) }),
    answered("open bar", |[p, q, ..]| Plan { bars: vec![bar(&[p], FIRST)], ..joined(p, q) }),
    answered("tuple of two", |[p, q, r, _]| tuple(&[p, q], &[p, q], r)),
    answered("tuple of four", |[p, q, r, s]| tuple(&[s, r, q, p], &[p, q, s], r)),
    answered("influence over an edge", influence_over_edge),
    answered("influence over an anchor", influence_over_anchor),
    undecided("left end in a cut, undecided", |[p, q, ..]| crossed(p, q, p, None)),
    answered("left end in a cut, blocked", |[p, q, ..]| crossed(p, q, p, Some(BLOCKED))),
    answered("left end in a cut, overridden", |[p, q, ..]| crossed(p, q, p, Some(OVERRIDES))),
    answered("left end in a cut, unresolved", |[p, q, ..]| crossed(p, q, p, Some(UNRESOLVED))),
    undecided("right end in a cut, undecided", |[p, q, ..]| crossed(p, q, q, None)),
    answered("right end in a cut, blocked", |[p, q, ..]| crossed(p, q, q, Some(BLOCKED))),
    answered("right end in a cut, overridden", |[p, q, ..]| crossed(p, q, q, Some(OVERRIDES))),
    answered("right end in a cut, unresolved", |[p, q, ..]| crossed(p, q, q, Some(UNRESOLVED))),
    answered("both ends in a cut", |[p, q, ..]| cut_beside(p, q, &[p, q])),
    answered("no end in a cut", |[p, q, r, _]| cut_beside(p, q, &[r])),
    answered("decision of a cut elsewhere", decided_elsewhere),
    answered("overlapping cuts", |[p, q, r, _]| overlap(&[p, q], &[q, r], None)),
    answered("preceded cut", |[p, q, r, _]| overlap(&[p, q], &[q, r], Some(vec![1]))),
];

/// Each ordered pair of two persons.
pub fn pairs() -> impl Iterator<Item = (u8, u8)> {
    let all = (0..PERSONS).flat_map(|p| (0..PERSONS).map(move |q| (p, q)));
    all.filter(|(p, q)| p != q)
}

/// The pair, then the next two numbers after its second that are free, round the end.
fn four(p: u8, q: u8) -> Four {
    let next = |after: u8, taken: &[u8]| {
        let mut round = (1..PERSONS).map(|step| (after + step) % PERSONS);
        round.find(|number| !taken.contains(number)).expect("more than four persons")
    };
    let r = next(q, &[p]);
    [p, q, r, next(r, &[p, q])]
}

impl Place {
    /// With a roster of just those who are named, of everybody, and of everybody but the first of the pair, whom a rule names: that one is refused.
    pub fn inputs(&self, p: u8, q: u8) -> [Placed; 3] {
        let plan = (self.plan)(four(p, q));
        let off = if self.refusal == 0 { 9 } else { self.refusal };
        let only_named = Placed::of(plan.clone(), named(&plan), self.refusal);
        let all = Placed::of(plan.clone(), u64::MAX, self.refusal);
        let without = Placed::of(plan, u64::MAX & !set(&[p]), off);
        [Placed { only_named: true, ..only_named }, all, without]
    }
}

impl Placed {
    fn of(plan: Plan, roster: u64, refusal: u8) -> Placed {
        Placed { input: Input { plan, case: case(roster) }, refusal, only_named: false }
    }
}

/// A number from 64 on in each place of a person's byte.
pub fn out_of_range(number: u8) -> [Placed; 5] {
    // The person whom the number would be if its upper bits were lost, and another.
    let p = number % PERSONS;
    let q = (p + 1) % PERSONS;
    let plans = [
        edges(&[base(p, q, ALWAYS), base(number, q, ALWAYS)]),
        edges(&[base(p, q, ALWAYS), base(q, number, ALWAYS)]),
        attachments(&[attachment(&[q], p, ALWAYS), attachment(&[q], number, ALWAYS)]),
        statuses(&[status(p, ALWAYS), status(q, ALWAYS), status(number, ALWAYS)]),
        tuple(&[p, number], &[p], q),
    ];
    plans.map(|plan| Placed::of(plan, u64::MAX, 1))
}

/// The persons whom rules and facts name.
fn named(plan: &Plan) -> u64 {
    let edges = plan.edges.iter().flat_map(|edge| [edge.left, edge.right]);
    let anchors = plan.attachments.iter().map(|rule| rule.anchor);
    let excluded = plan.statuses.iter().map(|rule| rule.person);
    let tuples = plan.facts.iter().flatten().flat_map(|(_, tuple)| tuple.iter().copied());
    let persons: Vec<u8> = edges.chain(anchors).chain(excluded).chain(tuples).collect();
    let cuts = plan.cuts.iter().map(|rule| rule.members);
    let attached = plan.attachments.iter().map(|rule| rule.members);
    let barred = plan.bars.iter().map(|rule| rule.members);
    cuts.chain(attached).chain(barred).fold(set(&persons), |all, members| all | members)
}

/// No rule yet.
fn empty() -> Plan {
    let nodes = vec![Node::Literal(1), Node::Literal(0), Node::Fact(0), Node::Fact(1)];
    Plan { facts: vec![None, None], nodes, ..Plan::default() }
}

fn edges(edges: &[Edge]) -> Plan {
    Plan { edges: edges.to_vec(), ..empty() }
}

fn attachments(attachments: &[Attachment]) -> Plan {
    Plan { attachments: attachments.to_vec(), ..empty() }
}

fn statuses(statuses: &[Status]) -> Plan {
    Plan { statuses: statuses.to_vec(), ..empty() }
}

/// One block.
fn joined(p: u8, q: u8) -> Plan {
    edges(&[base(p, q, ALWAYS)])
}

/// A base chain with a Combination edge: one block of four with a chain citation, all at discretion without.
fn combined([p, q, r, s]: Four, chain: Option<u8>) -> Plan {
    let edges = [base(q, r, ALWAYS), base(r, s, ALWAYS), combination(p, q, ALWAYS)];
    Plan { chain, ..self::edges(&edges) }
}

fn defeated([p, q, ..]: Four) -> Plan {
    edges(&[Edge { defeaters: Some(vec![FIRST]), ..base(p, q, ALWAYS) }])
}

fn clique([p, q, r, _]: Four) -> Plan {
    edges(&[base(p, q, ALWAYS), base(q, r, ALWAYS), base(p, r, ALWAYS)])
}

/// A chain whose first person a fact names that touches the fourth.
fn spread([p, q, r, s]: Four) -> Plan {
    Plan { edges: vec![base(p, q, ALWAYS), base(q, r, ALWAYS)], ..tuple(&[p], &[], s) }
}

fn moved([p, q, r, _]: Four) -> Plan {
    attachments(&[attachment(&[q], p, ALWAYS), attachment(&[p], r, ALWAYS)])
}

/// The one attached is not barred, the anchor is.
fn barred_anchor([p, q, r, _]: Four) -> Plan {
    let bars = vec![bar(&[q], ALWAYS), bar(&[p, r], ALWAYS)];
    Plan { bars, ..attachments(&[attachment(&[q], p, ALWAYS)]) }
}

fn barred_and_excluded([p, q, ..]: Four) -> Plan {
    let bars = vec![bar(&[p, q], ALWAYS)];
    Plan { bars, ..statuses(&[status(p, ALWAYS)]) }
}

/// An open fact with this tuple excludes one; another open fact excludes those to be seen, as only a line that is not decided shows what touches it.
fn tuple(tuple: &[u8], seen: &[u8], one: u8) -> Plan {
    let mut rules: Vec<Status> = seen.iter().map(|&person| status(person, FIRST)).collect();
    rules.push(status(one, SECOND));
    Plan { facts: vec![None, Some((FAMILY, tuple.to_vec()))], ..statuses(&rules) }
}

/// An open fact each: what touches one reaches the other only over the rule that joins them, which never holds.
fn apart(p: u8, q: u8) -> Plan {
    statuses(&[status(p, FIRST), status(q, SECOND)])
}

fn influence_over_edge([p, q, ..]: Four) -> Plan {
    Plan { edges: vec![base(p, q, NEVER)], ..apart(p, q) }
}

fn influence_over_anchor([p, q, ..]: Four) -> Plan {
    Plan { attachments: vec![attachment(&[q], p, NEVER)], ..apart(p, q) }
}

/// A Combination edge with one end in a cut.
fn crossed(p: u8, q: u8, member: u8, verdict: Option<u8>) -> Plan {
    let decisions = verdict.map(|verdict| vec![(0, verdict)]);
    let cuts = vec![Cut { decisions, ..cut(&[member], ALWAYS) }];
    Plan { cuts, ..edges(&[combination(p, q, ALWAYS)]) }
}

/// A Combination edge that crosses no cut, and needs no decision.
fn cut_beside(p: u8, q: u8, members: &[u8]) -> Plan {
    Plan { cuts: vec![cut(members, ALWAYS)], ..edges(&[combination(p, q, ALWAYS)]) }
}

/// An unresolved decision touches the edge's ends and the cut's member, which nothing else joins; all are open, so that it shows.
fn decided_elsewhere([p, q, r, _]: Four) -> Plan {
    let decisions = Some(vec![(0, UNRESOLVED)]);
    Plan {
        cuts: vec![Cut { decisions, ..cut(&[r], ALWAYS) }],
        statuses: vec![status(p, FIRST), status(q, FIRST), status(r, SECOND)],
        ..edges(&[combination(p, q, ALWAYS)])
    }
}

fn overlap(earlier: &[u8], later: &[u8], precedes: Option<Vec<u8>>) -> Plan {
    let cuts = vec![Cut { precedes, ..cut(earlier, ALWAYS) }, cut(later, ALWAYS)];
    Plan { cuts, ..empty() }
}
