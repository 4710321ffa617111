//! Circles: persons in groups, which grow together by what joins two of them.
//! Of each fact the nodes that name it are sought, not of each node its facts.

use crate::expressions::{persons_of, unresolved_decisions};
use crate::records::{Attachment, Case, Edge, Node, Plan, Refusal, one};

/// The circle of each person, on the roster or off it; the refusal of a plan
/// or a case that is not read.
pub fn circles(plan: &[u8], case: &[u8]) -> Result<[u64; 64], Refusal> {
    let plan = Plan::read(plan)?;
    let case = Case::read(case, &plan)?;
    let mut groups = Groups::alone();
    for edge in &plan.edges {
        groups.unite(edge.ends());
    }
    for cut in &plan.cuts {
        groups.unite(cut.members);
    }
    for attachment in &plan.attachments {
        groups.unite(attachment.persons());
    }
    for bar in &plan.bars {
        groups.unite(bar.members);
    }
    for (cut, edge) in unresolved_decisions(&plan) {
        groups.unite(plan.cuts[cut as usize].members | plan.edges[edge as usize].ends());
    }
    for fact in 0..plan.facts.len() {
        groups.unite(touched(&plan, &case, fact));
    }
    Ok(groups.all())
}

/// Each person has a way to the leader of the group, who leads to nobody else.
struct Groups {
    next: [usize; 64],
}

impl Groups {
    fn alone() -> Groups {
        Groups { next: std::array::from_fn(|person| person) }
    }

    fn leader(&self, person: usize) -> usize {
        match self.next[person] {
            next if next == person => person,
            next => self.leader(next),
        }
    }

    /// Puts the persons of the set, with all who are with them, into one group.
    fn unite(&mut self, set: u64) {
        let leaders: Vec<usize> =
            persons_of(set).map(|person| self.leader(person.into())).collect();
        let Some(&first) = leaders.first() else { return };
        for leader in leaders {
            self.next[leader] = first;
        }
    }

    fn all(&self) -> [u64; 64] {
        let leaders: [usize; 64] = std::array::from_fn(|person| self.leader(person));
        let with = |leader: usize| (0..64).filter(move |&other| leaders[other] == leader);
        leaders.map(|leader| with(leader).fold(0, |all, other| all | 1 << other))
    }
}

/// For each node, whether its text names the fact.
fn naming(plan: &Plan, fact: usize) -> Vec<bool> {
    let mut naming: Vec<bool> = Vec::with_capacity(plan.nodes.len());
    for node in &plan.nodes {
        let lower = |&child: &u8| naming[child as usize];
        naming.push(match node {
            Node::Literal(_) => false,
            Node::Fact(number) => *number as usize == fact,
            Node::And(children) | Node::Or(children) => children.iter().any(lower),
            Node::Not(child) => lower(child),
        });
    }
    naming
}

/// Whom a fact touches: nobody where no rule and no constraint uses it, as it
/// is not bound.
fn touched(plan: &Plan, case: &Case, fact: usize) -> u64 {
    let naming = naming(plan, fact);
    let names = |node: &u8| naming[*node as usize];
    let edge_names = |edge: &&Edge| names(&edge.condition) || edge.defeaters.iter().any(names);
    let mut sets: Vec<u64> = plan.edges.iter().filter(edge_names).map(Edge::ends).collect();
    let cuts = plan.cuts.iter().filter(|cut| names(&cut.condition));
    sets.extend(cuts.map(|cut| cut.members));
    let attachments = plan.attachments.iter().filter(|rule| names(&rule.condition));
    sets.extend(attachments.map(Attachment::persons));
    let bars = plan.bars.iter().filter(|bar| names(&bar.condition));
    sets.extend(bars.map(|bar| bar.members));
    let statuses = plan.statuses.iter().filter(|status| names(&status.condition));
    sets.extend(statuses.map(|status| one(status.person)));
    let constrained = case.constraints.iter().any(names);
    sets.extend(constrained.then_some(case.heading.roster));
    if sets.is_empty() {
        return 0;
    }
    let tuple = plan.facts[fact].relation.iter().flat_map(|(_, tuple)| tuple);
    sets.extend(tuple.map(|&person| one(person)));
    sets.into_iter().fold(0, |all, set| all | set)
}
