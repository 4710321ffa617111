//! What stops a cut whose condition holds.

use std::collections::BTreeSet;

use crate::near::{Acts, World};
use crate::records::Cut;
use crate::rules::Rule;
use crate::words::{Telling, across};

/// The cuts that a cut precedes, through others too, whether these hold or not.
fn preceded(cuts: &[Cut], number: u8) -> BTreeSet<u8> {
    let (mut all, mut next) = (BTreeSet::new(), vec![number]);
    while let Some(number) = next.pop() {
        let direct = cuts.get(usize::from(number)).into_iter().flat_map(|cut| &cut.precedes);
        next.extend(direct.map(|other| other.number).filter(|other| all.insert(*other)));
    }
    all
}

impl Telling<'_> {
    fn cuts(&self) -> &[Cut] {
        &self.near.plan().records().cuts
    }

    /// In the worlds in which the condition holds: cuts that go first, or else edges that block its set.
    pub(crate) fn stopped(&self, rule: Rule) -> String {
        let worlds = self.near.worlds().iter().zip(self.holding(rule));
        let holding = worlds.filter(|(_, holds)| *holds).map(|(world, _)| world);
        let stopping = holding.map(|world| match self.going_first(world, rule) {
            first if first.is_empty() => (first, self.blocking(&world.acts, rule)),
            first => (first, BTreeSet::new()),
        });
        let (first, edges): (Vec<BTreeSet<u8>>, Vec<BTreeSet<u8>>) = stopping.unzip();
        let gives_way = across(&first, |cut| self.things.cut(cut));
        let blocked = across(&edges, |edge| self.things.edge(edge));
        match (gives_way, blocked) {
            (Some(first), Some(edges)) => {
                format!("it gives way to {first}, or is blocked by {edges}")
            }
            (Some(first), None) => format!("it gives way to {first}"),
            (None, Some(edges)) => format!("it is blocked by {edges}"),
            (None, None) => "it is stopped".to_string(),
        }
    }

    /// The cuts that hold, overlap with this one and precede it, and are not preceded by it.
    fn going_first(&self, world: &World, rule: Rule) -> BTreeSet<u8> {
        let (cuts, own) = (self.cuts(), rule.number());
        let Some(cut) = cuts.get(usize::from(own)) else {
            return BTreeSet::new();
        };
        let after = preceded(cuts, own);
        let holds = |cut: &Cut| world.nodes.get(usize::from(cut.condition.number)) == Some(&true);
        let others = cuts.iter().zip(0..).filter(|(other, _)| other.members.meets(cut.members));
        let active = others.filter(|(other, number)| holds(other) && !after.contains(number));
        active
            .map(|(_, number)| number)
            .filter(|other| preceded(cuts, *other).contains(&own))
            .collect()
    }

    /// The edges that block a cut's set; the event may be that of another cut of the same set.
    fn blocking(&self, acts: &Acts, rule: Rule) -> BTreeSet<u8> {
        let members = |number: u8| self.cuts().get(usize::from(number)).map(|cut| cut.members);
        let own = members(rule.number());
        let blocked = acts.blocked.iter().filter(|(cut, _)| members(*cut) == own);
        blocked.map(|(_, edge)| *edge).collect()
    }
}
