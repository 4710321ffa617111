//! One world: freeze, cut, attach, bar, status, and what its lines cite.

use std::cmp::Ordering;

use crate::expressions::{Bound, Valuation, join, node_values, persons_of};
use crate::records::{Attachment, Cut, Decision, Plan, holds, one};

pub type Event = [u8; 12];

pub const MEMBER: u8 = 1;
pub const EXCLUDED: u8 = 2;
pub const BARRED: u8 = 3;
pub const OVERLAP: u8 = 3;
pub const DISCRETION: u8 = 4;

pub fn event(kind: u8, a: u8, b: u8, c: u8, mask: u64) -> Event {
    let mut bytes = [0; 12];
    bytes[..4].copy_from_slice(&[kind, a, b, c]);
    bytes[4..].copy_from_slice(&mask.to_le_bytes());
    bytes
}

/// What every world of a case shares.
pub struct Setting<'a> {
    pub plan: &'a Plan,
    pub bound: &'a Bound,
    pub roster: u64,
    /// For each cut, the cuts it precedes, through chains too.
    precedence: [u16; 16],
    /// For each cut, the edges that always block it.
    blockers: [u64; 16],
    /// For each cut, the unresolved decisions as (edge, decision number).
    unresolved: Vec<Vec<(u8, usize)>>,
    /// What the cut's election shows in events: actor and evidence.
    cut_request: Vec<(u8, u64)>,
    attachment_evidence: Vec<u64>,
    /// Influence sets that meet joined into groups: a mark spreads over its group.
    spreading: [u64; 64],
}

impl<'a> Setting<'a> {
    pub fn of(plan: &'a Plan, bound: &'a Bound, roster: u64) -> Setting<'a> {
        let evidence = |election: Option<crate::records::Election>| {
            election.map_or(0, |election| bound.evidence[election.fact as usize])
        };
        let request =
            |cut: &Cut| (cut.election.map_or(0, |election| election.actor), evidence(cut.election));
        Setting {
            plan,
            bound,
            roster,
            precedence: precedence(plan),
            blockers: blockers(plan),
            unresolved: unresolved_by_cut(plan, bound),
            cut_request: plan.cuts.iter().map(request).collect(),
            attachment_evidence: plan
                .attachments
                .iter()
                .map(|rule| evidence(rule.election))
                .collect(),
            spreading: spreading(bound),
        }
    }

    /// A mark's spread: over the influence sets that it meets, then the closing.
    fn spread(&self, seed: u64) -> u64 {
        let met = persons_of(seed).fold(seed, |all, person| all | self.spreading[person as usize]);
        self.bound.closing.close(met)
    }
}

fn precedence(plan: &Plan) -> [u16; 16] {
    let mut reach = [0u16; 16];
    for (number, cut) in plan.cuts.iter().enumerate() {
        reach[number] = cut.precedes.iter().fold(0, |all, &other| all | 1 << other);
    }
    for middle in 0..16 {
        for from in 0..16 {
            if reach[from] >> middle & 1 == 1 {
                reach[from] |= reach[middle];
            }
        }
    }
    reach
}

fn blockers(plan: &Plan) -> [u64; 16] {
    let mut edges = [0; 16];
    for (number, cut) in plan.cuts.iter().enumerate() {
        let blocked = cut.decisions.iter().filter(|(_, decision)| *decision == Decision::Blocked);
        edges[number] = blocked.fold(0, |all, &(edge, _)| all | 1 << edge);
    }
    edges
}

fn unresolved_by_cut(plan: &Plan, bound: &Bound) -> Vec<Vec<(u8, usize)>> {
    let mut by_cut = vec![Vec::new(); plan.cuts.len()];
    for (number, &(cut, edge)) in bound.decisions.iter().enumerate() {
        by_cut[cut as usize].push((edge, number));
    }
    by_cut
}

fn spreading(bound: &Bound) -> [u64; 64] {
    let mut groups = std::array::from_fn(|person| 1u64 << person);
    for variable in &bound.variables {
        join(&mut groups, variable.influence);
    }
    groups
}

/// The order of sets as rising person lists, a prefix first.
fn list_order(left: u64, right: u64) -> Ordering {
    let differing = left ^ right;
    if differing == 0 {
        return Ordering::Equal;
    }
    let first = differing.trailing_zeros();
    let beyond = if left >> first & 1 == 1 { right } else { left };
    // Up to `first` both agree. The set that holds it comes first, unless the
    // other one has ended there.
    let ended = beyond >> first == 0;
    let holder_is_left = left >> first & 1 == 1;
    if holder_is_left != ended { Ordering::Less } else { Ordering::Greater }
}

/// A set of cuts with equal members.
struct Merged {
    members: u64,
    cuts: u16,
}

/// The state that the steps hand on.
pub struct World {
    /// A person's block; empty for one who is marked or off the roster.
    pub blocks: [u64; 64],
    pub roles: [u8; 64],
    pub kinds: [u8; 64],
    pub events: Vec<Event>,
    frozen: u64,
    applied: u16,
    discretion: u64,
    overlap: u64,
    attached: u64,
}

fn numbers(set: u64) -> impl Iterator<Item = usize> {
    persons_of(set).map(usize::from)
}

impl World {
    /// All steps of document 01, in order.
    pub fn evaluate(setting: &Setting, valuation: Valuation) -> World {
        let mut values = [false; 256];
        node_values(setting.plan, valuation.facts, &mut values);
        World::start()
            .freeze(setting, &values)
            .find_chains(setting)
            .cut(setting, &values, valuation.decisions)
            .split(setting)
            .attach(setting, &values)
            .bar(setting, &values)
            .exclude(setting, &values)
    }

    fn start() -> World {
        World {
            blocks: [0; 64],
            roles: [0; 64],
            kinds: [0; 64],
            events: Vec::new(),
            frozen: 0,
            applied: 0,
            discretion: 0,
            overlap: 0,
            attached: 0,
        }
    }

    fn freeze(mut self, setting: &Setting, values: &[bool; 256]) -> World {
        for (number, edge) in setting.plan.edges.iter().enumerate() {
            let defeated = edge.defeaters.iter().any(|&node| values[node as usize]);
            if values[edge.condition as usize] && !defeated {
                self.frozen |= 1 << number;
                self.events.push(event(1, number as u8, edge.left, edge.right, 0));
            }
        }
        self
    }

    fn find_chains(mut self, setting: &Setting) -> World {
        if setting.plan.chain.is_some() {
            return self;
        }
        let mut near = [0u64; 64];
        let mut groups = std::array::from_fn(|person| 1u64 << person);
        for edge in numbers(self.frozen).map(|number| &setting.plan.edges[number]) {
            if !edge.combination {
                near[edge.left as usize] |= one(edge.right);
                near[edge.right as usize] |= one(edge.left);
                join(&mut groups, edge.ends());
            }
        }
        for person in persons_of(setting.roster) {
            let group = groups[person as usize];
            let lowest = group.trailing_zeros() == u32::from(person);
            let clique = || persons_of(group).all(|p| (near[p as usize] | one(p)) & group == group);
            if lowest && group.count_ones() > 2 && !clique() {
                self.events.push(event(9, 0, 0, 0, group));
                self.discretion |= setting.spread(group);
            }
        }
        self
    }

    fn cut(mut self, setting: &Setting, values: &[bool; 256], decisions: u16) -> World {
        let active = active_cuts(setting.plan, values);
        let kept = drop_preceded(setting, active);
        let merged = merge(setting.plan, kept);
        let overlapping = self.find_overlaps(setting, &merged);
        for (set, overlaps) in merged.iter().zip(overlapping) {
            if !overlaps && !self.blocked(setting, set, decisions) {
                self.apply(setting, set);
            }
        }
        self
    }

    fn find_overlaps(&mut self, setting: &Setting, merged: &[Merged]) -> Vec<bool> {
        let mut overlapping = vec![false; merged.len()];
        for (later, right) in merged.iter().enumerate() {
            for (earlier, left) in merged[..later].iter().enumerate() {
                if left.members & right.members != 0 {
                    overlapping[earlier] = true;
                    overlapping[later] = true;
                    let lowest = |set: &Merged| set.cuts.trailing_zeros() as u8;
                    self.events.push(event(4, lowest(left), lowest(right), 0, 0));
                    self.overlap |= setting.spread(left.members | right.members);
                }
            }
        }
        overlapping
    }

    fn blocked(&mut self, setting: &Setting, set: &Merged, decisions: u16) -> bool {
        let crossing = numbers(self.frozen).filter(|&number| {
            let edge = &setting.plan.edges[number];
            edge.combination && edge.crosses(set.members)
        });
        let crossing = crossing.fold(0u64, |all, number| all | 1 << number);
        let mut blocked = false;
        for cut in numbers(u64::from(set.cuts)) {
            let open = setting.unresolved[cut].iter();
            let open = open.filter(|&&(_, number)| decisions >> number & 1 == 0);
            let says = open.fold(setting.blockers[cut], |all, &(edge, _)| all | 1 << edge);
            let (actor, evidence) = setting.cut_request[cut];
            for edge in numbers(says & crossing) {
                blocked = true;
                self.events.push(event(3, cut as u8, edge as u8, actor, evidence));
            }
        }
        blocked
    }

    fn apply(&mut self, setting: &Setting, set: &Merged) {
        self.applied |= set.cuts;
        for cut in numbers(u64::from(set.cuts)) {
            let (actor, evidence) = setting.cut_request[cut];
            self.events.push(event(2, cut as u8, actor, 0, evidence));
        }
    }

    fn marked(&self) -> u64 {
        self.discretion | self.overlap
    }

    fn split(mut self, setting: &Setting) -> World {
        let free = setting.roster & !self.marked();
        let mut rest = free;
        let mut groups = std::array::from_fn(|person| 1u64 << person);
        for cut in numbers(u64::from(self.applied)).map(|number| &setting.plan.cuts[number]) {
            rest &= !cut.members;
            join(&mut groups, cut.members & free);
        }
        for edge in numbers(self.frozen).map(|number| &setting.plan.edges[number]) {
            if edge.ends() & !rest == 0 {
                join(&mut groups, edge.ends());
            }
        }
        for person in persons_of(setting.roster) {
            let at = person as usize;
            if holds(free, person) {
                self.blocks[at] = groups[at];
                self.roles[at] = MEMBER;
            } else {
                self.kinds[at] = if holds(self.overlap, person) { OVERLAP } else { DISCRETION };
            }
        }
        self
    }

    fn attach(mut self, setting: &Setting, values: &[bool; 256]) -> World {
        for (number, rule) in setting.plan.attachments.iter().enumerate() {
            let target = self.blocks[rule.anchor as usize];
            if values[rule.condition as usize] && target != 0 {
                self.move_to(target, rule.members & setting.roster & !self.marked());
                let evidence = setting.attachment_evidence[number];
                self.events.push(event(5, number as u8, rule.anchor, rule.actor, evidence));
            }
        }
        self
    }

    fn move_to(&mut self, target: u64, moving: u64) {
        let grown = target | moving;
        for person in 0..64 {
            if holds(grown, person) {
                self.blocks[person as usize] = grown;
            } else {
                self.blocks[person as usize] &= !moving;
            }
        }
        self.attached |= moving;
    }

    fn bar(mut self, setting: &Setting, values: &[bool; 256]) -> World {
        for (number, rule) in setting.plan.bars.iter().enumerate() {
            if values[rule.condition as usize] && rule.members & !self.attached != 0 {
                for person in persons_of(rule.members) {
                    self.set_role(person, BARRED);
                }
                self.events.push(event(6, number as u8, 0, 0, 0));
            }
        }
        self
    }

    fn exclude(mut self, setting: &Setting, values: &[bool; 256]) -> World {
        for (number, rule) in setting.plan.statuses.iter().enumerate() {
            if values[rule.condition as usize] {
                self.set_role(rule.person, EXCLUDED);
                self.events.push(event(7, number as u8, rule.person, 0, 0));
            }
        }
        self
    }

    /// A marked person has no role.
    fn set_role(&mut self, person: u8, role: u8) {
        if self.blocks[person as usize] != 0 {
            self.roles[person as usize] = role;
        }
    }

    fn holding(&self, block: u64, role: u8) -> u64 {
        persons_of(block).filter(|&p| self.roles[p as usize] == role).fold(0, |all, p| all | one(p))
    }

    /// What all members of the block cite; cuts that hold only some of them
    /// are left to `own_citations`.
    pub fn block_citations(&self, setting: &Setting, block: u64) -> u64 {
        let plan = setting.plan;
        let (mut cited, mut beyond) = (0, 0);
        for edge in numbers(self.frozen).map(|number| &plan.edges[number]) {
            let (left, right) = (holds(block, edge.left), holds(block, edge.right));
            if left && right {
                cited |= one(edge.citation);
            }
            beyond |= if left { one(edge.right) } else { 0 };
            beyond |= if right { one(edge.left) } else { 0 };
        }
        for cut in numbers(u64::from(self.applied)).map(|number| &plan.cuts[number]) {
            cited |= if cut.members & beyond != 0 { one(cut.citation) } else { 0 };
        }
        let within = |rule: &&Attachment| holds(block, rule.anchor) && rule.members & block != 0;
        plan.attachments.iter().filter(within).fold(cited, |all, rule| all | one(rule.citation))
    }

    /// Applied cuts that hold the person.
    pub fn own_citations(&self, setting: &Setting, person: u8) -> u64 {
        let cuts = numbers(u64::from(self.applied)).map(|number| &setting.plan.cuts[number]);
        cuts.filter(|cut| holds(cut.members, person)).fold(0, |all, cut| all | one(cut.citation))
    }

    /// Bars naming a barred one, and statuses naming an excluded one, of the set.
    pub fn role_citations(&self, setting: &Setting, set: u64) -> u64 {
        let (barred, excluded) = (self.holding(set, BARRED), self.holding(set, EXCLUDED));
        let bars = setting.plan.bars.iter().filter(|bar| bar.members & barred != 0);
        let statuses = setting.plan.statuses.iter().filter(|status| holds(excluded, status.person));
        bars.map(|bar| bar.citation)
            .chain(statuses.map(|status| status.citation))
            .fold(0, |all, citation| all | one(citation))
    }
}

fn active_cuts(plan: &Plan, values: &[bool; 256]) -> u16 {
    let active = plan.cuts.iter().enumerate().filter(|(_, cut)| values[cut.condition as usize]);
    active.fold(0, |all, (number, _)| all | 1 << number)
}

/// Drops are decided together: a dropped cut still drops another.
fn drop_preceded(setting: &Setting, active: u16) -> u16 {
    let cuts = &setting.plan.cuts;
    let precedes = |from: usize, to: usize| setting.precedence[from] >> to & 1 == 1;
    let drops = |cut: usize| {
        numbers(u64::from(active)).any(|other| {
            other != cut
                && cuts[cut].members & cuts[other].members != 0
                && precedes(other, cut)
                && !precedes(cut, other)
        })
    };
    numbers(u64::from(active)).filter(|&cut| !drops(cut)).fold(0, |all, cut| all | 1 << cut)
}

fn merge(plan: &Plan, kept: u16) -> Vec<Merged> {
    let mut merged: Vec<Merged> = Vec::new();
    for cut in numbers(u64::from(kept)) {
        let members = plan.cuts[cut].members;
        match merged.iter_mut().find(|set| set.members == members) {
            Some(set) => set.cuts |= 1 << cut,
            None => merged.push(Merged { members, cuts: 1 << cut }),
        }
    }
    merged.sort_by(|left, right| list_order(left.members, right.members));
    merged
}

#[cfg(test)]
mod tests {
    use super::*;

    #[test]
    fn sets_are_ordered_as_lists() {
        let list = |set: u64| persons_of(set).collect::<Vec<_>>();
        for left in 0..256 {
            for right in 0..256 {
                assert_eq!(list_order(left, right), list(left).cmp(&list(right)), "{left} {right}");
            }
        }
    }
}
