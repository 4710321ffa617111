//! Pairs of cases that say the same of the facts that touch a circle, and whatever else of the others.

use inputs::generate::{self, Input};
use inputs::random::Random;
use inputs::wire::{Boolean, Case, Family, Node, Plan, Relation};

use crate::beside::beside;

/// A plan and a case of several circles: two or three inputs side by side. Some plans are of the sorts that only document 01 accepts.
pub fn input(random: &mut Random) -> Input {
    let mut whole = part(random);
    for _ in 0..random.between(1, 2) {
        let next = part(random);
        whole = beside(&whole, &next).unwrap_or(whole);
    }
    whole.case.most_worlds = 4096;
    whole
}

fn part(random: &mut Random) -> Input {
    let mut input = match random.below(8) {
        0 => generate::mixed(random),
        1 => generate::input(random, generate::UNDECIDED),
        2 | 3 => generate::input(random, generate::DENSE),
        _ => generate::input(random, generate::TINY),
    };
    if random.percent(90) {
        input.case.constraints.clear();
    }
    if random.percent(15) {
        generate::loosen(random, &mut input.plan);
    }
    input
}

/// The facts that a node uses.
fn uses(plan: &Plan, node: u8) -> u64 {
    match &plan.nodes[usize::from(node)] {
        Node::Literal(_) => 0,
        Node::Fact(fact) => 1 << fact,
        Node::And(children) | Node::Or(children) => {
            children.iter().fold(0, |all, child| all | uses(plan, *child))
        }
        Node::Not(child) => uses(plan, *child),
    }
}

/// For each fact, everyone whom it touches; nobody for one that nothing uses.
pub fn touched(plan: &Plan, case: &Case) -> Vec<u64> {
    let mut touched = vec![0; plan.facts.len()];
    let mut bound = 0;
    let mut rule = |used: u64, persons: u64| {
        bound |= used;
        for (fact, all) in touched.iter_mut().enumerate() {
            *all |= if used >> fact & 1 == 1 { persons } else { 0 };
        }
    };
    for edge in &plan.edges {
        let defeaters = edge.defeaters.iter().flatten();
        let used = defeaters.fold(uses(plan, edge.condition), |all, node| all | uses(plan, *node));
        rule(used, 1 << edge.left | 1 << edge.right);
    }
    plan.cuts.iter().for_each(|cut| rule(uses(plan, cut.condition), cut.members));
    for attachment in &plan.attachments {
        rule(uses(plan, attachment.condition), attachment.members | 1 << attachment.anchor);
    }
    plan.bars.iter().for_each(|bar| rule(uses(plan, bar.condition), bar.members));
    plan.statuses.iter().for_each(|status| rule(uses(plan, status.condition), 1 << status.person));
    case.constraints.iter().for_each(|node| rule(uses(plan, *node), case.roster));
    for (number, (fact, all)) in plan.facts.iter().zip(&mut touched).enumerate() {
        let named =
            fact.iter().flat_map(|(_, tuple)| tuple).fold(0, |all, person| all | 1 << person);
        *all |= if bound >> number & 1 == 1 { named } else { 0 };
    }
    touched
}

/// The facts that touch a set of persons.
pub fn touching(plan: &Plan, case: &Case, circle: u64) -> Vec<u8> {
    let touched = touched(plan, case);
    (0..).zip(touched).filter(|(_, persons)| persons & circle != 0).map(|(fact, _)| fact).collect()
}

/// A case of the same heading and constraints that binds these facts alike, by the same papers, and says anything of the others.
pub fn other(random: &mut Random, plan: &Plan, case: &Case, kept: &[u8]) -> Case {
    let mut other = case.clone();
    other.booleans.retain(|boolean| kept.contains(&boolean.fact));
    other.relations.retain(|relation| kept.contains(&relation.fact));
    other.families = families(random, plan, case, &other.relations, kept);
    for fact in (0..plan.facts.len() as u8).filter(|fact| !kept.contains(fact)) {
        match family(plan, fact) {
            None => other.booleans.extend(boolean(random, fact)),
            Some(number) if other.families.iter().any(|family| family.number == number) => {
                let count = random.below(3);
                other.relations.extend((0..count).map(|_| relation(random, fact)));
            }
            Some(_) => {}
        }
    }
    repeat(random, &mut other);
    random.shuffle(&mut other.families);
    random.shuffle(&mut other.booleans);
    random.shuffle(&mut other.relations);
    other
}

fn family(plan: &Plan, fact: u8) -> Option<u8> {
    plan.facts[usize::from(fact)].as_ref().map(|(family, _)| *family)
}

/// Families of any kind, as far as the facts that are kept are bound alike; those that they need come first.
fn families(
    random: &mut Random,
    plan: &Plan,
    case: &Case,
    told: &[Relation],
    kept: &[u8],
) -> Vec<Family> {
    let of = |facts: &mut dyn Iterator<Item = u8>| -> Vec<u8> {
        facts.filter_map(|fact| family(plan, fact)).collect()
    };
    let needed = of(&mut told.iter().map(|relation| relation.fact));
    let silent = of(&mut kept
        .iter()
        .copied()
        .filter(|fact| told.iter().all(|relation| relation.fact != *fact)));
    let mut numbers = of(&mut (0..plan.facts.len() as u8));
    numbers.extend(case.families.iter().map(|family| family.number));
    numbers.sort_by_key(|number| (!needed.contains(number), *number));
    numbers.dedup();
    let all = numbers.into_iter().filter_map(|number| {
        let old = case.families.iter().find(|family| family.number == number);
        let (needed, silent) = (needed.contains(&number), silent.contains(&number));
        alike(random, old, needed, silent, case.scope).map(|(scope, complete)| Family {
            number,
            scope,
            complete,
        })
    });
    all.take(16).collect()
}

/// Scope and completeness under which told and silent facts of a family are bound as before; none where it has no record.
fn alike(
    random: &mut Random,
    old: Option<&Family>,
    needed: bool,
    silent: bool,
    scope: Option<u8>,
) -> Option<(Option<u8>, Option<u8>)> {
    let complete = random.percent(50).then(|| random.byte(64));
    let beside = Some(random.byte(4)).filter(|number| Some(*number) != scope);
    let in_scope = old.is_some_and(|family| family.scope == scope);
    let known = in_scope && old.is_some_and(|family| family.complete.is_some());
    match (needed, silent) {
        (true, false) if in_scope => Some((scope, complete)),
        (true, true) if in_scope => old.map(|family| (family.scope, family.complete)),
        (true, _) => Some((beside, complete)),
        (false, true) if known => old.map(|family| (family.scope, family.complete)),
        (false, true) => match random.below(3) {
            0 => None,
            1 => Some((beside, complete)),
            _ => Some((scope, None)),
        },
        (false, false) if random.percent(20) => None,
        (false, false) => Some((if random.percent(80) { scope } else { beside }, complete)),
    }
}

/// Some of what is told is told twice, which says nothing else.
fn repeat(random: &mut Random, case: &mut Case) {
    let again: Vec<Relation> =
        case.relations.iter().filter(|_| random.percent(20)).cloned().collect();
    case.relations.extend(again);
    for boolean in &mut case.booleans {
        let told = boolean.observations.iter_mut();
        told.filter(|told| (1..16).contains(&told.len()) && random.percent(20))
            .for_each(|told| told.push(told[0]));
    }
}

fn boolean(random: &mut Random, fact: u8) -> Option<Boolean> {
    let observations = |random: &mut Random, count: usize| {
        Some((0..count).map(|_| (random.byte(2), random.byte(64))).collect())
    };
    match random.below(5) {
        0 => None,
        1 => Some(Boolean { fact, unknown: Some(random.byte(64)), observations: None }),
        2 => Some(Boolean { fact, unknown: None, observations: observations(random, 2) }),
        _ => Some(Boolean { fact, unknown: None, observations: observations(random, 1) }),
    }
}

fn relation(random: &mut Random, fact: u8) -> Relation {
    Relation { fact, value: random.byte(2), evidence: random.byte(64) }
}
