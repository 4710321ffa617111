//! The smallest input that still shows what was found.

use crate::generate::Input;
use crate::wire::*;

/// Tries every simpler neighbour until none of them still shows it.
pub fn shrink(start: Input, mut shows: impl FnMut(&Input) -> bool) -> Input {
    let mut best = start;
    loop {
        let size = weight(&best);
        let smaller = neighbours(&best).into_iter().find(|next| weight(next) < size && shows(next));
        match smaller {
            Some(next) => best = next,
            None => return best,
        }
    }
}

/// Shorter first; among equals, smaller bytes.
fn weight(input: &Input) -> (usize, u64) {
    let bytes = [input.plan.encode(), input.case.encode()].concat();
    let sum = bytes.iter().map(|&byte| u64::from(byte)).sum();
    (bytes.len(), sum)
}

fn neighbours(input: &Input) -> Vec<Input> {
    let mut found = Vec::new();
    drop_rules(input, &mut found);
    drop_case_records(input, &mut found);
    drop_facts(input, &mut found);
    drop_nodes(input, &mut found);
    drop_edges(input, &mut found);
    drop_cuts(input, &mut found);
    drop_persons(input, &mut found);
    drop_fields(input, &mut found);
    lower_values(input, &mut found);
    found
}

fn with(input: &Input, found: &mut Vec<Input>, change: impl FnOnce(&mut Input)) {
    let mut next = input.clone();
    change(&mut next);
    found.push(next);
}

fn drop_rules(input: &Input, found: &mut Vec<Input>) {
    for at in 0..input.plan.attachments.len() {
        with(input, found, |next| drop(next.plan.attachments.remove(at)));
    }
    for at in 0..input.plan.bars.len() {
        with(input, found, |next| drop(next.plan.bars.remove(at)));
    }
    for at in 0..input.plan.statuses.len() {
        with(input, found, |next| drop(next.plan.statuses.remove(at)));
    }
}

fn drop_case_records(input: &Input, found: &mut Vec<Input>) {
    for at in 0..input.case.families.len() {
        with(input, found, |next| drop(next.case.families.remove(at)));
    }
    for at in 0..input.case.booleans.len() {
        with(input, found, |next| drop(next.case.booleans.remove(at)));
    }
    for at in 0..input.case.relations.len() {
        with(input, found, |next| drop(next.case.relations.remove(at)));
    }
    for at in 0..input.case.constraints.len() {
        with(input, found, |next| {
            next.case.constraints.remove(at);
        });
    }
}

/// Numbers above a dropped one fall by one.
fn fall(number: &mut u8, dropped: u8) {
    if *number > dropped {
        *number -= 1;
    }
}

fn drop_facts(input: &Input, found: &mut Vec<Input>) {
    for at in 0..input.plan.facts.len() {
        for value in 0..2 {
            with(input, found, |next| drop_fact(next, at as u8, value));
        }
    }
}

/// Nodes of the fact become literals.
fn drop_fact(next: &mut Input, at: u8, value: u8) {
    next.plan.facts.remove(at as usize);
    for node in &mut next.plan.nodes {
        match node {
            Node::Fact(fact) if *fact == at => *node = Node::Literal(value),
            Node::Fact(fact) => fall(fact, at),
            _ => {}
        }
    }
    let cuts = next.plan.cuts.iter_mut().map(|rule| &mut rule.election);
    let attachments = next.plan.attachments.iter_mut().map(|rule| &mut rule.election);
    for election in cuts.chain(attachments) {
        match election {
            Some(held) if held.fact == at => *election = None,
            Some(held) => fall(&mut held.fact, at),
            None => {}
        }
    }
    next.case.booleans.retain(|record| record.fact != at);
    next.case.booleans.iter_mut().for_each(|record| fall(&mut record.fact, at));
    next.case.relations.retain(|record| record.fact != at);
    next.case.relations.iter_mut().for_each(|record| fall(&mut record.fact, at));
}

fn each_node_number(next: &mut Input, mut change: impl FnMut(&mut u8)) {
    for node in &mut next.plan.nodes {
        match node {
            Node::And(children) | Node::Or(children) => children.iter_mut().for_each(&mut change),
            Node::Not(child) => change(child),
            Node::Literal(_) | Node::Fact(_) => {}
        }
    }
    for edge in &mut next.plan.edges {
        change(&mut edge.condition);
        edge.defeaters.iter_mut().flatten().for_each(&mut change);
    }
    next.plan.cuts.iter_mut().for_each(|rule| change(&mut rule.condition));
    next.plan.attachments.iter_mut().for_each(|rule| change(&mut rule.condition));
    next.plan.bars.iter_mut().for_each(|rule| change(&mut rule.condition));
    next.plan.statuses.iter_mut().for_each(|rule| change(&mut rule.condition));
    next.case.constraints.iter_mut().for_each(change);
}

/// Users of a dropped node turn to any lower one, or to the next.
fn drop_nodes(input: &Input, found: &mut Vec<Input>) {
    for at in (0..input.plan.nodes.len()).rev() {
        for instead in 0..at.max(1) {
            with(input, found, |next| {
                next.plan.nodes.remove(at);
                each_node_number(next, |number| {
                    if *number as usize == at {
                        *number = instead as u8;
                    } else {
                        fall(number, at as u8);
                    }
                });
            });
        }
        for value in 0..2 {
            with(input, found, |next| next.plan.nodes[at] = Node::Literal(value));
        }
    }
}

fn drop_edges(input: &Input, found: &mut Vec<Input>) {
    for at in 0..input.plan.edges.len() {
        with(input, found, |next| {
            next.plan.edges.remove(at);
            for list in next.plan.cuts.iter_mut().filter_map(|cut| cut.decisions.as_mut()) {
                list.retain(|(edge, _)| *edge as usize != at);
                list.iter_mut().for_each(|(edge, _)| fall(edge, at as u8));
            }
        });
    }
}

fn drop_cuts(input: &Input, found: &mut Vec<Input>) {
    for at in 0..input.plan.cuts.len() {
        with(input, found, |next| {
            next.plan.cuts.remove(at);
            for list in next.plan.cuts.iter_mut().filter_map(|cut| cut.precedes.as_mut()) {
                list.retain(|cut| *cut as usize != at);
                list.iter_mut().for_each(|cut| fall(cut, at as u8));
            }
        });
    }
}

fn each_mask(next: &mut Input, mut change: impl FnMut(&mut u64)) {
    next.plan.cuts.iter_mut().for_each(|rule| change(&mut rule.members));
    next.plan.attachments.iter_mut().for_each(|rule| change(&mut rule.members));
    next.plan.bars.iter_mut().for_each(|rule| change(&mut rule.members));
    change(&mut next.case.roster);
}

fn each_person(next: &mut Input, mut change: impl FnMut(&mut u8)) {
    for edge in &mut next.plan.edges {
        change(&mut edge.left);
        change(&mut edge.right);
    }
    next.plan.attachments.iter_mut().for_each(|rule| change(&mut rule.anchor));
    next.plan.statuses.iter_mut().for_each(|rule| change(&mut rule.person));
    for (_, tuple) in next.plan.facts.iter_mut().flatten() {
        tuple.iter_mut().for_each(&mut change);
    }
}

/// Takes a person out of all sets, moves one to a free lower number, and
/// clears single bits.
fn drop_persons(input: &Input, found: &mut Vec<Input>) {
    for person in (0..64).filter(|person| input.case.roster >> person & 1 == 1) {
        with(input, found, |next| each_mask(next, |mask| *mask &= !(1 << person)));
        let free = (0..person).find(|lower| input.case.roster >> lower & 1 == 0);
        if let Some(free) = free {
            with(input, found, |next| rename(next, person, free));
        }
    }
    for (at, cut) in input.plan.cuts.iter().enumerate() {
        each_bit(cut.members, |bit| with(input, found, |next| next.plan.cuts[at].members &= !bit));
    }
    for (at, rule) in input.plan.attachments.iter().enumerate() {
        each_bit(rule.members, |bit| {
            with(input, found, |next| next.plan.attachments[at].members &= !bit)
        });
    }
    for (at, bar) in input.plan.bars.iter().enumerate() {
        each_bit(bar.members, |bit| with(input, found, |next| next.plan.bars[at].members &= !bit));
    }
}

fn each_bit(mask: u64, mut act: impl FnMut(u64)) {
    (0..64).map(|bit| 1u64 << bit).filter(|bit| mask & bit != 0).for_each(&mut act);
}

fn rename(next: &mut Input, from: u8, to: u8) {
    each_mask(next, |mask| {
        if *mask >> from & 1 == 1 {
            *mask = *mask & !(1 << from) | 1 << to;
        }
    });
    each_person(next, |person| {
        if *person == from {
            *person = to;
        }
    });
}

/// Optional fields and list entries.
fn drop_fields(input: &Input, found: &mut Vec<Input>) {
    with(input, found, |next| next.plan.chain = None);
    for (at, node) in input.plan.nodes.iter().enumerate() {
        if let Node::And(children) | Node::Or(children) = node {
            for child in 0..children.len() {
                with(input, found, |next| {
                    if let Node::And(list) | Node::Or(list) = &mut next.plan.nodes[at] {
                        list.remove(child);
                    }
                });
            }
        }
    }
    for (at, edge) in input.plan.edges.iter().enumerate() {
        with(input, found, |next| next.plan.edges[at].defeaters = None);
        with(input, found, |next| next.plan.edges[at].combination = false);
        shorter(&edge.defeaters, |list| {
            with(input, found, |next| next.plan.edges[at].defeaters = list)
        });
    }
    for (at, cut) in input.plan.cuts.iter().enumerate() {
        with(input, found, |next| next.plan.cuts[at].election = None);
        shorter(&cut.decisions, |list| {
            with(input, found, |next| next.plan.cuts[at].decisions = list)
        });
        shorter(&cut.precedes, |list| {
            with(input, found, |next| next.plan.cuts[at].precedes = list)
        });
    }
    for at in 0..input.plan.attachments.len() {
        with(input, found, |next| next.plan.attachments[at].election = None);
    }
    for (at, record) in input.case.booleans.iter().enumerate() {
        with(input, found, |next| next.case.booleans[at].unknown = None);
        shorter(&record.observations, |list| {
            with(input, found, |next| next.case.booleans[at].observations = list);
        });
    }
    for at in 0..input.case.families.len() {
        with(input, found, |next| next.case.families[at].complete = None);
    }
}

/// The list left out, and the list without each of its entries.
fn shorter<T: Clone>(list: &List<T>, mut act: impl FnMut(List<T>)) {
    let Some(entries) = list else {
        return;
    };
    act(None);
    for at in 0..entries.len() {
        let mut fewer = entries.clone();
        fewer.remove(at);
        act(Some(fewer));
    }
}

/// Free numbers to 0 or 1.
fn lower_values(input: &Input, found: &mut Vec<Input>) {
    with(input, found, |next| {
        next.plan.relation = 0;
        next.case.relation = 0;
    });
    with(input, found, |next| {
        let scope = next.case.scope;
        let families = next.case.families.iter_mut().filter(|family| family.scope == scope);
        families.for_each(|family| family.scope = Some(1));
        next.case.scope = Some(1);
    });
    with(input, found, |next| next.case.segment = Some(1));
    with(input, found, |next| next.case.complete = next.case.complete.map(|_| 0));
    let plan = &input.plan;
    for at in 0..plan.edges.len() {
        with(input, found, |next| next.plan.edges[at].citation = 0);
        with(input, found, |next| next.plan.edges[at].condition = 0);
    }
    for at in 0..plan.cuts.len() {
        with(input, found, |next| next.plan.cuts[at].citation = 0);
        with(input, found, |next| next.plan.cuts[at].condition = 0);
    }
    for at in 0..plan.attachments.len() {
        with(input, found, |next| next.plan.attachments[at].citation = 0);
        with(input, found, |next| next.plan.attachments[at].actor = 1);
        with(input, found, |next| next.plan.attachments[at].condition = 0);
    }
    for at in 0..plan.bars.len() {
        with(input, found, |next| next.plan.bars[at].citation = 0);
        with(input, found, |next| next.plan.bars[at].condition = 0);
    }
    for at in 0..plan.statuses.len() {
        with(input, found, |next| next.plan.statuses[at].citation = 0);
        with(input, found, |next| next.plan.statuses[at].condition = 0);
    }
}
